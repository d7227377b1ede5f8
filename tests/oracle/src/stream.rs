//! The stream of cases, which is also the format of the stored vectors.
//!
//! A case is a line `V`, the length of the sheet and of the text in six columns
//! each, a space and a label; then the sheet's bytes; then the text's bytes.
//! The text is what `conlist` prints, or nothing where nobody has said it yet.

/// The columns of a length.
const COLUMNS: usize = 6;

/// A sheet, and what is printed for it.
#[derive(Clone, Debug, Default, PartialEq, Eq)]
pub struct Case {
    pub label: String,
    pub sheet: Vec<u8>,
    pub text: Vec<u8>,
}

impl Case {
    pub fn bytes(&self) -> Vec<u8> {
        let (sheet, text) = (self.sheet.len(), self.text.len());
        let header = format!("V{sheet:COLUMNS$}{text:COLUMNS$} {}\n", self.label);
        let mut bytes = header.into_bytes();
        bytes.extend(&self.sheet);
        bytes.extend(&self.text);
        bytes
    }
}

/// The cases of a stream, or what is wrong with it.
pub fn read(bytes: &[u8]) -> Result<Vec<Case>, String> {
    let mut cases = Vec::new();
    let mut rest = bytes;
    while !rest.is_empty() {
        let (case, after) =
            split_case(rest).ok_or_else(|| format!("case {} is damaged", cases.len()))?;
        cases.push(case);
        rest = after;
    }
    Ok(cases)
}

fn split_case(bytes: &[u8]) -> Option<(Case, &[u8])> {
    let end = bytes.iter().position(|&byte| byte == b'\n')?;
    let header = std::str::from_utf8(&bytes[..end]).ok()?;
    let lengths = header.strip_prefix('V')?;
    let (sheet, lengths) = lengths.split_at_checked(COLUMNS)?;
    let (text, label) = lengths.split_at_checked(COLUMNS)?;
    let sheet: usize = sheet.trim_start().parse().ok()?;
    let text: usize = text.trim_start().parse().ok()?;
    let label = label.strip_prefix(' ')?.to_string();
    let (sheet, rest) = bytes[end + 1..].split_at_checked(sheet)?;
    let (text, rest) = rest.split_at_checked(text)?;
    let case = Case {
        label,
        sheet: sheet.to_vec(),
        text: text.to_vec(),
    };
    Some((case, rest))
}
