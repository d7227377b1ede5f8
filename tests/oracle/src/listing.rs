//! A listing, the text that `conlist` prints of it, and the sizes of
//! `conlist`'s outputs.

/// A row: one end-to-end connection.
#[derive(Clone, Debug, PartialEq, Eq)]
pub struct Row {
    pub connection: u32,
    pub kind: u32,
    pub source: u32,
    pub destination: u32,
    pub path: Vec<u32>,
    pub name: String,
    pub source_feature: String,
    pub destination_feature: String,
}

/// A diagnostic: the four numbers of document 01, and the Rust's message and
/// path names.
#[derive(Clone, Debug, PartialEq, Eq)]
pub struct Diagnostic {
    pub numbers: [u32; 4],
    pub message: String,
    pub path: Vec<String>,
}

/// What one of the two listings gives.
#[derive(Clone, Debug, Default, PartialEq, Eq)]
pub struct Listing {
    pub rows: Vec<Row>,
    pub diagnostics: Vec<Diagnostic>,
}

/// What `conlist` lends for a listing, and for the text.
pub const ROWS: usize = 64;
pub const DIAGNOSTICS: usize = 64;
pub const COMPOSED_BYTES: usize = 4_096;
pub const TEXT_BYTES: usize = 8_192;

/// The text of an accepted sheet's two listings.
pub fn text(traced: &Listing, group: &Listing) -> String {
    let mut text = String::new();
    for row in traced.rows.iter().chain(&group.rows) {
        put_row(&mut text, row);
    }
    for diagnostic in traced.diagnostics.iter().chain(&group.diagnostics) {
        put_diagnostic(&mut text, diagnostic);
    }
    text.push('Z');
    put_numbers(&mut text, [traced.rows.len(), group.rows.len()]);
    text.push('\n');
    text
}

fn put_row(text: &mut String, row: &Row) {
    text.push('S');
    put_numbers(text, [row.connection, row.kind]);
    put_numbers(text, [row.source, row.destination]);
    put_numbers(text, [row.path.len()]);
    put_numbers(text, &row.path);
    text.push('\n');
    text.push_str(&format!("= {}\n", row.name));
    text.push_str(&format!("< {}\n", row.source_feature));
    text.push_str(&format!("> {}\n", row.destination_feature));
}

fn put_diagnostic(text: &mut String, diagnostic: &Diagnostic) {
    text.push('D');
    put_numbers(text, diagnostic.numbers);
    text.push_str(&format!("\n! {}\n", diagnostic.message));
    for name in &diagnostic.path {
        text.push_str(&format!("@ {name}\n"));
    }
}

/// The columns of a number that is printed.
const COLUMNS: usize = 6;

/// Numbers as they are printed: longer ones stand in full.
pub fn put_numbers<T: std::fmt::Display>(text: &mut String, numbers: impl IntoIterator<Item = T>) {
    for number in numbers {
        text.push_str(&format!("{number:COLUMNS$}"));
    }
}

/// The refusals before any listing, which the original does not know: those of
/// the sheet and its lines, and those of the tables. 22, of too few links, is of
/// the listings alone: `check_tables` does not give it, and no sheet earns it,
/// since `conlist` lends as many rows of links as of `C`.
pub const REFUSALS_OF_LINES: [u64; 5] = [1, 2, 3, 4, 5];
pub const REFUSALS_OF_TABLES: [u64; 6] = [6, 7, 8, 9, 10, 16];

pub fn is_before_the_listings(refusal: u64) -> bool {
    REFUSALS_OF_LINES.contains(&refusal) || REFUSALS_OF_TABLES.contains(&refusal)
}

/// The line of a refusal by a listing or by the text: these have no place.
pub fn refusal_line(refusal: u32) -> String {
    let mut line = String::from("R");
    put_numbers(&mut line, [refusal, 0]);
    line + " -\n"
}

/// The refusal that a text tells, unless it is a list: number, place, letter.
pub fn refusal_of(text: &[u8]) -> Option<[u64; 3]> {
    let (numbers, letter) = text.strip_prefix(b"R")?.split_at_checked(2 * COLUMNS)?;
    let [number, place] = [&numbers[..COLUMNS], &numbers[COLUMNS..]].map(|columns| {
        let number = std::str::from_utf8(columns).ok()?;
        number.trim_start().parse().ok()
    });
    let letter = letter.strip_prefix(b" ")?.first()?;
    Some([number?, place?, u64::from(*letter)])
}

/// The refusal that the traced listing earns in `conlist`.
pub fn traced_refusal(traced: &Listing) -> Option<u32> {
    if traced.rows.len() > ROWS {
        Some(11)
    } else if traced.diagnostics.len() > DIAGNOSTICS {
        Some(12)
    } else {
        None
    }
}

/// The refusal that a group listing with so many rows, bytes of composed names
/// and diagnostics earns in `conlist`.
pub fn group_refusal(rows: usize, composed_bytes: usize, diagnostics: usize) -> Option<u32> {
    if rows > ROWS {
        Some(11)
    } else if composed_bytes > COMPOSED_BYTES {
        Some(14)
    } else if diagnostics > DIAGNOSTICS {
        Some(12)
    } else {
        None
    }
}

/// The bytes that the names of a group listing's rows take together.
pub fn composed_bytes(group: &Listing) -> usize {
    let names = group
        .rows
        .iter()
        .flat_map(|row| [&row.name, &row.source_feature, &row.destination_feature]);
    names.map(String::len).sum()
}
