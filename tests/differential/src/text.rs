//! Sheet bytes to text bytes: `list_sheet` against a text that is known.

use oracle::listing::{REFUSALS_OF_LINES, TEXT_BYTES, refusal_line, refusal_of};

use crate::lent::Lent;
use crate::library;
use crate::limits::{OVER, TOO_LARGE};

/// How often what was met, over all sheets.
#[derive(Default)]
pub struct Met {
    pub sheets: usize,
    pub calls: usize,
    pub bytes: usize,
    pub refused: usize,
}

/// Holds the library to `expected`, the text of conlist under a limit: in an output as conlist lends it, in one that is exactly full, and in
/// shorter ones, where 15 takes the place of a list and nothing that of a refusal. Limits that are too large are refused.
pub fn compare(sheet: &[u8], limit: u64, expected: &[u8], met: &mut Met) -> Result<(), String> {
    met.sheets += 1;
    met.bytes += expected.len();
    met.refused += usize::from(expected.starts_with(b"R"));
    too_large(sheet, expected, met)?;
    let mut prints = |length: usize, expected: &[u8]| prints(sheet, limit, length, expected, met);
    prints(TEXT_BYTES, expected)?;
    // A list that is too long is 15 in conlist, and stands in a longer output.
    let fifteen = refusal_line(15).into_bytes();
    let line = fifteen.len();
    if expected == fifteen {
        return Ok(());
    }
    prints(expected.len(), expected)?;
    prints(expected.len() + 10_000, expected)?;
    let short = expected.len() - 1;
    if expected.starts_with(b"R") {
        prints(short, b"")?;
    } else {
        let told: &[u8] = if short < line { b"" } else { &fifteen };
        prints(short, told)?;
    }
    let tiny = if expected.len() < line { expected } else { b"" };
    prints(line - 1, tiny)
}

/// Under limits that are too large a refusal of the sheet or of a line stays, and all else is the refusal of these.
fn too_large(sheet: &[u8], expected: &[u8], met: &mut Met) -> Result<(), String> {
    let over = refusal_line(OVER as u32).into_bytes();
    let due = match refusal_of(expected) {
        Some([number, ..]) if REFUSALS_OF_LINES.contains(&number) => expected,
        _ => &over,
    };
    for limit in TOO_LARGE {
        prints(sheet, limit, TEXT_BYTES, due, met)?;
        prints(sheet, limit, due.len(), due, met)?;
        prints(sheet, limit, due.len() - 1, b"", met)?;
    }
    Ok(())
}

fn prints(
    sheet: &[u8],
    limit: u64,
    length: usize,
    expected: &[u8],
    met: &mut Met,
) -> Result<(), String> {
    met.calls += 1;
    let before = sheet.to_vec();
    let mut text = Lent::<u8>::of_length(length);
    let used = library::list_sheet(sheet, limit, text.lend());
    if sheet != before {
        return Err("it changed its sheet".to_string());
    }
    if used > length {
        return Err(format!("{used} bytes of text in an output of {length}"));
    }
    if text.used(used)? == expected {
        Ok(())
    } else {
        Err(format!("the text in {length} bytes differs"))
    }
}
