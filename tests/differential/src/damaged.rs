//! Sheets whose text is known, refused ones above all: the text of each, what the reader leaves, and every call on tables that are
//! read but not accepted.

use oracle::letters::{LETTERS, row_numbers};
use oracle::listing::{REFUSALS_OF_LINES, REFUSALS_OF_TABLES, refusal_of};
use oracle::sheet::{SHEET_BYTES, Sheet, rows_lent};
use oracle::stream::Case;
use oracle::traced::STEPS;

use crate::lent::Lent;
use crate::library;
use crate::tables::Tables;
use crate::{text, unaccepted};

/// How often what was met, over all sheets.
#[derive(Default)]
pub struct Met {
    pub read: usize,
    /// Sheets that the reader refuses, by their refusal.
    pub refused: [usize; REFUSALS_OF_LINES.len()],
    pub text: text::Met,
    pub unaccepted: unaccepted::Met,
}

pub fn compare(case: &Case, met: &mut Met) -> Result<(), String> {
    text::compare(&case.sheet, STEPS, &case.text, &mut met.text)?;
    let refusal = refusal_of(&case.text);
    match (read(&case.sheet)?, refusal) {
        (Err(told), Some(refusal)) if told == refusal => {
            let place = REFUSALS_OF_LINES.iter().position(|&own| own == told[0]);
            met.refused[place.expect("a refusal of the reader")] += 1;
            Ok(())
        }
        (Err(told), _) => Err(format!("the reader told {told:?}")),
        (Ok(_), Some([number, ..])) if REFUSALS_OF_LINES.contains(&number) => {
            Err("the reader took a sheet that it has to refuse".to_string())
        }
        (Ok(tables), Some(refusal)) if REFUSALS_OF_TABLES.contains(&refusal[0]) => {
            unaccepted::refused(&tables, STEPS, refusal, &mut met.unaccepted)
        }
        (Ok(tables), _) => {
            met.read += 1;
            match library::check_tables(&tables) {
                [0, 0, 0] => Ok(()),
                told => Err(format!("the checks told {told:?} of tables that are good")),
            }
        }
    }
}

/// The reader makes the tables of an accepted sheet.
pub fn read_again(bytes: &[u8], sheet: &Sheet) -> Result<(), String> {
    if read(bytes)? == Ok(Tables::of(sheet)) {
        Ok(())
    } else {
        Err("the reader makes other tables".to_string())
    }
}

/// The tables that the reader makes, as conlist lends them, cut to the rows that it counts; or its refusal, with zeros in all of
/// them.
pub fn read(sheet: &[u8]) -> Result<Result<Tables, [u64; 3]>, String> {
    let mut bytes = Lent::<u8>::of_length(SHEET_BYTES);
    let mut letters: Vec<Lent<u32>> = LETTERS
        .iter()
        .map(|&letter| Lent::of_length(rows_lent(letter) * row_numbers(letter)))
        .collect();
    let lent: Vec<&mut [u32]> = letters.iter_mut().map(Lent::lend).collect();
    let told = library::read_sheet(sheet, bytes.lend(), lent);
    if told[0] != 0 {
        bytes.used(0)?;
        for letter in &letters {
            letter.used(0)?;
        }
        if told[3..].iter().any(|&left| left != 0) {
            return Err("the reader told more than a refusal".to_string());
        }
        return Ok(Err([told[0], told[1], told[2]]));
    }
    let mut tables = Tables {
        bytes: bytes.used(told[1] as usize)?.to_vec(),
        letters: Default::default(),
    };
    for (rank, letter) in letters.iter().enumerate() {
        tables.letters[rank] = letter
            .used(told[rank + 2] as usize * row_numbers(LETTERS[rank]))?
            .to_vec();
    }
    Ok(Ok(tables))
}
