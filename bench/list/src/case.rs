//! A sheet with what both sides are asked to do with it, with chains of 20 steps at most.

use oracle::model::Renames;
use oracle::sheet::{Sheet, rows_lent};
use oracle::stream::Case;
use oracle::traced::STEPS;
use oracle::{MOST_VISITS, Options, endpoint, listing, traced};

use crate::library::{self, Entry, Outputs};
use crate::plain::original::Numbers;
use crate::tables::Tables;
use crate::{plain, quick};

/// The original is not started on more than this: rows, and comparisons of the features of a source with those of a destination, all
/// connections together.
const MOST_ROWS: u64 = 300_000;
const MOST_COMPARISONS: u64 = 20_000_000;

/// The numbers of a row of links, of a row of a listing and of a diagnostic in their outputs.
const LINK_NUMBERS: usize = 2;
const ROW_NUMBERS: usize = 137;
const DIAGNOSTIC_NUMBERS: usize = 4;

/// The tables of an accepted sheet.
pub fn accepted(sheet: &[u8]) -> Sheet {
    Sheet::accepted(sheet).expect("an accepted sheet")
}

/// Whether the original ends soon, and with rows that fit in memory.
pub fn original_ends(sheet: &Sheet) -> bool {
    if traced::row_count(sheet, STEPS) > MOST_ROWS {
        return false;
    }
    let counts = endpoint::counts(sheet, Renames::Text, MOST_VISITS);
    let pairs = counts.chunks(2);
    let comparisons = pairs.map(|pair| pair[0].features.saturating_mul(pair[1].features));
    counts.iter().all(|count| count.visits <= MOST_VISITS)
        && comparisons.fold(0, u64::saturating_add) <= MOST_COMPARISONS
}

/// The library's text.
pub fn text(sheet: &[u8]) -> Vec<u8> {
    let mut text = vec![0; listing::TEXT_BYTES];
    let used = library::list_sheet(sheet, STEPS, &mut text);
    text.truncate(used);
    text
}

/// The sheet as a case: with the original's text, to which the library's is held; without a text where the original is not started.
pub fn compared(sheet: Vec<u8>) -> Case {
    let mut case = Case {
        sheet,
        ..Case::default()
    };
    if original_ends(&accepted(&case.sheet)) {
        let expected = oracle::conlist(&case.sheet, Options::default()).expect("a text");
        case.text = expected.into_bytes();
        let numbers = numbers(&case.text);
        let by_steps = plain::original::list_sheet(&case.sheet, &numbers);
        let quickly = quick::original::list_sheet(&case.sheet, &numbers);
        assert!(by_steps.as_bytes() == case.text, "the steps differ");
        assert!(quickly.as_bytes() == case.text, "the quick ones differ");
        assert!(text(&case.sheet) == case.text, "the library differs");
    }
    case
}

/// The numbers of the diagnostics of a text.
pub fn numbers(text: &[u8]) -> Vec<Numbers> {
    let text = std::str::from_utf8(text).expect("a text is ASCII");
    let lines = text.lines().filter_map(|line| line.strip_prefix('D'));
    lines
        .map(|line| {
            let numbers = line.split_whitespace().map(|number| number.parse());
            let numbers: Result<Vec<u32>, _> = numbers.collect();
            let numbers = numbers.expect("numbers");
            numbers.try_into().expect("four of them")
        })
        .collect()
}

/// What the library is lent: room as `conlist` lends it, and the tables of the sheet.
pub struct Lent {
    tables: Tables,
    text: Vec<u8>,
    links: Vec<u32>,
    rows: Vec<u32>,
    diagnostics: Vec<u32>,
    group_rows: Vec<u32>,
    names: Vec<u8>,
    group_diagnostics: Vec<u32>,
}

impl Lent {
    pub fn new(sheet: &[u8]) -> Lent {
        let rows = vec![0; listing::ROWS * ROW_NUMBERS];
        let diagnostics = vec![0; listing::DIAGNOSTICS * DIAGNOSTIC_NUMBERS];
        Lent {
            tables: Tables::of(&accepted(sheet)),
            text: vec![0; listing::TEXT_BYTES],
            links: vec![0; rows_lent(b'C') * LINK_NUMBERS],
            group_rows: rows.clone(),
            rows,
            names: vec![0; listing::COMPOSED_BYTES],
            group_diagnostics: diagnostics.clone(),
            diagnostics,
        }
    }

    /// Sheet bytes to text bytes: how many of these.
    pub fn list_sheet(&mut self, sheet: &[u8]) -> usize {
        library::list_sheet(sheet, STEPS, &mut self.text)
    }

    /// Both listings of the tables, which are checked first.
    pub fn list(&mut self) -> [u64; 5] {
        let outputs = Outputs {
            rows: &mut self.rows,
            diagnostics: &mut self.diagnostics,
            group_rows: &mut self.group_rows,
            names: &mut self.names,
            group_diagnostics: &mut self.group_diagnostics,
        };
        library::list_connections(Entry::Ported, &self.tables, STEPS, &mut self.links, outputs)
    }

    /// The checks alone.
    pub fn check(&self) -> [u64; 3] {
        library::check_tables(&self.tables)
    }
}
