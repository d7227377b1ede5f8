//! What is measured: sheets from the smallest to those on which one side has the most to do.

use std::path::Path;

use generate::{Sort, case};
use oracle::stream::Case;

use crate::case::{accepted, compared, original_ends, text};
use crate::sheets;

/// One row of a table: a sheet, or several whose figures are added.
pub struct Subject {
    pub name: String,
    pub cases: Vec<Case>,
}

impl Subject {
    fn new(name: impl Into<String>, sheets: Vec<Vec<u8>>) -> Subject {
        Subject {
            name: name.into(),
            cases: sheets.into_iter().map(compared).collect(),
        }
    }

    pub fn bytes(&self) -> usize {
        self.cases.iter().map(|case| case.sheet.len()).sum()
    }

    /// How many rows are listed, or the refusal.
    pub fn answer(&self) -> String {
        let mut rows = 0;
        for case in &self.cases {
            match answer(&text(&case.sheet)) {
                Ok(count) => rows += count,
                Err(refusal) => return refusal,
            }
        }
        rows.to_string()
    }

    /// Whether the original is started on every sheet.
    pub fn has_original(&self) -> bool {
        self.cases.iter().all(|case| !case.text.is_empty())
    }
}

fn is_refused(text: &[u8]) -> bool {
    text.starts_with(b"R")
}

/// The rows of a list, or the refusal.
fn answer(text: &[u8]) -> Result<usize, String> {
    if is_refused(text) {
        let number = String::from_utf8_lossy(&text[1..7]);
        return Err(format!("refused {}", number.trim()));
    }
    let lines = text.split(|&byte| byte == b'\n');
    Ok(lines.filter(|line| line.starts_with(b"S")).count())
}

/// Of the accepted sheets of the first seeds that are listed and that the original ends on, the 50 in the middle by size.
fn generated() -> Vec<Vec<u8>> {
    let sheets = (0..400).map(|seed| case(Sort::Accepted, seed).sheet);
    let mut listed: Vec<Vec<u8>> = sheets
        .filter(|sheet| original_ends(&accepted(sheet)) && !is_refused(&text(sheet)))
        .collect();
    listed.sort_by_key(Vec::len);
    let first = listed.len() / 2 - 25;
    listed.drain(first..first + 50).collect()
}

/// The classes of sheets; `groups` is the folder that `groups.py` fills.
pub fn classes(groups: &Path) -> Vec<Subject> {
    let examples = Path::new(env!("CARGO_MANIFEST_DIR")).join("../../examples");
    let read = |path: &Path| std::fs::read(path).unwrap_or_else(|why| panic!("{path:?}: {why}"));
    let one = |name: &str, sheet| Subject::new(name, vec![sheet]);
    let mut subjects = vec![
        one("smallest: run.sheet", read(&examples.join("run.sheet"))),
        one("typical: pitch.sheet", read(&examples.join("pitch.sheet"))),
        Subject::new("typical: 50 generated", generated()),
        one("largest: connections", sheets::largest(true)),
        one("largest: groups", sheets::largest_groups()),
        one("largest: refused", sheets::largest(false)),
        one("deepest: 20 levels", sheets::deepest()),
        one("widest: 90 children", sheets::widest()),
        one("widest: 95 elements", sheets::elements()),
        one("widest: 2 arrays", sheets::two_arrays(false)),
        one("widest: last first", sheets::two_arrays(true)),
        one("worst: children", sheets::worst_children()),
        one("worst: elements", sheets::worst_elements()),
        one("worst: imports", sheets::worst_imports()),
    ];
    for file in [
        "disjoint",
        "one_sided",
        "turn_about",
        "one_match",
        "equal",
        "many_ends",
        "doubled",
    ] {
        let sheet = read(&groups.join(format!("{file}.sheet")));
        subjects.push(one(&format!("worst: {file}"), sheet));
    }
    subjects
}

/// The same shape of sheet at one, two, four and eight times the size.
pub fn growing() -> Vec<Subject> {
    let counts = [5, 10, 20, 40].into_iter();
    counts
        .map(|count| Subject::new(count.to_string(), vec![sheets::pairs(count)]))
        .collect()
}
