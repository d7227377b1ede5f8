//! What both listings have alike: the lengths of their outputs, how many rows and diagnostics there are, the numbers of a row, and the diagnostics.

use oracle::listing::{Listing, Row};

use crate::lent::Lent;
use crate::link_table::LINK_NUMBERS;
use crate::{DIAGNOSTIC_NUMBERS, ROW_NUMBERS};

/// The lengths of the outputs of one listing. The traced one has no composed names.
#[derive(Clone, Copy, Default)]
pub struct Lengths {
    pub links: usize,
    pub rows: usize,
    pub names: usize,
    pub diagnostics: usize,
}

impl Lengths {
    /// Those that conlist lends, but for a link table of this length.
    pub fn of_conlist(links: usize) -> Self {
        Self {
            links,
            rows: 64 * ROW_NUMBERS,
            names: 4096,
            diagnostics: 64 * DIAGNOSTIC_NUMBERS,
        }
    }

    /// Exactly those of a list with so many bytes of composed names.
    pub fn of(links: usize, listing: &Listing, names: usize) -> Self {
        Self {
            links,
            rows: listing.rows.len() * ROW_NUMBERS,
            names,
            diagnostics: listing.diagnostics.len() * DIAGNOSTIC_NUMBERS,
        }
    }

    /// A little more of each, but no whole row and no whole diagnostic.
    pub fn a_little_more(self) -> Self {
        Self {
            links: self.links + LINK_NUMBERS - 1,
            rows: self.rows + ROW_NUMBERS - 1,
            names: self.names + 1,
            diagnostics: self.diagnostics + DIAGNOSTIC_NUMBERS - 1,
        }
    }

    /// Far more of each.
    pub fn far_more(self) -> Self {
        Self {
            links: self.links + 1000,
            rows: self.rows + 100 * ROW_NUMBERS,
            names: self.names + 10_000,
            diagnostics: self.diagnostics + 1000,
        }
    }

    /// Links one number too short, and none, the other outputs as they are and without a place: 22 stands before 11 to 14.
    pub fn with_too_few_links(self) -> [Self; 4] {
        let alone = |links| Self {
            links,
            ..Self::default()
        };
        let among = |links| Self { links, ..self };
        let short = self.links - 1;
        [among(short), alone(short), among(0), alone(0)]
    }
}

/// The numbers that a call tells are 0, the rows and the diagnostics.
pub fn counts(told: [u64; 3], expected: &Listing) -> Result<(), String> {
    let due = [
        0,
        expected.rows.len() as u64,
        expected.diagnostics.len() as u64,
    ];
    if told == due {
        Ok(())
    } else {
        Err(format!("{due:?} expected, it told {told:?}"))
    }
}

/// The three numbers of a row that its names go by, in the order of `row`.
pub fn name_numbers(numbers: &[u32]) -> [u32; 3] {
    [numbers[4], numbers[5], numbers[6]]
}

/// A row of an output, with its names: its own, the source feature's, the destination feature's.
pub fn row(numbers: &[u32], names: [String; 3]) -> Result<Row, String> {
    let (path, unused) = numbers[8..].split_at(numbers[7] as usize);
    if unused.iter().any(|&left| left != 0) {
        return Err("an unused place of a path is not zero".to_string());
    }
    let [name, source_feature, destination_feature] = names;
    Ok(Row {
        connection: numbers[0],
        kind: numbers[1],
        source: numbers[2],
        destination: numbers[3],
        path: path.to_vec(),
        name,
        source_feature,
        destination_feature,
    })
}

/// The output holds the diagnostics, and zeros behind them.
pub fn diagnostics(output: &Lent<u32>, expected: &Listing) -> Result<(), String> {
    let numbers: Vec<[u32; 4]> = expected.diagnostics.iter().map(|own| own.numbers).collect();
    if output.used(numbers.len() * 4)? == numbers.concat() {
        Ok(())
    } else {
        Err("the diagnostics differ".to_string())
    }
}
