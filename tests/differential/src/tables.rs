//! The tables of a model as a caller lends them.

use oracle::letters::{LETTERS, ROW_LETTERS, Sheet, component, mode, name, rank};
use oracle::sheet::NAME_ROWS;

/// A missing field. An array index that is missing has zeros.
pub const MISSING: u32 = u32::MAX;

/// The three numbers of an array index in a C row.
pub const PRESENT: usize = component::ARRAY_INDEX;
pub const HIGH: usize = PRESENT + 1;
pub const LOW: usize = PRESENT + 2;

/// High and low bits of array indices: none, all of one or of both, and the outermost ones alone.
const INDEX_BITS: &[[u32; 2]] = &[
    [0, 0],
    [0, u32::MAX],
    [u32::MAX, u32::MAX],
    [u32::MAX, 0],
    [1, 0],
    [0, 1],
    [1 << 31, 0],
    [0, 1 << 31],
];

/// The byte table, and a table for each letter in the order of the letters.
#[derive(Clone, Debug, PartialEq, Eq)]
pub struct Tables {
    pub bytes: Vec<u8>,
    pub letters: [Vec<u32>; LETTERS.len()],
}

impl Tables {
    /// The tables that a reader makes of an accepted sheet.
    pub fn of(sheet: &Sheet) -> Tables {
        let mut tables = Tables {
            bytes: Vec::new(),
            letters: Default::default(),
        };
        for name in &sheet.names {
            let offset = tables.bytes.len() as u32;
            tables.letters[0].extend([offset, name.len() as u32]);
            tables.bytes.extend(name.bytes());
        }
        for (&letter, table) in ROW_LETTERS.iter().zip(&mut tables.letters[1..]) {
            for row in sheet.rows(letter) {
                table.extend(row.iter().map(|field| field.unwrap_or(MISSING)));
            }
        }
        tables
    }

    /// The table of a letter, to be changed.
    pub fn table(&mut self, letter: u8) -> &mut Vec<u32> {
        &mut self.letters[rank(letter).expect("a letter")]
    }

    /// The rows of C, to be changed.
    pub fn components(&mut self) -> Vec<&mut [u32]> {
        let rows = self.table(b'C').chunks_mut(component::NUMBERS);
        rows.collect()
    }

    /// The rows of M, to be changed.
    pub fn modes(&mut self) -> Vec<&mut [u32]> {
        let rows = self.table(b'M').chunks_mut(mode::NUMBERS);
        rows.collect()
    }

    /// The same model with places that no sheet has: the largest that there are, in the same order.
    pub fn with_large_places(&self) -> Tables {
        let mut tables = self.clone();
        let components = tables.components();
        let places = components.iter().map(|row| row[component::PLACE]);
        let over = MISSING - 1 - places.max().unwrap_or(0);
        for row in components {
            row[component::PLACE] += over;
        }
        tables
    }

    /// The same model with other bits in its array indices, if it has any. The same children are elements then, and nothing else goes by
    /// an index.
    pub fn with_other_indices(&self) -> Option<Tables> {
        let mut tables = self.clone();
        let bits = INDEX_BITS.iter().cycle();
        for (row, &[high, low]) in tables.components().into_iter().zip(bits) {
            if row[PRESENT] == 1 {
                row[HIGH] = high;
                row[LOW] = low;
            }
        }
        (tables != *self).then_some(tables)
    }

    /// The same model with more names than the program conlist reads: its first name again and again, which nothing refers to.
    /// The group listing works in other room then.
    pub fn with_more_names(&self) -> Tables {
        let mut tables = self.clone();
        let first = &self.letters[0][..name::NUMBERS];
        while tables.letters[0].len() / name::NUMBERS <= NAME_ROWS {
            tables.letters[0].extend(first);
        }
        tables
    }
}
