//! The form of the sheet: its letters in their order, and the fields of each
//! letter's line.
//!
//! A change of the form edits the table below. The rows of a sheet, their reader
//! and writer, the generator and the comparison go by it: a row is made and read
//! by the names of its columns, as `component::PARENT`.

use std::ops::Range;

use Meaning::{Any, Below, Holder, Name, Row};

/// A field of a row; `None` is the sheet's `-`. Of a field that takes three
/// numbers of the row, one of these numbers, none of which is missing.
pub type Field = Option<u32>;

/// What the number in a column means.
#[derive(Clone, Copy, Debug, PartialEq, Eq)]
pub enum Meaning {
    /// A name number.
    Name,
    /// A row of the table with this letter.
    Row(u8),
    /// The holder of a declared feature: a T or a U row, as the row's holder kind says.
    Holder,
    /// A kind, flag, direction or what, as it is called here: a number below this one.
    Below(&'static str, u32),
    /// Any number.
    Any,
}

/// A column of a letter's table.
#[derive(Clone, Copy, Debug, PartialEq, Eq)]
pub struct Column {
    pub meaning: Meaning,
    /// Whether `-` is allowed in it.
    pub may_miss: bool,
    /// How many characters of the line it takes.
    pub width: usize,
    /// How many numbers of the row it takes: one; or three, which are 1 where it
    /// holds a number and 0 where it is missing, then the number's high and its
    /// low 32 bits, 0 where it is missing.
    pub numbers: usize,
    /// Where it begins in the line.
    start: usize,
    /// Where it begins in the row.
    pub place: usize,
}

const fn needed(meaning: Meaning) -> Column {
    Column {
        meaning,
        may_miss: false,
        width: 6,
        numbers: 1,
        start: 0,
        place: 0,
    }
}

const fn optional(meaning: Meaning) -> Column {
    Column {
        may_miss: true,
        ..needed(meaning)
    }
}

/// The same column for numbers of 64 bits.
const fn long(column: Column) -> Column {
    Column {
        width: 20,
        numbers: 3,
        ..column
    }
}

/// Makes of the table below, for each letter, a module with its `COLUMNS`, how
/// many `NUMBERS` a row has, by name where in the row each column begins, and
/// `row`; and of all letters `LETTERS`, `ROW_LETTERS`, `columns` and the tables
/// of a `Sheet`.
macro_rules! letters {
    ($($(#[$about:meta])* $letter:literal $row:ident in $table:ident { $($column:ident: $form:expr,)* })*) => {
        $(
            $(#[$about])*
            pub mod $row {
                use super::*;

                #[allow(non_camel_case_types, clippy::upper_case_acronyms)]
                enum Order { $($column),* }

                pub const COLUMNS: &[Column] = &side_by_side([$($form),*]);
                pub const NUMBERS: usize = row_end(COLUMNS);
                $(pub const $column: usize = COLUMNS[Order::$column as usize].place;)*

                /// A row with these fields; any other is 0 where it is needed, and else missing.
                pub fn row<const GIVEN: usize>(given: [(usize, Field); GIVEN]) -> [Field; NUMBERS] {
                    let mut row = [None; NUMBERS];
                    fill(COLUMNS, &given, &mut row);
                    row
                }
            }
        )*

        /// The letters in the order in which their lines stand.
        pub const LETTERS: &[u8] = &[b'N', $($letter),*];

        /// The letters whose lines have columns: all but `N`.
        pub const ROW_LETTERS: &[u8] = &[$($letter),*];

        /// The columns of a letter's rows; none for `N` and for what is no letter.
        pub const fn columns(letter: u8) -> &'static [Column] {
            match letter {
                $($letter => $row::COLUMNS,)*
                _ => &[],
            }
        }

        /// The tables of a sheet, one row per line, in the sheet's columns.
        #[derive(Clone, Debug, Default, PartialEq, Eq)]
        pub struct Sheet {
            pub names: Vec<String>,
            $($(#[$about])* pub $table: Vec<[Field; $row::NUMBERS]>,)*
        }

        impl Sheet {
            /// The rows of a letter other than `N`.
            pub fn rows(&self, letter: u8) -> Vec<&[Field]> {
                match letter {
                    $($letter => self.$table.iter().map(|row| row.as_slice()).collect(),)*
                    _ => panic!("no table of rows has the letter {}", letter as char),
                }
            }

            /// One row of a letter other than `N`, to be changed.
            pub fn row_mut(&mut self, letter: u8, row: usize) -> &mut [Field] {
                match letter {
                    $($letter => &mut self.$table[row],)*
                    _ => panic!("no table of rows has the letter {}", letter as char),
                }
            }

            /// Takes away all rows of a letter other than `N`.
            pub fn clear(&mut self, letter: u8) {
                match letter {
                    $($letter => self.$table.clear(),)*
                    _ => panic!("no table of rows has the letter {}", letter as char),
                }
            }

            /// Adds a row of a letter other than `N`, as wide as its columns.
            pub fn push(&mut self, letter: u8, row: &[Field]) {
                match letter {
                    $($letter => self.$table.push(row.try_into().expect("as many fields as columns")),)*
                    _ => panic!("no table of rows has the letter {}", letter as char),
                }
            }
        }
    };
}

letters! {
    /// C: components.
    b'C' component in components {
        NAME: needed(Name),
        PARENT: optional(Row(b'C')),
        ARRAY_INDEX: long(optional(Any)),
        PACKAGE: needed(Name),
        TYPE: needed(Name),
        PATTERN: optional(Name),
        PLACE: needed(Any),
    }
    /// F: features.
    b'F' feature in features {
        NAME: needed(Name),
        OWNER: needed(Row(b'C')),
        KIND: needed(Below("kind", 10)),
    }
    /// X: connections. An end is a subcomponent and a feature.
    b'X' connection in connections {
        NAME: needed(Name),
        OWNER: needed(Row(b'C')),
        KIND: needed(Below("kind", 5)),
        SOURCE: optional(Name),
        SOURCE_FEATURE: optional(Name),
        DESTINATION: optional(Name),
        DESTINATION_FEATURE: optional(Name),
    }
    /// P: packages.
    b'P' package in packages {
        NAME: needed(Name),
    }
    /// I: imports.
    b'I' import in imports {
        PACKAGE: needed(Row(b'P')),
        NAME: needed(Name),
    }
    /// T: component types.
    b'T' component_type in types {
        PACKAGE: needed(Row(b'P')),
        NAME: needed(Name),
        PRIVATE: needed(Below("flag", 2)),
    }
    /// Q: implementations.
    b'Q' implementation in implementations {
        PACKAGE: needed(Row(b'P')),
        TYPE: needed(Name),
        NAME: needed(Name),
        PRIVATE: needed(Below("flag", 2)),
    }
    /// U: group types.
    b'U' group_type in group_types {
        PACKAGE: needed(Row(b'P')),
        NAME: needed(Name),
        PRIVATE: needed(Below("flag", 2)),
        EXTENDS_PACKAGE: optional(Name),
        EXTENDS_TYPE: optional(Name),
        EXTENDS_IMPLEMENTATION: optional(Name),
        INVERSE_PACKAGE: optional(Name),
        INVERSE_TYPE: optional(Name),
        INVERSE_IMPLEMENTATION: optional(Name),
    }
    /// E: declared features.
    b'E' declared_feature in declared_features {
        HOLDER_KIND: needed(Below("holder kind", 2)),
        HOLDER: needed(Holder),
        NAME: needed(Name),
        KIND: needed(Below("kind", 10)),
        DIRECTION: optional(Below("direction", 3)),
        CLASSIFIER_PACKAGE: optional(Name),
        CLASSIFIER_TYPE: optional(Name),
        CLASSIFIER_IMPLEMENTATION: optional(Name),
    }
    /// R: renames.
    b'R' rename in renames {
        PACKAGE: needed(Row(b'P')),
        WHAT: needed(Below("what", 3)),
        ALIAS: needed(Name),
        ORIGINAL_PACKAGE: needed(Name),
        ORIGINAL_NAME: optional(Name),
    }
    /// M: modes.
    b'M' mode in modes {
        NAME: needed(Name),
        OWNER: needed(Row(b'C')),
        INITIAL: needed(Below("flag", 2)),
    }
}

/// N: names. Its line has no columns; its row says where in the byte table a
/// name begins, and how long it is.
pub mod name {
    pub const OFFSET: usize = 0;
    pub const LENGTH: usize = 1;
    pub const NUMBERS: usize = 2;
}

/// A reference: package?, type?, implementation?.
pub type Reference = [Field; 3];

/// The columns of a letter, each with where it begins.
const fn side_by_side<const COUNT: usize>(mut columns: [Column; COUNT]) -> [Column; COUNT] {
    let (mut start, mut place, mut next) = (1, 0, 0);
    while next < COUNT {
        columns[next].start = start;
        columns[next].place = place;
        start += columns[next].width;
        place += columns[next].numbers;
        next += 1;
    }
    columns
}

const fn row_end(columns: &[Column]) -> usize {
    match columns.last() {
        Some(last) => last.place + last.numbers,
        None => 0,
    }
}

/// A letter's place in the order, unless it is unknown.
pub fn rank(letter: u8) -> Option<usize> {
    LETTERS.iter().position(|&known| known == letter)
}

/// How many numbers a row of this letter has.
pub const fn row_numbers(letter: u8) -> usize {
    match letter {
        b'N' => name::NUMBERS,
        _ => row_end(columns(letter)),
    }
}

/// How long a line of this letter is, without its LF; not of `N`, whose names differ.
pub fn line_length(letter: u8) -> usize {
    let last = columns(letter).last().expect("a letter with columns");
    last.start + last.width
}

impl Column {
    /// Its characters in the line.
    pub fn characters(&self) -> Range<usize> {
        self.start..self.start + self.width
    }

    /// The number that a row has in it.
    pub fn number(&self, row: &[Field]) -> Option<u64> {
        match row[self.place..self.place + self.numbers] {
            [number] => number.map(u64::from),
            [Some(0), Some(0), Some(0)] => None,
            [Some(1), Some(high), Some(low)] => Some(u64::from(high) << 32 | u64::from(low)),
            ref others => panic!("{others:?} are no numbers of a column"),
        }
    }

    /// Puts a number into it.
    pub fn put(&self, row: &mut [Field], number: Option<u64>) {
        let parts = &mut row[self.place..self.place + self.numbers];
        match parts {
            [one] => *one = number.map(|number| u32::try_from(number).expect("32 bits")),
            _ => parts.copy_from_slice(&present_high_low(number)),
        }
    }
}

/// Whether there is a number, its high and its low 32 bits.
fn present_high_low(number: Option<u64>) -> [Field; 3] {
    let bits = number.unwrap_or(0);
    [
        Some(number.is_some().into()),
        Some((bits >> 32) as u32),
        Some(bits as u32),
    ]
}

/// The column that begins at this place of the row.
pub fn column_at(columns: &[Column], place: usize) -> &Column {
    let mut columns = columns.iter();
    let found = columns.find(|column| column.place == place);
    found.expect("a column begins there")
}

/// Fills a row with the fields that are given; any other is 0 where it is needed, and else missing.
fn fill(columns: &[Column], given: &[(usize, Field)], row: &mut [Field]) {
    for column in columns {
        column.put(row, (!column.may_miss).then_some(0));
    }
    for &(place, field) in given {
        column_at(columns, place).put(row, field.map(u64::from));
    }
}

/// A row of a letter other than `N`, with 0 where a number is needed.
pub fn blank(letter: u8) -> Vec<Field> {
    let mut row = vec![None; row_numbers(letter)];
    fill(columns(letter), &[], &mut row);
    row
}

/// The array index of a C row.
pub fn array_index(row: &[Field]) -> Option<u64> {
    column_at(component::COLUMNS, component::ARRAY_INDEX).number(row)
}

/// Gives a C row this array index.
pub fn put_array_index(row: &mut [Field], index: Option<u64>) {
    column_at(component::COLUMNS, component::ARRAY_INDEX).put(row, index);
}

/// The reference whose package stands at this place of the row: package, type, implementation.
pub fn reference(row: &[Field], package: usize) -> Reference {
    std::array::from_fn(|next| row[package + next])
}

/// The ends of an X row: source subcomponent and feature, destination subcomponent and feature.
pub fn ends(row: &[Field]) -> [Field; 4] {
    [
        row[connection::SOURCE],
        row[connection::SOURCE_FEATURE],
        row[connection::DESTINATION],
        row[connection::DESTINATION_FEATURE],
    ]
}

#[cfg(test)]
mod tests {
    use super::*;

    #[test]
    fn a_column_takes_its_characters_and_its_numbers() {
        let columns = side_by_side([needed(Name), long(optional(Any)), needed(Name)]);
        let characters = columns.map(|column| column.characters());
        assert_eq!(characters, [1..7, 7..27, 27..33]);
        let mut row = [Some(5), None, None, None, Some(6)];
        assert_eq!(row_end(&columns), row.len());
        for (number, parts) in [
            (None, [0, 0, 0]),
            (Some(0), [1, 0, 0]),
            (Some(u32::MAX.into()), [1, 0, u32::MAX]),
            (Some((7 << 32) + 9), [1, 7, 9]),
            (Some(u64::MAX), [1, u32::MAX, u32::MAX]),
        ] {
            columns[1].put(&mut row, number);
            assert_eq!(row[1..4], parts.map(Some));
            let numbers = columns.map(|column| column.number(&row));
            assert_eq!(numbers, [Some(5), number, Some(6)]);
        }
    }
}
