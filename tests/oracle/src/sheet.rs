//! The sheet: its tables, and the test whether it is accepted.
//!
//! The oracle does not say which of the refusals before the listings a sheet
//! earns. It only has to know that it may build a model from it.

use std::collections::HashSet;

use crate::letters::{
    self, Column, Meaning, ROW_LETTERS, columns, component, component_type, declared_feature, ends,
    group_type, implementation, package, reference, rename,
};
pub use crate::letters::{Field, Sheet};

/// What `conlist` lends: bytes of sheet, `N` rows, rows of any other letter.
pub const SHEET_BYTES: usize = 16_384;
pub const NAME_ROWS: usize = 256;
pub const TABLE_ROWS: usize = 96;

/// How many rows of a letter `conlist` lends.
pub fn rows_lent(letter: u8) -> usize {
    match letter {
        b'N' => NAME_ROWS,
        _ => TABLE_ROWS,
    }
}

/// The longest name.
pub const NAME_BYTES: usize = 63;

impl Sheet {
    /// The tables of an accepted sheet.
    pub fn accepted(bytes: &[u8]) -> Option<Sheet> {
        let sheet = read(bytes)?;
        let accepted = numbers_in_range(&sheet)
            && components_form_a_tree(&sheet)
            && places_differ(&sheet)
            && references_are_whole(&sheet)
            && keys_differ(&sheet);
        accepted.then_some(sheet)
    }

    /// The name with the number in a field that is not missing.
    pub fn name(&self, field: Field) -> &str {
        &self.names[field.expect("a name number") as usize]
    }

    /// The children of a component, in the order of their places.
    pub fn children(&self, owner: u32) -> Vec<u32> {
        let rows = self.components.iter().zip(0..);
        let mut children: Vec<u32> = rows
            .filter(|(fields, _)| fields[component::PARENT] == Some(owner))
            .map(|(_, row)| row)
            .collect();
        children.sort_by_key(|&row| self.components[row as usize][component::PLACE]);
        children
    }

    /// The lines of the sheet, without their LF.
    pub fn lines(&self) -> Vec<Vec<u8>> {
        let names = self.names.iter().map(|name| format!("N {name}"));
        let rows = ROW_LETTERS.iter().flat_map(|&letter| {
            let rows = self.rows(letter).into_iter();
            rows.map(move |row| row_line(letter, row))
        });
        names.chain(rows).map(String::into_bytes).collect()
    }

    /// The sheet itself.
    pub fn bytes(&self) -> Vec<u8> {
        bytes_of(self.lines())
    }
}

/// Lines with their LF.
pub fn bytes_of(lines: Vec<Vec<u8>>) -> Vec<u8> {
    let mut bytes = Vec::new();
    for line in lines {
        bytes.extend(line);
        bytes.push(b'\n');
    }
    bytes
}

fn row_line(letter: u8, row: &[Field]) -> String {
    let mut line = String::from(letter as char);
    for column in columns(letter) {
        let width = column.width;
        line.push_str(&match column.number(row) {
            Some(number) => format!("{number:width$}"),
            None => format!("{:>width$}", "-"),
        });
    }
    line
}

/// The tables, if every line keeps the sheet's rules and every table has room.
fn read(bytes: &[u8]) -> Option<Sheet> {
    if bytes.len() > SHEET_BYTES {
        return None;
    }
    let mut sheet = Sheet::default();
    let mut last = 0;
    for line in bytes.split_inclusive(|&byte| byte == b'\n') {
        let line = line.strip_suffix(b"\n")?;
        let letter = *line.first()?;
        let order = letters::rank(letter)?;
        if order < last {
            return None;
        }
        last = order;
        if letter == b'N' {
            read_name(&mut sheet, line)?;
        } else {
            read_row(&mut sheet, letter, line)?;
        }
    }
    Some(sheet)
}

fn read_name(sheet: &mut Sheet, line: &[u8]) -> Option<()> {
    let name = line.strip_prefix(b"N ")?;
    let allowed = |&byte: &u8| byte == 9 || (0x20..=0x7e).contains(&byte);
    let well_formed = (1..=NAME_BYTES).contains(&name.len()) && name.iter().all(allowed);
    // The byte table cannot be full: a name is shorter than its line, and the
    // table is as long as the longest sheet.
    if !well_formed || sheet.names.len() == NAME_ROWS {
        return None;
    }
    sheet.names.push(String::from_utf8(name.to_vec()).ok()?);
    Some(())
}

fn read_row(sheet: &mut Sheet, letter: u8, line: &[u8]) -> Option<()> {
    if line.len() != letters::line_length(letter) || sheet.rows(letter).len() == TABLE_ROWS {
        return None;
    }
    let mut row = vec![None; letters::row_numbers(letter)];
    for column in columns(letter) {
        let number = read_field(&line[column.characters()], column)?;
        column.put(&mut row, number);
    }
    sheet.push(letter, &row);
    Some(())
}

/// The number in a field, or `None` where it keeps the rules and is missing.
fn read_field(field: &[u8], column: &Column) -> Option<Option<u64>> {
    let text = std::str::from_utf8(field).ok()?.trim_start_matches(' ');
    if text == "-" {
        return column.may_miss.then_some(None);
    }
    let leading_zero = text.len() > 1 && text.starts_with('0');
    if leading_zero || !text.bytes().all(|byte| byte.is_ascii_digit()) {
        return None;
    }
    text.parse().ok().map(Some)
}

fn numbers_in_range(sheet: &Sheet) -> bool {
    ROW_LETTERS.iter().all(|&letter| {
        let rows = sheet.rows(letter);
        rows.iter().all(|row| {
            columns(letter).iter().all(|column| {
                let number = column.number(row);
                let bound = bound(sheet, column.meaning, row);
                number
                    .zip(bound)
                    .is_none_or(|(number, bound)| number < bound as u64)
            })
        })
    })
}

/// The number that a field with this meaning, in this row, has to be below, unless it may be any.
pub fn bound(sheet: &Sheet, meaning: Meaning, row: &[Field]) -> Option<usize> {
    Some(match meaning {
        Meaning::Name => sheet.names.len(),
        Meaning::Row(letter) => sheet.rows(letter).len(),
        Meaning::Below(_, bound) => bound as usize,
        Meaning::Any => return None,
        Meaning::Holder => match row[declared_feature::HOLDER_KIND] {
            Some(0) => sheet.types.len(),
            Some(1) => sheet.group_types.len(),
            _ => 0,
        },
    })
}

fn components_form_a_tree(sheet: &Sheet) -> bool {
    let components = sheet.components.iter();
    let parents: Vec<Field> = components.map(|row| row[component::PARENT]).collect();
    let Some((None, others)) = parents.split_first() else {
        return false;
    };
    let mut others = others.iter().zip(1..);
    others.all(|(parent, own)| parent.is_some_and(|parent| parent < own))
}

/// No two children of one parent have the same place. The root, which has no parent, has no siblings either.
fn places_differ(sheet: &Sheet) -> bool {
    let mut seen = HashSet::new();
    let mut components = sheet.components.iter();
    components.all(|row| seen.insert((row[component::PARENT], row[component::PLACE])))
}

fn references_are_whole(sheet: &Sheet) -> bool {
    fn whole_ends(row: &[Field]) -> bool {
        let [src, src_feature, dst, dst_feature] = ends(row);
        (src.is_none() || src_feature.is_some()) && (dst.is_none() || dst_feature.is_some())
    }
    fn whole(row: &[Field], package: usize) -> bool {
        let [package, type_name, implementation] = reference(row, package);
        type_name.is_some() || (package.is_none() && implementation.is_none())
    }
    let mut connections = sheet.connections.iter();
    let mut group_types = sheet.group_types.iter();
    let mut declared_features = sheet.declared_features.iter();
    let mut renames = sheet.renames.iter();
    connections.all(|row| whole_ends(row))
        && group_types.all(|row| {
            whole(row, group_type::EXTENDS_PACKAGE) && whole(row, group_type::INVERSE_PACKAGE)
        })
        && declared_features.all(|row| whole(row, declared_feature::CLASSIFIER_PACKAGE))
        && renames.all(|row| {
            let of_package = row[rename::WHAT] == Some(0);
            of_package == row[rename::ORIGINAL_NAME].is_none()
        })
}

/// What makes two rows of a letter clash: equal numbers, then equal folded names.
pub struct Key {
    pub letter: u8,
    numbers: &'static [usize],
    pub names: &'static [usize],
}

pub const KEYS: &[Key] = &[
    Key {
        letter: b'P',
        numbers: &[],
        names: &[package::NAME],
    },
    Key {
        letter: b'T',
        numbers: &[component_type::PACKAGE],
        names: &[component_type::NAME],
    },
    Key {
        letter: b'Q',
        numbers: &[implementation::PACKAGE],
        names: &[implementation::TYPE, implementation::NAME],
    },
    Key {
        letter: b'U',
        numbers: &[group_type::PACKAGE],
        names: &[group_type::NAME],
    },
    Key {
        letter: b'R',
        numbers: &[rename::PACKAGE, rename::WHAT],
        names: &[rename::ALIAS],
    },
];

fn keys_differ(sheet: &Sheet) -> bool {
    let fold = |field: Field| sheet.name(field).to_ascii_lowercase();
    KEYS.iter().all(|key| {
        let mut seen = HashSet::new();
        sheet.rows(key.letter).iter().all(|row| {
            let numbers: Vec<Field> = key.numbers.iter().map(|&place| row[place]).collect();
            let names: Vec<String> = key.names.iter().map(|&place| fold(row[place])).collect();
            seen.insert((numbers, names))
        })
    })
}
