//! The selections of modes: `count_selections` and `select_modes` against the original's `compute_soms`.

use std::collections::{BTreeSet, HashSet};

use oracle::letters::{component, mode};
use oracle::modes::{self, JOINED_BYTES, Selection, Selections};
use oracle::sheet::{NAME_BYTES, Sheet, TABLE_ROWS};

use crate::lent::Lent;
use crate::library;
use crate::tables::Tables;

/// Of a longer list only some selections are asked for: the first, the last and so many others.
const ALL_ASKED: usize = 200;
const SOME_ASKED: u64 = 20;

/// A list is cut here.
const MOST_SELECTIONS: usize = 10_000;

/// How often what was met, over all sheets.
#[derive(Clone, Copy, Default)]
pub struct Met {
    pub models: usize,
    pub with_modes: usize,
    pub cut: usize,
    /// Models with exactly as many selections as there may be.
    pub full: usize,
    pub selections: usize,
    pub calls: usize,
    pub refused_20: usize,
    pub refused_11: usize,
    pub refused_14: usize,
}

impl Met {
    pub fn print(&self) {
        println!(
            "modes: {} of {} models have some, {} are cut, {} have {MOST_SELECTIONS} selections and are not; {} selections in {} calls, {} refused 20, {} refused 11, {} refused 14",
            self.with_modes,
            self.models,
            self.cut,
            self.full,
            self.selections,
            self.calls,
            self.refused_20,
            self.refused_11,
            self.refused_14,
        );
    }

    /// All that there is to meet was met.
    pub fn is_whole(&self) -> bool {
        let met = [
            self.selections,
            self.cut,
            self.full,
            self.refused_20,
            self.refused_11,
            self.refused_14,
        ];
        met.iter().all(|&count| count > 0)
    }
}

/// Compares the two on a sheet: number and cut, and each selection or some, with outputs of every telling size.
pub fn compare(sheet: &Sheet, met: &mut Met) -> Result<(), String> {
    let tables = Tables::of(sheet);
    let before = tables.clone();
    let expected = modes::run(sheet);
    let Selections { list, cut } = &expected;
    met.models += 1;
    met.with_modes += usize::from(!sheet.modes.is_empty());
    met.cut += usize::from(*cut);
    met.full += usize::from(!cut && list.len() == MOST_SELECTIONS);
    counted(&tables, &expected, met)?;

    let mut given = HashSet::new();
    for number in asked(list.len(), met.models as u64) {
        let rows = selected(&tables, [0, 0], number, &list[number], met)?;
        met.selections += 1;
        if !given.insert(rows) {
            return Err(format!("selection {number} was given before"));
        }
    }
    if let Some(last) = list.len().checked_sub(1) {
        for number in BTreeSet::from([0, last / 2, last]) {
            sizes(&tables, number, &list[number], met)?;
        }
    }
    past_the_last(&tables, list.len() as u64, met)?;
    if tables == before {
        Ok(())
    } else {
        Err("it changed an input".to_string())
    }
}

/// The numbers of the selections that are asked for, by `seed` those between the first and the last.
fn asked(length: usize, seed: u64) -> BTreeSet<usize> {
    if length <= ALL_ASKED {
        return (0..length).collect();
    }
    let some = (1..=SOME_ASKED).map(|next| {
        let mixed = (seed * SOME_ASKED + next).wrapping_mul(0x9E37_79B9_7F4A_7C15);
        (mixed >> 32) as usize % length
    });
    some.chain([0, length - 1]).collect()
}

fn counted(tables: &Tables, expected: &Selections, met: &mut Met) -> Result<(), String> {
    met.calls += 1;
    let told = library::count_selections(tables);
    let due = [0, expected.list.len() as u64, expected.cut.into()];
    if told == due {
        Ok(())
    } else {
        Err(format!(
            "count_selections: {due:?} expected, it told {told:?}"
        ))
    }
}

/// A call into outputs of these lengths: what it tells, and the outputs afterwards.
fn run(
    tables: &Tables,
    rows: usize,
    name: usize,
    number: u64,
    met: &mut Met,
) -> ([u64; 3], Lent<u32>, Lent<u8>) {
    met.calls += 1;
    let (mut rows, mut name) = (Lent::of_length(rows), Lent::of_length(name));
    let told = library::select_modes(tables, rows.lend(), name.lend(), number);
    (told, rows, name)
}

/// A selection in outputs that are longer than it by so many rows and bytes. Gives the rows.
fn selected(
    tables: &Tables,
    [more_rows, more_bytes]: [usize; 2],
    number: usize,
    expected: &Selection,
    met: &mut Met,
) -> Result<Vec<u32>, String> {
    let (length, bytes) = (expected.rows.len(), expected.name.len());
    let (rows, name) = (length + more_rows, bytes + more_bytes);
    let (told, rows, name) = run(tables, rows, name, number as u64, met);
    let due = [0, length as u64, bytes as u64];
    if told != due {
        return Err(format!(
            "selection {number}: {due:?} expected, it told {told:?}"
        ));
    }
    if rows.used(length)? != expected.rows {
        return Err(format!("the rows of selection {number} differ"));
    }
    if name.used(bytes)? != expected.name.as_bytes() {
        return Err(format!("the joined name of selection {number} differs"));
    }
    Ok(rows.used(length)?.to_vec())
}

fn refused(
    tables: &Tables,
    [rows, name]: [usize; 2],
    number: u64,
    refusal: u64,
    met: &mut Met,
) -> Result<(), String> {
    match refusal {
        20 => met.refused_20 += 1,
        11 => met.refused_11 += 1,
        _ => met.refused_14 += 1,
    }
    let (told, rows, name) = run(tables, rows, name, number, met);
    if told != [refusal, 0, b'-'.into()] {
        return Err(format!(
            "refusal {refusal} of selection {number} expected, it told {told:?}"
        ));
    }
    rows.used(0)?;
    name.used(0).map(|_| ())
}

/// A selection in longer outputs, and in shorter ones: 11 stands before 14.
fn sizes(
    tables: &Tables,
    number: usize,
    expected: &Selection,
    met: &mut Met,
) -> Result<(), String> {
    for more in [[1, 0], [0, 1], [1, 1], [TABLE_ROWS, JOINED_BYTES]] {
        selected(tables, more, number, expected, met)?;
    }
    let (rows, name) = (expected.rows.len(), expected.name.len());
    for (room, refusal) in [
        ([rows - 1, name], 11),
        ([rows - 1, name - 1], 11),
        ([rows - 1, name + JOINED_BYTES], 11),
        ([0, 0], 11),
        ([rows, name - 1], 14),
        ([rows + TABLE_ROWS, name - 1], 14),
        ([rows, 0], 14),
    ] {
        refused(tables, room, number as u64, refusal, met)?;
    }
    Ok(())
}

/// Numbers that no selection has are refused 20, however long the outputs are. Some of them would be a selection's in 32 bits.
fn past_the_last(tables: &Tables, length: u64, met: &mut Met) -> Result<(), String> {
    for number in [
        length,
        length + 1,
        MOST_SELECTIONS as u64,
        1 << 32,
        (1 << 32) + length / 2,
        1 << 63,
        u64::MAX,
    ] {
        for room in [[0, 0], [TABLE_ROWS, JOINED_BYTES]] {
            refused(tables, room, number, 20, met)?;
        }
    }
    Ok(())
}

/// Tables that are not accepted: both calls give their refusal and leave zeros, also where the number is no selection's and the outputs
/// are too short.
pub fn not_accepted(tables: &Tables, refusal: [u64; 3]) -> Result<(), String> {
    let (mut rows, mut name) = (Lent::of_length(TABLE_ROWS), Lent::of_length(JOINED_BYTES));
    let (mut no_rows, mut no_name) = (Lent::of_length(0), Lent::of_length(0));
    let told = [
        library::count_selections(tables),
        library::select_modes(tables, rows.lend(), name.lend(), 0),
        library::select_modes(tables, no_rows.lend(), no_name.lend(), u64::MAX),
    ];
    rows.used(0)?;
    name.used(0)?;
    no_rows.used(0)?;
    no_name.used(0)?;
    if told == [refusal; 3] {
        Ok(())
    } else {
        Err(format!(
            "calls for modes told {told:?} where {refusal:?} is due"
        ))
    }
}

/// So many components with so many modes each, in the order of their rows.
type Components = (usize, usize);

/// Models that no sheet has, since each needs more rows than a sheet may have; the last fill a table of C or of M.
const LARGE: &[&[Components]] = &[
    // 9,999, 10,000, 10,001 and 10,002 selections
    &[(1, 99), (1, 101)],
    &[(1, 3333), (1, 3)],
    &[(2, 100)],
    &[(1, 2500), (1, 4)],
    &[(1, 5), (1, 2000)],
    &[(1, 73), (1, 137)],
    &[(1, 137), (1, 73)],
    &[(1, 3334), (1, 3)],
    // one mode more makes no more selections, and two pass
    &[(2, 100), (10, 1)],
    &[(1, 100), (10, 1), (1, 100)],
    &[(2, 100), (1, 2)],
    &[(2, 100), (1, 1), (1, 2), (1, 3)],
    // passed before the last
    &[(1, 73), (1, 137), (1, 1)],
    &[(1, 100), (1, 101), (3, 1)],
    &[(1, 2048), (1, 2047), (1, 1)],
    // 2 to the 13th, 14th, 63rd and 64th
    &[(13, 2), (1, 1)],
    &[(14, 2)],
    &[(63, 2)],
    &[(64, 2)],
    // components without modes before, between and behind
    &[(4000, 0), (1, 5), (90, 0), (1, 7), (3, 0)],
    &[(1, 1), (1, 4095)],
    &[(1, 3), (1, 4093)],
    &[(1, 4096)],
    &[(2, 2048)],
    &[(2048, 2)],
    &[(4096, 1)],
];

/// Compares the two on these models, with the modes of a component side by side and with all of them mixed.
pub fn compare_large(met: &mut Met) -> Result<(), String> {
    for &components in LARGE {
        for mixed in [false, true] {
            let sheet = large(components, mixed);
            compare(&sheet, met).map_err(|what| format!("{components:?}: {what}"))?;
        }
    }
    Ok(())
}

fn large(components: &[Components], mixed: bool) -> Sheet {
    let names = ["m", "a_b", &"w".repeat(NAME_BYTES)];
    let mut sheet = Sheet {
        names: names.map(str::to_string).to_vec(),
        ..Sheet::default()
    };
    for &(count, modes) in components {
        for _ in 0..count {
            let owner = sheet.components.len() as u32;
            sheet.components.push(component::row([
                (component::PARENT, (owner > 0).then_some(0)),
                (component::PLACE, Some(owner)),
            ]));
            for _ in 0..modes {
                let row = sheet.modes.len() as u32;
                sheet.modes.push(mode::row([
                    (mode::NAME, Some(row % names.len() as u32)),
                    (mode::OWNER, Some(owner)),
                    (mode::INITIAL, Some(row % 2)),
                ]));
            }
        }
    }
    if mixed {
        // A prime above the rows of a table, so that no two rows have the same place.
        const PRIME: usize = 4099;
        let mut rows: Vec<_> = sheet.modes.into_iter().enumerate().collect();
        rows.sort_by_key(|(row, _)| row * 1000 % PRIME);
        sheet.modes = rows.into_iter().map(|(_, fields)| fields).collect();
    }
    sheet
}
