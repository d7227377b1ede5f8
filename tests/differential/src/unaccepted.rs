//! Tables that are not accepted: the checks and every listing give the same refusal, leave zeros in their outputs and their
//! inputs as they were. So do the listings that are lent too few links: the refusal of these stands behind those of tables. That of a
//! limit that is too large stands before them.

use oracle::letters::{LETTERS, component, mode, name, row_numbers};
use oracle::listing::REFUSALS_OF_TABLES;
use oracle::sheet::{NAME_BYTES, Sheet};
use oracle::traced::STEPS;

use crate::both::{self, Asked};
use crate::lent::Lent;
use crate::library::{self, ENTRIES};
use crate::limits::{self, TOO_LARGE};
use crate::link_table::LINK_NUMBERS;
use crate::listed;
use crate::modes;
use crate::records;
use crate::tables::{LOW, MISSING, PRESENT, Tables};
use crate::traced;
use crate::{DIAGNOSTIC_NUMBERS, ROW_NUMBERS};

const ROWS: usize = 4096;

/// What is lent for links: room for more components than any of these tables has, for one only, and none.
const LINKS: [usize; 3] = [2 * ROWS * LINK_NUMBERS, LINK_NUMBERS, 0];

/// How often what was met, over all sheets.
#[derive(Default)]
pub struct Met {
    pub tables: usize,
    pub calls: usize,
    /// Tables by their refusal.
    pub refused: [usize; REFUSALS_OF_TABLES.len()],
    /// Tables in which the numbers of an array index are wrong.
    pub indices: usize,
    /// Tables in which a row of M is wrong.
    pub modes: usize,
}

/// A refusal's number, place and letter.
pub type Refusal = [u64; 3];

/// Tables of a model that are spoilt at one place or two, by `seed`, with the refusal that they earn: 10 in its three ways, a missing
/// place and equal places, an array index of numbers that none has, and a mode of a name, an owner or a flag that there is not.
pub fn compare(sheet: &Sheet, seed: usize, met: &mut Met) -> Result<(), String> {
    let tables = Tables::of(sheet);
    let rank = seed % LETTERS.len();
    let later = (rank + seed % 3).min(LETTERS.len() - 1);
    let width = |rank: usize| row_numbers(LETTERS[rank]);

    // a table of no whole number of rows, and perhaps a later one as well
    let mut broken = tables.clone();
    spoil(&mut broken.letters[later], width(later));
    spoil(&mut broken.letters[rank], width(rank));
    let mut ranks = 0..LETTERS.len();
    if let Some(first) = ranks.find(|&rank| broken.letters[rank].len() % width(rank) != 0) {
        refused(&broken, STEPS, [10, 0, LETTERS[first].into()], met)?;
    }

    // too many rows; a broken row of an earlier table comes first
    let mut long = tables.clone();
    long.letters[rank].resize((ROWS + 1 + seed % 5) * width(rank), 0);
    refused(&long, STEPS, [10, ROWS as u64, LETTERS[rank].into()], met)?;
    if rank > 0 {
        long.letters[0].push(0);
        refused(&long, STEPS, [10, 0, LETTERS[0].into()], met)?;
    }

    // a name past the byte table, of no byte, of one more than the longest, or of a byte that no name has
    let names = tables.letters[0].len() / name::NUMBERS;
    if names > 0 {
        let row = seed % names;
        let mut named = tables.clone();
        let bytes = named.bytes.len() as u32;
        let mut rows = named.letters[0].chunks_mut(name::NUMBERS);
        let numbers = rows.nth(row).expect("a row of N");
        match seed % 6 {
            0 => numbers[name::OFFSET] = bytes - numbers[name::LENGTH] + 1,
            1 => numbers[name::LENGTH] = 0,
            2 => numbers[name::OFFSET] = u32::MAX,
            3 => numbers[name::LENGTH] = u32::MAX,
            4 => {
                let long = [b'x'; NAME_BYTES + 1];
                numbers[name::OFFSET] = bytes;
                numbers[name::LENGTH] = long.len() as u32;
                named.bytes.extend(long);
            }
            _ => named.bytes[numbers[name::OFFSET] as usize] = 0x7F,
        }
        refused(&named, STEPS, [10, row as u64, b'N'.into()], met)?;
    }
    places(sheet, &tables, seed, met)?;
    indices(&tables, seed, met)?;
    wrong_mode(sheet, &tables, seed, met)
}

/// A component without a place, which no sheet has; two children of one component with the same place, and both without one.
fn places(sheet: &Sheet, tables: &Tables, seed: usize, met: &mut Met) -> Result<(), String> {
    let spoilt = |rows: &[u32], place: u32| {
        let mut spoilt = tables.clone();
        let mut components = spoilt.components();
        for &row in rows {
            components[row as usize][component::PLACE] = place;
        }
        spoilt
    };
    let components = sheet.components.len();
    // the root every other time
    let row = [0, seed / 2 % components][seed % 2];
    let missing = spoilt(&[row as u32], MISSING);
    refused(&missing, STEPS, [6, row as u64, b'C'.into()], met)?;

    let families = (0..components as u32).map(|owner| sheet.children(owner));
    let families: Vec<Vec<u32>> = families.filter(|children| children.len() > 1).collect();
    if families.is_empty() {
        return Ok(());
    }
    let children = &families[seed % families.len()];
    let one = seed % children.len();
    let other = (one + 1 + seed % (children.len() - 1)) % children.len();
    let mut pair = [children[one], children[other]];
    pair.sort_unstable();
    let place = sheet.components[children[one] as usize][component::PLACE];
    let equal = spoilt(&pair, place.expect("a place"));
    refused(&equal, STEPS, [16, pair[1].into(), b'C'.into()], met)?;
    let neither = spoilt(&pair, MISSING);
    refused(&neither, STEPS, [6, pair[0].into(), b'C'.into()], met)
}

/// Numbers of an array index that no sheet has: present above 1, whatever the bits are, and bits of a missing index. Also of two
/// components, of which the first counts.
fn indices(tables: &Tables, seed: usize, met: &mut Met) -> Result<(), String> {
    let some = [1, 2, 1 << 31, MISSING - 1, MISSING][seed % 5];
    let [high, low] = [[0, 0], [0, some], [some, 0], [some, some]][seed % 4];
    let wrong = [
        [2, high, low],
        [MISSING, high, low],
        [0, some, low],
        [0, high, some],
    ];
    let components = tables.clone().components().len();
    // the root every other time
    let row = [0, seed / 2 % components][seed % 2];
    let later = row + seed % (components - row);
    for (next, numbers) in wrong.iter().enumerate() {
        let mut spoilt = tables.clone();
        let mut rows = spoilt.components();
        rows[later][PRESENT..=LOW].copy_from_slice(&wrong[(next + seed) % wrong.len()]);
        rows[row][PRESENT..=LOW].copy_from_slice(numbers);
        met.indices += 1;
        refused(&spoilt, STEPS, [6, row as u64, b'C'.into()], met)?;
    }
    Ok(())
}

/// A mode whose name, owner or flag is past its end or missing, and perhaps a later one as well. It is found before a root that has a
/// parent, and behind a table of M that has no whole number of rows.
fn wrong_mode(sheet: &Sheet, tables: &Tables, seed: usize, met: &mut Met) -> Result<(), String> {
    let mut spoilt = tables.clone();
    // a model without modes gets one, with the first name, of the root
    if sheet.modes.is_empty() {
        spoilt.table(b'M').extend([0; mode::NUMBERS]);
    }
    let (column, end) = [
        (mode::NAME, sheet.names.len() as u32),
        (mode::OWNER, sheet.components.len() as u32),
        (mode::INITIAL, 2),
    ][seed % 3];
    let mut modes = spoilt.modes();
    let row = seed / 3 % modes.len();
    let later = row + seed % (modes.len() - row);
    modes[later][column] = MISSING;
    modes[row][column] = [end, end + 1, MISSING - 1, MISSING][seed % 4];
    met.modes += 1;
    refused(&spoilt, STEPS, [6, row as u64, b'M'.into()], met)?;
    spoilt.components()[0][component::PARENT] = 0;
    refused(&spoilt, STEPS, [6, row as u64, b'M'.into()], met)?;
    spoilt.table(b'M').extend(vec![0; 1 + seed % 2]);
    refused(&spoilt, STEPS, [10, 0, b'M'.into()], met)
}

fn spoil(table: &mut Vec<u32>, width: usize) {
    if width > 1 {
        table.push(0);
    }
}

/// Holds the checks and every call, those with a limit under this one, to a refusal.
pub fn refused(tables: &Tables, limit: u64, refusal: Refusal, met: &mut Met) -> Result<(), String> {
    met.tables += 1;
    let place = REFUSALS_OF_TABLES.iter().position(|&own| own == refusal[0]);
    met.refused[place.expect("a refusal of tables")] += 1;
    met.calls += 5 + (8 + limits::CALLS) * LINKS.len();
    let before = tables.clone();
    expect("check_tables", library::check_tables(tables), refusal)?;

    let mut out = Lent::of_length(64 * 14);
    let told = library::expand_feature_group(tables, out.lend(), 0, 1, false);
    expect("expand_feature_group", told, refusal)?;
    out.used(0)?;

    for links in LINKS {
        traced::refuses(tables, limit, listed::Lengths::of_conlist(links), refusal)
            .map_err(|what| format!("traced listing: {what}"))?;
        group(tables, links, refusal)?;
        for entry in ENTRIES {
            let asked = Asked { entry, limit };
            both::refused(tables, asked, both::Lengths::of(links, 64), refusal)
                .map_err(|what| format!("both listings, {asked:?}: {what}"))?;
        }
        records::refused(tables, limit, links, refusal)?;
    }
    for (links, too_large) in LINKS.into_iter().zip(TOO_LARGE) {
        limits::refused(tables, too_large, links, 3)?;
    }
    modes::not_accepted(tables, refusal)?;
    if *tables == before {
        Ok(())
    } else {
        Err("it changed an input".to_string())
    }
}

fn group(tables: &Tables, links: usize, refusal: Refusal) -> Result<(), String> {
    let mut links = Lent::of_length(links);
    let mut rows = Lent::of_length(64 * ROW_NUMBERS);
    let mut diagnostics = Lent::of_length(64 * DIAGNOSTIC_NUMBERS);
    let mut names = Lent::<u8>::of_length(4096);
    let told = library::expand_feature_group_connections(
        tables,
        links.lend(),
        rows.lend(),
        names.lend(),
        diagnostics.lend(),
    );
    expect("expand_feature_group_connections", told, refusal)?;
    links.used(0)?;
    rows.used(0)?;
    names.used(0)?;
    diagnostics.used(0).map(|_| ())
}

fn expect(call: &str, told: Refusal, refusal: Refusal) -> Result<(), String> {
    if told == refusal {
        Ok(())
    } else {
        Err(format!("{call} told {told:?} where {refusal:?} is due"))
    }
}
