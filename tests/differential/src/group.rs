//! The group listing: `expand_feature_group_connections` against the original's.

use oracle::listing::{Listing, Row, composed_bytes};
use oracle::model::{self, Renames};
use oracle::sheet::Sheet;
use oracle::traced::{self, STEPS};
use oracle::{MOST_VISITS, endpoint, group};

use crate::ROW_NUMBERS;
use crate::lent::Lent;
use crate::library;
use crate::link_table::{LinkTable, TOO_FEW_LINKS};
use crate::listed::{self, Lengths};
use crate::tables::Tables;

/// More comparisons of features than this are not waited for.
const MOST_COMPARISONS: u64 = 2_000_000;

/// The refusals of this listing.
pub const REFUSALS: [u64; 5] = [11, 12, 13, 14, TOO_FEW_LINKS];

/// How often what was met, over all sheets.
#[derive(Default)]
pub struct Met {
    pub rows: usize,
    pub diagnostics: usize,
    pub calls: usize,
    /// Calls that were refused, by their refusal.
    pub refused: [usize; REFUSALS.len()],
    /// Models that the original is too long at.
    pub slow: usize,
    /// Models that were listed with other array indices as well.
    pub other_indices: usize,
}

/// The original's listing, or the refusal 13 that is owed in its place, or nothing where it cannot be waited for.
pub fn expected(sheet: &Sheet, renames: Renames) -> Option<Result<Listing, u64>> {
    let counts = endpoint::counts(sheet, renames, MOST_VISITS);
    if counts.iter().any(|count| count.visits > MOST_VISITS) {
        return Some(Err(13));
    }
    let mut pairs = counts.chunks(2);
    if pairs.any(|pair| pair[0].features * pair[1].features > MOST_COMPARISONS) {
        return None;
    }
    let mut instance = model::instance(sheet);
    if traced::row_count(sheet, STEPS) <= crate::MOST_ROWS {
        traced::run(sheet, &mut instance);
    }
    Some(Ok(group::run(sheet, renames, &mut instance)))
}

/// Compares the two on a sheet, with outputs of every telling size.
pub fn compare(sheet: &Sheet, renames: Renames, met: &mut Met) -> Result<(), String> {
    let tables = Tables::of(sheet);
    let links = LinkTable::of(sheet);
    let conlist = Lengths::of_conlist(links.length());
    let listing = match expected(sheet, renames) {
        None => {
            met.slow += 1;
            return too_few_links(&tables, conlist, met);
        }
        Some(Err(number)) => {
            let links_alone = Lengths {
                links: links.length(),
                ..Lengths::default()
            };
            refused(&tables, links_alone, number, met)?;
            refused(&tables, conlist, number, met)?;
            return too_few_links(&tables, conlist, met);
        }
        Some(Ok(listing)) => listing,
    };
    met.rows += listing.rows.len();
    met.diagnostics += listing.diagnostics.len();
    let exact = Lengths::of(links.length(), &listing, composed_bytes(&listing));
    listed(&tables, exact, &links, &listing, met)?;
    listed(&tables, exact.a_little_more(), &links, &listing, met)?;
    listed(&tables, exact.far_more(), &links, &listing, met)?;
    listed(&tables.with_more_names(), exact, &links, &listing, met)?;
    listed(&tables.with_large_places(), exact, &links, &listing, met)?;
    if let Some(other) = tables.with_other_indices() {
        met.other_indices += 1;
        listed(&other, exact, &links, &listing, met)?;
    }
    too_short(&tables, exact, met)?;
    too_few_links(&tables, exact, met)
}

/// Each output one too short, alone and with the others: 11 stands before 14, and 14 before 12.
fn too_short(tables: &Tables, exact: Lengths, met: &mut Met) -> Result<(), String> {
    let no_rows = exact.rows > 0;
    let no_names = exact.names > 0;
    let no_diagnostics = exact.diagnostics > 0;
    let less = |rows: bool, names: bool, diagnostics: bool| Lengths {
        rows: exact.rows - usize::from(rows && no_rows),
        names: exact.names - usize::from(names && no_names),
        diagnostics: exact.diagnostics - usize::from(diagnostics && no_diagnostics),
        ..exact
    };
    if no_rows {
        refused(tables, less(true, false, false), 11, met)?;
        refused(tables, less(true, true, true), 11, met)?;
        refused(tables, less(false, true, false), 14, met)?;
        refused(tables, less(false, true, true), 14, met)?;
    }
    if no_diagnostics {
        refused(tables, less(false, false, true), 12, met)?;
    }
    Ok(())
}

/// Outputs with too few links are refused 22.
fn too_few_links(tables: &Tables, enough: Lengths, met: &mut Met) -> Result<(), String> {
    let mut all = enough.with_too_few_links().into_iter();
    all.try_for_each(|lengths| refused(tables, lengths, TOO_FEW_LINKS, met))
}

struct Called {
    told: [u64; 3],
    links: Lent<u32>,
    rows: Lent<u32>,
    names: Lent<u8>,
    diagnostics: Lent<u32>,
}

fn run(tables: &Tables, lengths: Lengths) -> Result<Called, String> {
    let before = tables.clone();
    let mut called = Called {
        told: [u64::MAX; 3],
        links: Lent::of_length(lengths.links),
        rows: Lent::of_length(lengths.rows),
        names: Lent::of_length(lengths.names),
        diagnostics: Lent::of_length(lengths.diagnostics),
    };
    called.told = library::expand_feature_group_connections(
        tables,
        called.links.lend(),
        called.rows.lend(),
        called.names.lend(),
        called.diagnostics.lend(),
    );
    if *tables == before {
        Ok(called)
    } else {
        Err("it changed an input".to_string())
    }
}

fn refused(tables: &Tables, lengths: Lengths, number: u64, met: &mut Met) -> Result<(), String> {
    met.calls += 1;
    let place = REFUSALS.iter().position(|&own| own == number);
    met.refused[place.expect("a refusal of this listing")] += 1;
    let called = run(tables, lengths)?;
    if called.told != [number, 0, b'-'.into()] {
        return Err(format!(
            "refusal {number} expected, it told {:?}",
            called.told
        ));
    }
    called.links.used(0)?;
    called.rows.used(0)?;
    called.names.used(0)?;
    called.diagnostics.used(0)?;
    Ok(())
}

fn listed(
    tables: &Tables,
    lengths: Lengths,
    links: &LinkTable,
    expected: &Listing,
    met: &mut Met,
) -> Result<(), String> {
    met.calls += 1;
    let called = run(tables, lengths)?;
    listed::counts(called.told, expected)?;
    links.fills(&called.links)?;
    let rows = called.rows.used(expected.rows.len() * ROW_NUMBERS)?;
    let names = called.names.used(composed_bytes(expected))?;
    if rows_of(rows, names)? != expected.rows {
        return Err("the rows differ".to_string());
    }
    listed::diagnostics(&called.diagnostics, expected)
}

/// The rows of an output, with their composed names.
pub fn rows_of(numbers: &[u32], names: &[u8]) -> Result<Vec<Row>, String> {
    let mut rest = names;
    let mut rows = Vec::new();
    for row in numbers.chunks(ROW_NUMBERS) {
        let names = listed::name_numbers(row).map(|length| {
            let (name, behind) = rest.split_at(length as usize);
            rest = behind;
            String::from_utf8(name.to_vec()).expect("the bytes of names")
        });
        rows.push(listed::row(row, names)?);
    }
    if rest.is_empty() {
        Ok(rows)
    } else {
        Err("names are left over".to_string())
    }
}
