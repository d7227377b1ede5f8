//! The traced listing: `compute_semantic_connections` against the original's, and under another limit against a listing that is known.

use oracle::letters::connection;
use oracle::listing::{Listing, Row};
use oracle::model;
use oracle::sheet::Sheet;
use oracle::traced::{self, NO_LIMIT, STEPS};

use crate::lent::Lent;
use crate::library;
use crate::link_table::{LinkTable, TOO_FEW_LINKS};
use crate::listed::{self, Lengths};
use crate::lists::of_a_list;
use crate::tables::Tables;
use crate::{MOST_ROWS, ROW_NUMBERS};

/// How often what was met, over all sheets.
#[derive(Default)]
pub struct Met {
    pub rows: usize,
    pub diagnostics: usize,
    pub calls: usize,
    pub refused_11: usize,
    pub refused_12: usize,
    pub refused_22: usize,
    pub endless: usize,
    /// Models that were listed with other array indices as well.
    pub other_indices: usize,
}

/// The original's listing; nothing where it has more rows than are collected.
pub fn expected(sheet: &Sheet) -> Option<Listing> {
    let ends = traced::row_count(sheet, STEPS) <= MOST_ROWS;
    ends.then(|| traced::run(sheet, &mut model::instance(sheet)))
}

/// The same of the copy of the original that has no limit on the steps of a chain.
pub fn lifted(sheet: &Sheet) -> Option<Listing> {
    let ends = traced::row_count(sheet, NO_LIMIT) <= MOST_ROWS;
    ends.then(|| traced::run_lifted(sheet, &mut model::instance(sheet)))
}

/// Compares the two on a sheet.
pub fn compare(sheet: &Sheet, met: &mut Met) -> Result<(), String> {
    if let Some(listing) = expected(sheet) {
        return hold(sheet, STEPS, &listing, met);
    }
    met.endless += 1;
    let tables = Tables::of(sheet);
    let conlist = Lengths::of_conlist(LinkTable::of(sheet).length());
    refused(&tables, STEPS, conlist, 11, met)?;
    too_few_links(&tables, STEPS, conlist, met)
}

/// Holds the call under a limit to a listing, with outputs of every telling size.
pub fn hold(sheet: &Sheet, limit: u64, listing: &Listing, met: &mut Met) -> Result<(), String> {
    let tables = Tables::of(sheet);
    let links = LinkTable::of(sheet);
    met.rows += listing.rows.len();
    met.diagnostics += listing.diagnostics.len();
    let due = Due {
        sheet,
        links: &links,
        limit,
        listing,
    };
    let exact = Lengths::of(links.length(), listing, 0);
    listed(&tables, exact, &due, met)?;
    listed(&tables.with_large_places(), exact, &due, met)?;
    if let Some(other) = tables.with_other_indices() {
        met.other_indices += 1;
        listed(&other, exact, &due, met)?;
    }
    listed(&tables, exact.a_little_more(), &due, met)?;
    listed(&tables, exact.far_more(), &due, met)?;
    too_short(&tables, limit, exact, met)?;
    too_few_links(&tables, limit, exact, met)
}

/// Rows or diagnostics one number too short, or both: 11 stands before 12.
fn too_short(tables: &Tables, limit: u64, exact: Lengths, met: &mut Met) -> Result<(), String> {
    let less = |rows: usize, diagnostics: usize| Lengths {
        rows: exact.rows - rows,
        diagnostics: exact.diagnostics - diagnostics,
        ..exact
    };
    if exact.rows > 0 {
        refused(tables, limit, less(1, 0), 11, met)?;
        refused(tables, limit, less(exact.rows, exact.diagnostics), 11, met)?;
    }
    if exact.diagnostics > 0 {
        refused(tables, limit, less(0, 1), 12, met)?;
    }
    if exact.rows > 0 && exact.diagnostics > 0 {
        refused(tables, limit, less(1, 1), 11, met)?;
    }
    Ok(())
}

/// Outputs with too few links are refused 22.
fn too_few_links(
    tables: &Tables,
    limit: u64,
    enough: Lengths,
    met: &mut Met,
) -> Result<(), String> {
    let mut all = enough.with_too_few_links().into_iter();
    all.try_for_each(|lengths| refused(tables, limit, lengths, TOO_FEW_LINKS, met))
}

struct Called {
    told: [u64; 3],
    links: Lent<u32>,
    rows: Lent<u32>,
    diagnostics: Lent<u32>,
}

/// A call under a limit into outputs of these lengths: what it tells, and the outputs afterwards.
fn run(tables: &Tables, limit: u64, lengths: Lengths) -> Result<Called, String> {
    let before = tables.clone();
    let mut called = Called {
        told: [u64::MAX; 3],
        links: Lent::of_length(lengths.links),
        rows: Lent::of_length(lengths.rows),
        diagnostics: Lent::of_length(lengths.diagnostics),
    };
    called.told = library::compute_semantic_connections(
        tables,
        limit,
        called.links.lend(),
        called.rows.lend(),
        called.diagnostics.lend(),
    );
    if *tables == before {
        Ok(called)
    } else {
        Err("it changed an input".to_string())
    }
}

fn refused(
    tables: &Tables,
    limit: u64,
    lengths: Lengths,
    number: u64,
    met: &mut Met,
) -> Result<(), String> {
    met.calls += 1;
    match number {
        11 => met.refused_11 += 1,
        12 => met.refused_12 += 1,
        _ => met.refused_22 += 1,
    }
    refuses(tables, limit, lengths, of_a_list(number))
}

/// The call gives this refusal and leaves zeros.
pub fn refuses(
    tables: &Tables,
    limit: u64,
    lengths: Lengths,
    refusal: [u64; 3],
) -> Result<(), String> {
    let called = run(tables, limit, lengths)?;
    if called.told != refusal {
        return Err(format!(
            "refusal {refusal:?} expected, it told {:?}",
            called.told
        ));
    }
    called.links.used(0)?;
    called.rows.used(0)?;
    called.diagnostics.used(0).map(|_| ())
}

/// What is due for a model.
struct Due<'a> {
    sheet: &'a Sheet,
    links: &'a LinkTable,
    limit: u64,
    listing: &'a Listing,
}

fn listed(tables: &Tables, lengths: Lengths, due: &Due, met: &mut Met) -> Result<(), String> {
    met.calls += 1;
    let called = run(tables, due.limit, lengths)?;
    listed::counts(called.told, due.listing)?;
    due.links.fills(&called.links)?;
    let written = called.rows.used(due.listing.rows.len() * ROW_NUMBERS)?;
    if rows_of(due.sheet, written)? != due.listing.rows {
        return Err("the rows differ".to_string());
    }
    listed::diagnostics(&called.diagnostics, due.listing)
}

/// The rows of an output, their name numbers as names.
pub fn rows_of(sheet: &Sheet, numbers: &[u32]) -> Result<Vec<Row>, String> {
    let rows = numbers.chunks(ROW_NUMBERS);
    rows.map(|row| row_of(sheet, row)).collect()
}

/// A row of the output, its name numbers as names.
fn row_of(sheet: &Sheet, numbers: &[u32]) -> Result<Row, String> {
    let names = listed::name_numbers(numbers);
    let row = listed::row(
        numbers,
        names.map(|number| sheet.names[number as usize].clone()),
    )?;
    if Some(names[0]) != sheet.connections[row.connection as usize][connection::NAME] {
        return Err("a row has another name number than its connection".to_string());
    }
    Ok(row)
}
