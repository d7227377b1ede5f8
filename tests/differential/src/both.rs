//! Both listings in one call, by either entry. The ported one, `list_connections`, gives what the two calls give that are compared with the
//! original, or the refusal of the first that is refused, with zeros in all six outputs.

use oracle::sheet::Sheet;

use crate::lent::Lent;
use crate::library::{self, Diagnostic, Entry, Outputs};
use crate::link_table::{LINK_NUMBERS, LinkTable, TOO_FEW_LINKS};
use crate::tables::Tables;
use crate::{DIAGNOSTIC_NUMBERS, ROW_NUMBERS};

/// How often what was met, over all sheets.
#[derive(Default)]
pub struct Met {
    pub calls: usize,
    pub refused: usize,
    pub refused_22: usize,
}

/// How both listings are asked for: by which entry, and with how many steps of a chain at most.
#[derive(Clone, Copy, Debug)]
pub struct Asked {
    pub entry: Entry,
    pub limit: u64,
}

/// The lengths of the six outputs.
#[derive(Clone, Copy)]
pub struct Lengths {
    pub links: usize,
    pub rows: usize,
    pub diagnostics: usize,
    pub group_rows: usize,
    pub names: usize,
    pub group_diagnostics: usize,
}

impl Lengths {
    /// Room for so many rows and as many diagnostics of each listing; of 64, as conlist lends it.
    pub fn of(links: usize, rows: usize) -> Lengths {
        Lengths {
            links,
            rows: rows * ROW_NUMBERS,
            diagnostics: rows * DIAGNOSTIC_NUMBERS,
            group_rows: rows * ROW_NUMBERS,
            names: rows * 64,
            group_diagnostics: rows * DIAGNOSTIC_NUMBERS,
        }
    }
}

/// The six outputs.
pub struct Lists {
    pub links: Lent<u32>,
    pub rows: Lent<u32>,
    pub diagnostics: Lent<u32>,
    pub group_rows: Lent<u32>,
    pub names: Lent<u8>,
    pub group_diagnostics: Lent<u32>,
}

impl Lists {
    pub fn of(lengths: Lengths) -> Lists {
        Lists {
            links: Lent::of_length(lengths.links),
            rows: Lent::of_length(lengths.rows),
            diagnostics: Lent::of_length(lengths.diagnostics),
            group_rows: Lent::of_length(lengths.group_rows),
            names: Lent::of_length(lengths.names),
            group_diagnostics: Lent::of_length(lengths.group_diagnostics),
        }
    }

    /// The link table, and the outputs beside it.
    fn lend(&mut self) -> (&mut [u32], Outputs<'_>) {
        let outputs = Outputs {
            rows: self.rows.lend(),
            diagnostics: self.diagnostics.lend(),
            group_rows: self.group_rows.lend(),
            names: self.names.lend(),
            group_diagnostics: self.group_diagnostics.lend(),
        };
        (self.links.lend(), outputs)
    }

    /// The one call.
    fn list(&mut self, asked: Asked, tables: &Tables) -> [u64; 5] {
        let (links, outputs) = self.lend();
        library::list_connections(asked.entry, tables, asked.limit, links, outputs)
    }

    /// The one call with records.
    pub fn list_with_records(
        &mut self,
        asked: Asked,
        tables: &Tables,
        records: &mut [Diagnostic],
        group_records: &mut [Diagnostic],
    ) -> [u64; 5] {
        let (links, outputs) = self.lend();
        library::list_connections_with_records(
            asked.entry,
            tables,
            asked.limit,
            links,
            outputs,
            records,
            group_records,
        )
    }

    /// Zeros stand in all of them.
    pub fn are_zero(&self) -> Result<(), String> {
        self.links.used(0)?;
        self.rows.used(0)?;
        self.diagnostics.used(0)?;
        self.group_rows.used(0)?;
        self.names.used(0)?;
        self.group_diagnostics.used(0).map(|_| ())
    }

    /// Rows, names and diagnostics are as in the other.
    fn list_the_same(&self, other: &Lists) -> Result<bool, String> {
        Ok(self.have_the_same_rows(other)?
            && self.diagnostics.contents()? == other.diagnostics.contents()?
            && self.group_diagnostics.contents()? == other.group_diagnostics.contents()?)
    }

    /// Rows and names are as in the other.
    pub fn have_the_same_rows(&self, other: &Lists) -> Result<bool, String> {
        Ok(self.rows.contents()? == other.rows.contents()?
            && self.group_rows.contents()? == other.group_rows.contents()?
            && self.names.contents()? == other.names.contents()?)
    }
}

/// What a call told, and the outputs afterwards.
pub struct Called {
    pub told: [u64; 5],
    pub lists: Lists,
}

impl Called {
    /// Both told the same, and left the same in every output.
    pub fn is_as(&self, other: &Called) -> Result<bool, String> {
        Ok(self.told == other.told
            && self.lists.links.contents()? == other.lists.links.contents()?
            && self.lists.list_the_same(&other.lists)?)
    }
}

/// The one call, with outputs of these lengths.
pub fn call(tables: &Tables, asked: Asked, lengths: Lengths) -> Result<Called, String> {
    let (before, mut lists) = (tables.clone(), Lists::of(lengths));
    let told = lists.list(asked, tables);
    if *tables == before {
        Ok(Called { told, lists })
    } else {
        Err("it changed an input".to_string())
    }
}

/// The one call gives this refusal and leaves zeros.
pub fn refused(
    tables: &Tables,
    asked: Asked,
    lengths: Lengths,
    [number, place, letter]: [u64; 3],
) -> Result<(), String> {
    let called = call(tables, asked, lengths)?;
    called.lists.are_zero()?;
    expect(called.told, [number, place, letter, 0, 0])
}

/// Compares the one call with the two under a limit, with outputs as conlist lends them and with small ones; and sees that it refuses too
/// few links before all that it refuses of a list.
pub fn compare(sheet: &Sheet, limit: u64, met: &mut Met) -> Result<(), String> {
    let (tables, links) = (Tables::of(sheet), LinkTable::of(sheet));
    let exact = links.length();
    let asked = Asked {
        entry: Entry::Ported,
        limit,
    };
    for (lent, rows) in [
        (exact, 64),
        (exact + LINK_NUMBERS - 1, 3),
        (exact + 1000, 3),
    ] {
        agrees(&tables, &links, asked, Lengths::of(lent, rows), met)
            .map_err(|what| format!("both listings: {what}"))?;
    }
    for (lent, rows) in [(exact - 1, 64), (exact - 1, 0), (0, 64), (0, 0)] {
        met.calls += 1;
        met.refused_22 += 1;
        let due = [TOO_FEW_LINKS, 0, b'-'.into()];
        refused(&tables, asked, Lengths::of(lent, rows), due)
            .map_err(|what| format!("both listings: {what}"))?;
    }
    Ok(())
}

/// The one call with outputs of these lengths. The two calls by themselves leave the link table too, each where it does not refuse.
fn agrees(
    tables: &Tables,
    links: &LinkTable,
    asked: Asked,
    lengths: Lengths,
    met: &mut Met,
) -> Result<(), String> {
    let before = tables.clone();
    let mut one = Lists::of(lengths);
    let mut group_links = Lent::of_length(lengths.links);
    let traced = library::compute_semantic_connections(
        tables,
        asked.limit,
        one.links.lend(),
        one.rows.lend(),
        one.diagnostics.lend(),
    );
    let group = library::expand_feature_group_connections(
        tables,
        group_links.lend(),
        one.group_rows.lend(),
        one.names.lend(),
        one.group_diagnostics.lend(),
    );
    if *tables != before {
        return Err("it changed an input".to_string());
    }
    met.calls += 1;
    links.is_left(&one.links, &traced)?;
    links.is_left(&group_links, &group)?;
    let refusal = [traced, group].into_iter().find(|told| told[0] != 0);
    if let Some(refusal) = refusal {
        met.refused += 1;
        return refused(tables, asked, lengths, refusal);
    }
    let both = call(tables, asked, lengths)?;
    expect(both.told, [0, traced[1], traced[2], group[1], group[2]])?;
    links.fills(&both.lists.links)?;
    if both.lists.list_the_same(&one)? {
        Ok(())
    } else {
        Err("an output differs".to_string())
    }
}

fn expect(told: [u64; 5], due: [u64; 5]) -> Result<(), String> {
    if told == due {
        Ok(())
    } else {
        Err(format!("{due:?} expected, it told {told:?}"))
    }
}
