//! Both listings in one call, by an entry and under a limit, held to what is known of a model: to its lists, in outputs of every telling
//! length, or to a refusal.

use oracle::listing::{Listing, Row, composed_bytes, refusal_of};
use oracle::model::Renames;
use oracle::sheet::Sheet;

use crate::both::{self, Asked, Lengths};
use crate::link_table::{LINK_NUMBERS, LinkTable, TOO_FEW_LINKS};
use crate::records::{self, Model};
use crate::tables::Tables;
use crate::{DIAGNOSTIC_NUMBERS, ROW_NUMBERS, group, listed, printed, traced};

/// The refusals of both listings.
pub const REFUSALS: [u64; 5] = [11, 12, 13, 14, TOO_FEW_LINKS];

/// The refusal of lists that are longer than a text.
const TOO_LONG: u64 = 15;

/// How often what was met, over all models.
#[derive(Default)]
pub struct Met {
    pub models: usize,
    pub rows: usize,
    pub group_rows: usize,
    pub diagnostics: usize,
    /// Calls over numbers, and those of them that were refused, by their refusal.
    pub calls: usize,
    pub refused: [usize; REFUSALS.len()],
    /// What the calls with records met.
    pub records: records::Met,
    /// Models that the original is too long at.
    pub slow: usize,
    /// Models whose lists are longer than a text.
    pub too_long: usize,
}

impl Met {
    pub fn print(&self, what: &str) {
        println!(
            "{what}: {} traced and {} group rows, {} diagnostics; {} calls, refused {REFUSALS:?}: {:?}, {} calls with records; {} models that the original is too long at, {} that a text is too short for",
            self.rows,
            self.group_rows,
            self.diagnostics,
            self.calls,
            self.refused,
            self.records.calls,
            self.slow,
            self.too_long,
        );
    }

    /// All that there is to meet was met. (No list has to be too long for the original or for a text.)
    pub fn is_whole(&self) -> bool {
        let met = [
            self.rows,
            self.group_rows,
            self.diagnostics,
            self.records.records,
        ];
        met.iter().chain(&self.refused).all(|&number| number > 0)
    }
}

/// What is due for a model.
pub enum Due {
    /// The traced and the group listing.
    Lists([Listing; 2]),
    /// Lists of which nothing is known, in outputs as conlist lends them.
    SomeLists,
    /// A refusal, in outputs of these lengths.
    Refused([u64; 3], Lengths),
}

/// With this traced listing what the original gives, or the refusal that is owed in its place; nothing where it cannot be waited for.
/// Without a traced listing there are more rows than are collected.
pub fn original(
    traced: Option<Listing>,
    sheet: &Sheet,
    renames: Renames,
    links: usize,
) -> Option<Due> {
    let Some(traced) = traced else {
        return Some(Due::Refused(of_a_list(11), Lengths::of(links, 64)));
    };
    Some(match group::expected(sheet, renames)? {
        Ok(group) => Due::Lists([traced, group]),
        Err(number) => {
            let no_group = Listing::default();
            Due::Refused(of_a_list(number), exact(links, &[traced, no_group]))
        }
    })
}

/// What a text tells.
pub fn told(text: &[u8], links: usize) -> Result<Due, String> {
    match refusal_of(text) {
        None => printed::lists(text).map(Due::Lists),
        Some(refusal) if refusal == of_a_list(TOO_LONG) => Ok(Due::SomeLists),
        Some(refusal) => Ok(Due::Refused(refusal, Lengths::of(links, 64))),
    }
}

/// A refusal without a place.
pub fn of_a_list(number: u64) -> [u64; 3] {
    [number, 0, b'-'.into()]
}

/// The lengths that these lists need, behind so many numbers of links.
pub fn exact(links: usize, [traced, group]: &[Listing; 2]) -> Lengths {
    Lengths {
        links,
        rows: traced.rows.len() * ROW_NUMBERS,
        diagnostics: traced.diagnostics.len() * DIAGNOSTIC_NUMBERS,
        group_rows: group.rows.len() * ROW_NUMBERS,
        names: composed_bytes(group),
        group_diagnostics: group.diagnostics.len() * DIAGNOSTIC_NUMBERS,
    }
}

/// The same, longer by as much as holds no further row; and longer by much.
fn longer(exact: Lengths) -> [Lengths; 2] {
    let by = |rows: usize, diagnostics: usize, names: usize, links: usize| Lengths {
        links: exact.links + links,
        rows: exact.rows + rows,
        diagnostics: exact.diagnostics + diagnostics,
        group_rows: exact.group_rows + rows,
        names: exact.names + names,
        group_diagnostics: exact.group_diagnostics + diagnostics,
    };
    [
        by(ROW_NUMBERS - 1, DIAGNOSTIC_NUMBERS - 1, 1, LINK_NUMBERS - 1),
        by(100 * ROW_NUMBERS, 1000, 10_000, 1000),
    ]
}

/// The outputs in the order in which they are refused, each with its refusal.
const OUTPUTS: [(fn(&mut Lengths) -> &mut usize, u64); 6] = [
    (|own| &mut own.links, TOO_FEW_LINKS),
    (|own| &mut own.rows, 11),
    (|own| &mut own.diagnostics, 12),
    (|own| &mut own.group_rows, 11),
    (|own| &mut own.names, 14),
    (|own| &mut own.group_diagnostics, 12),
];

/// Each output a number too short, by itself and with all that are refused behind it, and what is told then.
fn too_short(exact: Lengths) -> Vec<(Lengths, u64)> {
    let mut found = Vec::new();
    let mut with_later = exact;
    for (output, number) in OUTPUTS.into_iter().rev() {
        let mut alone = exact;
        if *output(&mut alone) > 0 {
            *output(&mut alone) -= 1;
            *output(&mut with_later) -= 1;
            found.extend([(alone, number), (with_later, number)]);
        }
    }
    found
}

/// A model and how its lists are asked for; and how the names that a call hands over are spelled in what is due.
pub struct Given<'a> {
    pub sheet: &'a Sheet,
    pub tables: Tables,
    pub links: LinkTable,
    pub asked: Asked,
    spelled: fn(&str) -> String,
}

impl Given<'_> {
    pub fn of(sheet: &Sheet, asked: Asked, spelled: fn(&str) -> String) -> Given<'_> {
        Given {
            sheet,
            tables: Tables::of(sheet),
            links: LinkTable::of(sheet),
            asked,
            spelled,
        }
    }

    /// The call gives what is due, where that is known, and refuses too few links before all that it refuses of a list.
    pub fn hold(&self, due: Option<Due>, met: &mut Met) -> Result<(), String> {
        met.models += 1;
        let found = match due {
            Some(Due::Lists(lists)) => self.every_length(&lists, met),
            Some(Due::SomeLists) => {
                met.too_long += 1;
                self.some_lists(met)
            }
            Some(Due::Refused(refusal, lengths)) => self.refused(lengths, refusal, met),
            None => {
                met.slow += 1;
                Ok(())
            }
        };
        found.and_then(|()| self.too_few_links(met))
    }

    /// These lists, in outputs of every telling length.
    fn every_length(&self, lists: &[Listing; 2], met: &mut Met) -> Result<(), String> {
        met.rows += lists[0].rows.len();
        met.group_rows += lists[1].rows.len();
        met.diagnostics += lists[0].diagnostics.len() + lists[1].diagnostics.len();
        let exact = exact(self.links.length(), lists);
        for lengths in [exact].into_iter().chain(longer(exact)) {
            self.listed(&self.tables, lengths, lists, met)?;
        }
        let others = [
            Some(self.tables.with_more_names()),
            Some(self.tables.with_large_places()),
            self.tables.with_other_indices(),
        ];
        for other in others.iter().flatten() {
            self.listed(other, exact, lists, met)?;
        }
        for (lengths, number) in too_short(exact) {
            self.refused(lengths, of_a_list(number), met)?;
        }
        Ok(())
    }

    /// These lists and the link table, with diagnostics as numbers and as records.
    fn listed(
        &self,
        tables: &Tables,
        lengths: Lengths,
        [traced, group]: &[Listing; 2],
        met: &mut Met,
    ) -> Result<(), String> {
        met.calls += 1;
        let called = both::call(tables, self.asked, lengths)?;
        let [refused, one, other, third, fourth] = called.told;
        listed::counts([refused, one, other], traced)?;
        listed::counts([refused, third, fourth], group)?;
        let lists = called.lists;
        self.links.fills(&lists.links)?;
        let rows = lists.rows.used(traced.rows.len() * ROW_NUMBERS)?;
        if self.spelled(traced::rows_of(self.sheet, rows)?) != traced.rows {
            return Err("the traced rows differ".to_string());
        }
        listed::diagnostics(&lists.diagnostics, traced)?;
        let rows = lists.group_rows.used(group.rows.len() * ROW_NUMBERS)?;
        let names = lists.names.used(composed_bytes(group))?;
        if self.spelled(group::rows_of(rows, names)?) != group.rows {
            return Err("the group rows differ".to_string());
        }
        listed::diagnostics(&lists.group_diagnostics, group)?;
        self.with_records(tables, lengths, met)
    }

    /// The call with as many records as there is room for in the numbers.
    fn with_records(&self, tables: &Tables, lengths: Lengths, met: &mut Met) -> Result<(), String> {
        let model = Model {
            tables,
            links: &self.links,
            limit: self.asked.limit,
        };
        let records = [lengths.diagnostics, lengths.group_diagnostics]
            .map(|numbers| numbers / DIAGNOSTIC_NUMBERS);
        let entry = self.asked.entry;
        records::both_agree(model, entry, lengths, records, &mut met.records)
            .map_err(|what| format!("with records: {what}"))
    }

    /// The rows with their names spelled as in what is due.
    fn spelled(&self, rows: Vec<Row>) -> Vec<Row> {
        let spelled = |row: Row| Row {
            name: (self.spelled)(&row.name),
            source_feature: (self.spelled)(&row.source_feature),
            destination_feature: (self.spelled)(&row.destination_feature),
            ..row
        };
        rows.into_iter().map(spelled).collect()
    }

    /// Some lists and the link table, in outputs as conlist lends them.
    fn some_lists(&self, met: &mut Met) -> Result<(), String> {
        met.calls += 1;
        let lengths = Lengths::of(self.links.length(), 64);
        let called = both::call(&self.tables, self.asked, lengths)?;
        if called.told[0] != 0 {
            return Err(format!("lists expected, it told {:?}", called.told));
        }
        self.links.fills(&called.lists.links)?;
        self.with_records(&self.tables, lengths, met)
    }

    /// This refusal, in outputs of these lengths.
    fn refused(&self, lengths: Lengths, refusal: [u64; 3], met: &mut Met) -> Result<(), String> {
        met.calls += 1;
        let place = REFUSALS.iter().position(|&own| own == refusal[0]);
        met.refused[place.ok_or("a refusal of lists expected")?] += 1;
        both::refused(&self.tables, self.asked, lengths, refusal)?;
        self.with_records(&self.tables, lengths, met)
    }

    /// Links one number too short, one row, and none, the other outputs as conlist lends them and without a place.
    fn too_few_links(&self, met: &mut Met) -> Result<(), String> {
        let full = self.links.length();
        for links in [full - 1, full - LINK_NUMBERS, 0] {
            for rows in [64, 0] {
                self.refused(Lengths::of(links, rows), of_a_list(TOO_FEW_LINKS), met)?;
            }
        }
        Ok(())
    }
}
