//! The limit on the steps of a chain, which the traced listing takes. Larger ones than the largest are refused, whatever the tables are. At the
//! largest the library is held to the copy of the original without a limit, where no chain has more steps. The lists of two limits are
//! one exactly where no chain has a step beyond the smaller. And it is held to texts under a limit.

use oracle::letters::{Field, Sheet, component, connection};
use oracle::listing::{Listing, REFUSALS_OF_TABLES, Row, refusal_of};
use oracle::model::Renames;
use oracle::stream::Case;
use oracle::traced::{STEPS, longest_chain, row_count};

use crate::both::{self, Asked};
use crate::library::{ENTRIES, Entry};
use crate::link_table::LinkTable;
use crate::lists::{self, Due, Given, of_a_list};
use crate::tables::Tables;
use crate::{MOST_ROWS, damaged, ignoring_case, listed, records, text, traced, unaccepted};

/// The largest limit.
pub const LARGEST: u64 = 64;

/// Limits that are too large: the least, one that is 0 in 32 bits, and the largest of them; and their refusal.
pub const TOO_LARGE: [u64; 3] = [LARGEST + 1, 1 << 32, u64::MAX];
pub const OVER: u64 = 19;

/// Limits whose lists are compared with each other.
const LIMITS: [u64; 9] = [
    0,
    1,
    2,
    4,
    STEPS - 1,
    STEPS,
    STEPS + 1,
    LARGEST - 1,
    LARGEST,
];

/// How often what was met, over all models.
#[derive(Default)]
pub struct Met {
    pub refused_19: usize,
    /// Models at the largest limit, those of them with a chain of more than 20 steps, and those that the copy would not end on.
    pub models: usize,
    pub beyond: usize,
    pub endless: usize,
    /// Pairs of limits, and those of them that give two lists.
    pub pairs: usize,
    pub parted: usize,
    traced: traced::Met,
    both: both::Met,
    records: records::Met,
    lists: lists::Met,
}

impl Met {
    pub fn print(&self) {
        println!(
            "limits: {} calls refused {OVER}; {} models of both entries at {LARGEST}, {} with a chain of more than {STEPS} steps, {} without end; {} pairs of limits, {} with two lists",
            self.refused_19, self.models, self.beyond, self.endless, self.pairs, self.parted,
        );
        println!(
            "traced listing under a limit: {} rows, {} calls; both listings in one call: {}; diagnostics as records: {}",
            self.traced.rows, self.traced.calls, self.both.calls, self.records.calls,
        );
        self.lists.print("both listings under a limit");
    }

    /// All that there is to meet was met, and one in a hundred models has a chain of more than 20 steps.
    pub fn is_whole(&self) -> bool {
        100 * self.beyond >= self.models
            && self.refused_19 > 0
            && self.parted > 0
            && self.traced.rows > 0
            && self.lists.is_whole()
    }
}

/// The calls that take a limit: of the traced listing, and of both by either entry, each also with records.
pub const CALLS: usize = 6;

/// Each of them refuses a limit that is too large, and leaves zeros in outputs of so many numbers of links and so many rows.
pub fn refused(tables: &Tables, limit: u64, links: usize, rows: usize) -> Result<(), String> {
    let due = of_a_list(OVER);
    let told = |what| format!("limit {limit}: {what}");
    let lengths = both::Lengths::of(links, rows);
    let traced = listed::Lengths {
        links,
        rows: lengths.rows,
        names: 0,
        diagnostics: lengths.diagnostics,
    };
    traced::refuses(tables, limit, traced, due).map_err(told)?;
    for entry in ENTRIES {
        both::refused(tables, Asked { entry, limit }, lengths, due).map_err(told)?;
    }
    records::limit_refused(tables, limit, [links, rows], due).map_err(told)
}

/// Holds the calls to the refusal of limits that are too large, and each entry under others to the copy of the original.
pub fn compare(sheet: &Sheet, renames: Renames, met: &mut Met) -> Result<(), String> {
    let (tables, links) = (Tables::of(sheet), LinkTable::of(sheet));
    for limit in TOO_LARGE {
        for links in [links.length(), links.length() - 1, 0] {
            for rows in [64, 0] {
                met.refused_19 += CALLS;
                refused(&tables, limit, links, rows)?;
            }
        }
    }
    for entry in ENTRIES {
        let asked = Asked {
            entry,
            limit: LARGEST,
        };
        at_the_largest(sheet, renames, asked, met).map_err(|what| format!("{asked:?}: {what}"))?;
    }
    both::compare(sheet, LARGEST, &mut met.both)?;
    records::compare(sheet, LARGEST, &mut met.records)
}

/// An entry at the largest limit, and its lists under others beside those.
fn at_the_largest(
    sheet: &Sheet,
    renames: Renames,
    asked: Asked,
    met: &mut Met,
) -> Result<(), String> {
    met.models += 1;
    let (read, spelled) = read_by(asked.entry, sheet);
    let given = Given::of(sheet, asked, spelled);
    let links = given.links.length();
    let Some(traced) = traced::lifted(&read) else {
        met.endless += 1;
        let due = lists::original(None, &read, renames, links);
        return match row_count(&read, LARGEST) > MOST_ROWS {
            true => given.hold(due, &mut met.lists),
            false => Ok(()),
        };
    };
    let longest = longest_chain(&read, &traced.rows);
    met.beyond += usize::from(longest > STEPS);
    if longest <= STEPS {
        as_at_20(&given)?;
    }
    if asked.entry == Entry::IgnoringCase && ignoring_case::names_apart(sheet) {
        ignoring_case::are_alike_in_all(&given)?;
    }
    if longest <= LARGEST && asked.entry == Entry::Ported {
        traced::hold(sheet, LARGEST, &traced, &mut met.traced)?;
    }
    let due = lists::original(Some(traced), &read, renames, links);
    if let Some(Due::Lists(lists)) = &due {
        every_pair(&given, lists::exact(links, lists), longest, met)?;
    }
    match longest <= LARGEST {
        true => given.hold(due, &mut met.lists),
        false => Ok(()),
    }
}

/// The model of which the original gives the lists of an entry, and how names are spelled in these.
fn read_by(entry: Entry, sheet: &Sheet) -> (Sheet, fn(&str) -> String) {
    match entry {
        Entry::Ported => (sheet.clone(), str::to_string),
        Entry::IgnoringCase => (ignoring_case::folded(sheet), str::to_ascii_lowercase),
    }
}

/// The largest limit leaves what 20 leaves, in outputs as conlist lends them, in shorter and in longer ones.
fn as_at_20(given: &Given) -> Result<(), String> {
    let links = given.links.length();
    let at_20 = Asked {
        limit: STEPS,
        ..given.asked
    };
    for (links, rows) in [
        (links, 64),
        (links, 3),
        (links + 1000, 2048),
        (links - 1, 64),
    ] {
        let lengths = both::Lengths::of(links, rows);
        let [largest, twenty] =
            [given.asked, at_20].map(|asked| both::call(&given.tables, asked, lengths));
        if !largest?.is_as(&twenty?)? {
            return Err(format!(
                "other lists than at {STEPS}, and no chain is longer"
            ));
        }
    }
    Ok(())
}

/// The lists of two limits, which both fit, are one exactly where no chain has a step beyond the smaller.
fn every_pair(
    given: &Given,
    lengths: both::Lengths,
    longest: u64,
    met: &mut Met,
) -> Result<(), String> {
    let call = |limit| {
        let asked = Asked {
            limit,
            ..given.asked
        };
        let called = both::call(&given.tables, asked, lengths)?;
        match called.told[0] {
            0 => Ok((limit, called)),
            _ => Err(format!(
                "lists expected at {limit}, it told {:?}",
                called.told
            )),
        }
    };
    let called: Result<Vec<_>, String> = LIMITS.into_iter().map(call).collect();
    let called = called?;
    for (place, (larger, of_larger)) in called.iter().enumerate() {
        for (smaller, of_smaller) in &called[..place] {
            let one = of_smaller.is_as(of_larger)?;
            met.pairs += 1;
            met.parted += usize::from(!one);
            if one != (longest <= *smaller) {
                return Err(format!(
                    "at {smaller} and {larger} it gives {} lists, and the longest chain has {longest} steps",
                    if one { "the same" } else { "other" },
                ));
            }
        }
    }
    Ok(())
}

/// How many steps the chains of large models have, towards the source and towards the destination.
const LARGE: [[u32; 2]; 7] = [
    [0, 0],
    [20, 21],
    [63, 64],
    [64, 64],
    [65, 64],
    [64, 65],
    [70, 1],
];

/// Chains of more steps than a sheet has room for, at every limit: the row has the steps that the limit allows, 129 connections at most.
pub fn compare_large(met: &mut Met) -> Result<(), String> {
    for steps in LARGE {
        let sheet = large(steps);
        for limit in 0..=LARGEST {
            let row = row_of_large(steps, limit as u32);
            let traced = Listing {
                rows: vec![row],
                diagnostics: Vec::new(),
            };
            let told = |what| format!("chains of {steps:?} steps at {limit}: {what}");
            traced::hold(&sheet, limit, &traced, &mut met.traced).map_err(told)?;
            for entry in ENTRIES {
                let given = Given::of(&sheet, Asked { entry, limit }, str::to_string);
                let due = Due::Lists([traced.clone(), Listing::default()]);
                given.hold(Some(due), &mut met.lists).map_err(told)?;
            }
        }
    }
    Ok(())
}

/// The names of large models.
const NAMES: [&str; 3] = ["s", "d", "port"];
const SOURCE: Field = Some(0);
const DESTINATION: Field = Some(1);
const PORT: Field = Some(2);

/// Two children of the root, in each of them one component, in that the next, and so on. The root's connection leads from the one child to the
/// other, and a connection of every component but the innermost two leads on to the component in it.
fn large([sources, destinations]: [u32; 2]) -> Sheet {
    let mut sheet = Sheet {
        names: NAMES.map(str::to_string).to_vec(),
        ..Sheet::default()
    };
    sheet.components.push(component::row([]));
    sheet.connections.push(connection::row([
        (connection::SOURCE, SOURCE),
        (connection::SOURCE_FEATURE, PORT),
        (connection::DESTINATION, DESTINATION),
        (connection::DESTINATION_FEATURE, PORT),
    ]));
    for (name, steps) in [(SOURCE, sources), (DESTINATION, destinations)] {
        let first = sheet.components.len() as u32;
        for row in first..=first + steps {
            let parent = if row == first { 0 } else { row - 1 };
            sheet.components.push(component::row([
                (component::NAME, name),
                (component::PARENT, Some(parent)),
                (component::PLACE, name),
            ]));
        }
        for owner in first..first + steps {
            let inner = |end: Field| name.filter(|_| name == end);
            sheet.connections.push(connection::row([
                (connection::OWNER, Some(owner)),
                (connection::SOURCE, inner(SOURCE)),
                (connection::SOURCE_FEATURE, PORT),
                (connection::DESTINATION, inner(DESTINATION)),
                (connection::DESTINATION_FEATURE, PORT),
            ]));
        }
    }
    sheet
}

/// The one row of such a model under a limit.
fn row_of_large([sources, destinations]: [u32; 2], limit: u32) -> Row {
    let followed = [sources, destinations].map(|steps| steps.min(limit));
    let towards_source = 1..=followed[0];
    let towards_destination = sources + 1..=sources + followed[1];
    Row {
        connection: 0,
        kind: 0,
        source: 1 + followed[0],
        destination: sources + 2 + followed[1],
        path: [0]
            .into_iter()
            .chain(towards_source)
            .chain(towards_destination)
            .collect(),
        name: NAMES[0].to_string(),
        source_feature: NAMES[2].to_string(),
        destination_feature: NAMES[2].to_string(),
    }
}

/// What was met in a stream of sheets with their texts under a limit.
#[derive(Default)]
pub struct TextsMet {
    /// Sheets that the reader refuses, and sheets whose limit is refused.
    unread: usize,
    refused_19: usize,
    text: text::Met,
    unaccepted: unaccepted::Met,
    lists: Met,
}

impl TextsMet {
    pub fn print(&self) {
        let Met {
            traced,
            both,
            records,
            lists,
            ..
        } = &self.lists;
        println!(
            "texts under a limit: {} traced and {} group rows, {} diagnostics; {} calls over numbers, {} with records, {} for text; {} sheets refused by the reader, {} for their tables, {} refused {OVER}",
            lists.rows,
            lists.group_rows,
            lists.diagnostics,
            lists.calls + both.calls + traced.calls,
            lists.records.calls + records.calls,
            self.text.calls,
            self.unread,
            self.unaccepted.tables,
            self.refused_19,
        );
    }
}

/// Holds an entry under a limit to a text of it: the lists of an accepted sheet, or the refusal of one that is not.
pub fn compare_text(case: &Case, asked: Asked, met: &mut TextsMet) -> Result<(), String> {
    if asked.entry == Entry::Ported {
        text::compare(&case.sheet, asked.limit, &case.text, &mut met.text)?;
    }
    let refusal = refusal_of(&case.text);
    let tables = match damaged::read(&case.sheet)? {
        Ok(tables) => tables,
        Err(told) if Some(told) == refusal => {
            met.unread += 1;
            return Ok(());
        }
        Err(told) => return Err(format!("the reader told {told:?}")),
    };
    if asked.limit > LARGEST {
        return over_the_limit(&tables, asked.limit, refusal, met);
    }
    match (Sheet::accepted(&case.sheet), refusal) {
        (Some(sheet), _) => lists_told(case, &sheet, asked, &mut met.lists),
        (None, Some(refusal)) if REFUSALS_OF_TABLES.contains(&refusal[0]) => {
            unaccepted::refused(&tables, asked.limit, refusal, &mut met.unaccepted)
        }
        (None, _) => Err("a refusal of tables expected".to_string()),
    }
}

/// A limit that is too large, on a sheet that is read.
fn over_the_limit(
    tables: &Tables,
    limit: u64,
    refusal: Option<[u64; 3]>,
    met: &mut TextsMet,
) -> Result<(), String> {
    if refusal != Some(of_a_list(OVER)) {
        return Err(format!("{OVER} is due, and the text tells {refusal:?}"));
    }
    met.refused_19 += 1;
    let links = tables.letters[1].len();
    [links, 0]
        .into_iter()
        .try_for_each(|links| refused(tables, limit, links, 64))
}

/// The lists of an accepted sheet that a text tells.
fn lists_told(case: &Case, sheet: &Sheet, asked: Asked, met: &mut Met) -> Result<(), String> {
    damaged::read_again(&case.sheet, sheet)?;
    let given = Given::of(sheet, asked, str::to_string);
    let due = lists::told(&case.text, given.links.length())?;
    if asked.entry == Entry::Ported {
        if let Due::Lists([traced, _]) = &due {
            traced::hold(sheet, asked.limit, traced, &mut met.traced)?;
        }
        both::compare(sheet, asked.limit, &mut met.both)?;
        records::compare(sheet, asked.limit, &mut met.records)?;
    }
    given.hold(Some(due), &mut met.lists)
}
