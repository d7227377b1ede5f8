//! The listings that fill the caller's records, both listings by either entry: each gives what the call over numbers gives in the room that
//! the records and the numbers lent for them leave, with the diagnostics in both and the same link table. The calls over numbers are compared
//! with the original elsewhere.

use oracle::sheet::Sheet;

use crate::both::{self, Asked, Lists};
use crate::lent::Lent;
use crate::library::{self, Diagnostic, ENTRIES, Entry};
use crate::link_table::{LINK_NUMBERS, LinkTable, TOO_FEW_LINKS};
use crate::tables::Tables;
use crate::{DIAGNOSTIC_NUMBERS, ROW_NUMBERS};

/// How often what was met, over all sheets.
#[derive(Default)]
pub struct Met {
    pub calls: usize,
    pub records: usize,
    pub refused_12: usize,
    pub refused_22: usize,
}

/// How much is lent for the diagnostics of a listing.
#[derive(Clone, Copy)]
struct Room {
    records: usize,
    numbers: usize,
}

impl Room {
    /// How many diagnostics find room.
    fn places(self) -> usize {
        self.records.min(self.numbers / DIAGNOSTIC_NUMBERS)
    }

    /// Room around `count` diagnostics: the records just enough, too few, more; the numbers just enough, too few, more.
    fn around(count: usize) -> Vec<Room> {
        let room = |records, numbers| Room { records, numbers };
        let mut rooms = vec![
            room(count, count * DIAGNOSTIC_NUMBERS),
            room(count, count * DIAGNOSTIC_NUMBERS + 11),
            room(count + 3, count * DIAGNOSTIC_NUMBERS + 3),
        ];
        if count > 0 {
            rooms.push(room(count - 1, count * DIAGNOSTIC_NUMBERS));
            rooms.push(room(count, count * DIAGNOSTIC_NUMBERS - 1));
        }
        rooms
    }
}

/// The numbers and the records that a call leaves.
struct Diagnostics {
    numbers: Lent<u32>,
    records: Lent<Diagnostic>,
}

impl Diagnostics {
    fn of(room: Room) -> Diagnostics {
        Diagnostics {
            numbers: Lent::of_length(room.numbers),
            records: Lent::of_length(room.records),
        }
    }

    fn are_zero(&self) -> Result<(), String> {
        self.numbers.used(0)?;
        self.records.used(0).map(|_| ())
    }

    /// They hold the diagnostics that the call over numbers left, and zeros behind them.
    fn hold(&self, expected: &[u32], met: &mut Met) -> Result<(), String> {
        if self.numbers.used(expected.len())? != expected {
            return Err("the numbers of the diagnostics differ".to_string());
        }
        let records: Vec<u32> = self
            .records
            .used(expected.len() / DIAGNOSTIC_NUMBERS)?
            .iter()
            .flat_map(|record| [record.code, record.connection, record.first, record.second])
            .collect();
        met.records += records.len() / DIAGNOSTIC_NUMBERS;
        if records == expected {
            Ok(())
        } else {
            Err("the records of the diagnostics differ".to_string())
        }
    }
}

/// The outputs of a listing beside its diagnostics.
struct Rows {
    rows: Lent<u32>,
    names: Lent<u8>,
}

impl Rows {
    fn of(rows: usize) -> Rows {
        Rows {
            rows: Lent::of_length(rows * ROW_NUMBERS),
            names: Lent::of_length(rows * 64),
        }
    }

    fn same(&self, other: &Rows) -> Result<(), String> {
        if self.rows.contents()? == other.rows.contents()?
            && self.names.contents()? == other.names.contents()?
        {
            Ok(())
        } else {
            Err("the rows differ".to_string())
        }
    }
}

/// How much is lent for the links, and how many rows of each listing.
#[derive(Clone, Copy)]
struct Lengths {
    links: usize,
    rows: usize,
}

impl Lengths {
    /// Room for as many diagnostics as rows.
    fn room(self) -> Room {
        Room {
            records: self.rows,
            numbers: self.rows * DIAGNOSTIC_NUMBERS,
        }
    }

    /// The lengths of both listings' outputs, with this room for diagnostics.
    fn of_both(self, traced: Room, group: Room) -> both::Lengths {
        both::Lengths {
            diagnostics: traced.numbers,
            group_diagnostics: group.numbers,
            ..both::Lengths::of(self.links, self.rows)
        }
    }
}

/// The tables of a model, the link table that is due for it, and how many steps a chain of it may have at most.
#[derive(Clone, Copy)]
pub struct Model<'a> {
    pub tables: &'a Tables,
    pub links: &'a LinkTable,
    pub limit: u64,
}

impl Model<'_> {
    /// How an entry is asked for both listings of it.
    fn by(self, entry: Entry) -> Asked {
        let limit = self.limit;
        Asked { entry, limit }
    }
}

/// Compares the calls with records with those over numbers under a limit: with room around as many diagnostics as there are, and with few
/// rows; and sees that they refuse too few links before all that they refuse of a list.
pub fn compare(sheet: &Sheet, limit: u64, met: &mut Met) -> Result<(), String> {
    let (tables, links) = (Tables::of(sheet), LinkTable::of(sheet));
    let model = Model {
        tables: &tables,
        links: &links,
        limit,
    };
    let exact = links.length();
    in_rooms(exact, counts_alone(model), |lengths, traced, group| {
        agree(model, lengths, traced, group, met)
    })?;
    let second = Entry::IgnoringCase;
    in_rooms(exact, counts(model, second)?, |lengths, traced, group| {
        each_of_both_agrees(model, second, lengths, traced, group, met)
    })?;
    for (links, rows) in [(exact - 1, 64), (exact - 1, 0), (0, 64), (0, 0)] {
        met.calls += 4;
        met.refused_22 += 4;
        let refusal = [TOO_FEW_LINKS, 0, b'-'.into()];
        all_refuse(&tables, limit, Lengths { links, rows }, refusal)?;
    }
    Ok(())
}

/// So many diagnostics are taken where a listing that is refused tells no number.
const DIAGNOSTICS: usize = 2;

/// How many diagnostics the calls for one listing give.
fn counts_alone(model: Model) -> [usize; 2] {
    let mut links = Lent::of_length(model.links.length());
    let (mut own, mut numbers) = (Rows::of(64), Lent::of_length(64 * DIAGNOSTIC_NUMBERS));
    let traced = library::compute_semantic_connections(
        model.tables,
        model.limit,
        links.lend(),
        own.rows.lend(),
        numbers.lend(),
    );
    let group = library::expand_feature_group_connections(
        model.tables,
        links.lend(),
        own.rows.lend(),
        own.names.lend(),
        numbers.lend(),
    );
    [traced, group].map(|told| match told[0] {
        0 => told[2] as usize,
        _ => DIAGNOSTICS,
    })
}

/// How many diagnostics of each listing an entry gives.
fn counts(model: Model, entry: Entry) -> Result<[usize; 2], String> {
    let lengths = both::Lengths::of(model.links.length(), 64);
    let told = both::call(model.tables, model.by(entry), lengths)?.told;
    Ok(match told[0] {
        0 => [told[2] as usize, told[4] as usize],
        _ => [DIAGNOSTICS; 2],
    })
}

/// Sees that calls agree with room around so many diagnostics of each listing, and with few rows; with these numbers of links and with more.
fn in_rooms(
    links: usize,
    counts: [usize; 2],
    mut agree: impl FnMut(Lengths, Room, Room) -> Result<(), String>,
) -> Result<(), String> {
    let [traced, group] = counts.map(Room::around);
    let lent = [links, links + LINK_NUMBERS - 1, links + 1000];
    for k in 0..traced.len().max(group.len()) {
        let (of_traced, of_group) = (traced[k % traced.len()], group[k % group.len()]);
        let lengths = Lengths {
            links: lent[k % lent.len()],
            rows: 64,
        };
        agree(lengths, of_traced, of_group)?;
    }
    let few = Lengths { links, rows: 3 };
    agree(few, traced[0], group[0])
}

/// The calls for one listing, and for both by the ported entry, with these rooms.
fn agree(
    model: Model,
    lengths: Lengths,
    traced: Room,
    group: Room,
    met: &mut Met,
) -> Result<(), String> {
    traced_agrees(model, lengths, traced, met)
        .map_err(|what| format!("records of the traced listing: {what}"))?;
    group_agrees(model, lengths, group, met)
        .map_err(|what| format!("records of the group listing: {what}"))?;
    each_of_both_agrees(model, Entry::Ported, lengths, traced, group, met)
}

/// Both listings by an entry twice, each time with much room for the other's diagnostics.
fn each_of_both_agrees(
    model: Model,
    entry: Entry,
    lengths: Lengths,
    traced: Room,
    group: Room,
    met: &mut Met,
) -> Result<(), String> {
    let much = Room {
        records: 64,
        numbers: 64 * DIAGNOSTIC_NUMBERS,
    };
    for (traced, group) in [(traced, much), (much, group)] {
        let records = [traced.records, group.records];
        both_agree(model, entry, lengths.of_both(traced, group), records, met)
            .map_err(|what| format!("records of both listings, {entry:?}: {what}"))?;
    }
    Ok(())
}

fn traced_agrees(model: Model, lengths: Lengths, room: Room, met: &mut Met) -> Result<(), String> {
    let (tables, before) = (model.tables, model.tables.clone());
    let (mut own, mut filled) = (Rows::of(lengths.rows), Rows::of(lengths.rows));
    let mut own_links = Lent::of_length(lengths.links);
    let mut numbers = Lent::of_length(room.places() * DIAGNOSTIC_NUMBERS);
    let due = library::compute_semantic_connections(
        tables,
        model.limit,
        own_links.lend(),
        own.rows.lend(),
        numbers.lend(),
    );
    let (mut links, mut diagnostics) = (Lent::of_length(lengths.links), Diagnostics::of(room));
    let told = library::compute_semantic_connections_with_records(
        tables,
        model.limit,
        links.lend(),
        filled.rows.lend(),
        diagnostics.numbers.lend(),
        diagnostics.records.lend(),
    );
    expect(&told, &due, *tables == before, met)?;
    model.links.is_left(&links, &told)?;
    filled.same(&own)?;
    diagnostics.hold(written(&numbers, told[0], told[2])?, met)
}

fn group_agrees(model: Model, lengths: Lengths, room: Room, met: &mut Met) -> Result<(), String> {
    let (tables, before) = (model.tables, model.tables.clone());
    let (mut own, mut filled) = (Rows::of(lengths.rows), Rows::of(lengths.rows));
    let mut own_links = Lent::of_length(lengths.links);
    let mut numbers = Lent::of_length(room.places() * DIAGNOSTIC_NUMBERS);
    let due = library::expand_feature_group_connections(
        tables,
        own_links.lend(),
        own.rows.lend(),
        own.names.lend(),
        numbers.lend(),
    );
    let (mut links, mut diagnostics) = (Lent::of_length(lengths.links), Diagnostics::of(room));
    let told = library::expand_feature_group_connections_with_records(
        tables,
        links.lend(),
        filled.rows.lend(),
        filled.names.lend(),
        diagnostics.numbers.lend(),
        diagnostics.records.lend(),
    );
    expect(&told, &due, *tables == before, met)?;
    model.links.is_left(&links, &told)?;
    filled.same(&own)?;
    diagnostics.hold(written(&numbers, told[0], told[2])?, met)
}

/// Both listings by an entry, with so many records of each: what they give over numbers in the room that records and numbers leave.
pub fn both_agree(
    model: Model,
    entry: Entry,
    lengths: both::Lengths,
    [records, group_records]: [usize; 2],
    met: &mut Met,
) -> Result<(), String> {
    let (tables, before) = (model.tables, model.tables.clone());
    let numbers = |records, numbers| Room { records, numbers }.places() * DIAGNOSTIC_NUMBERS;
    let room = both::Lengths {
        diagnostics: numbers(records, lengths.diagnostics),
        group_diagnostics: numbers(group_records, lengths.group_diagnostics),
        ..lengths
    };
    let asked = model.by(entry);
    let due = both::call(tables, asked, room)?;
    let mut filled = Lists::of(lengths);
    let (mut records, mut group_records) =
        (Lent::of_length(records), Lent::of_length(group_records));
    let told = filled.list_with_records(asked, tables, records.lend(), group_records.lend());
    expect(&told, &due.told, *tables == before, met)?;
    model.links.is_left(&filled.links, &told)?;
    if !filled.have_the_same_rows(&due.lists)? {
        return Err("the rows differ".to_string());
    }
    let diagnostics = Diagnostics {
        numbers: filled.diagnostics,
        records,
    };
    let group_diagnostics = Diagnostics {
        numbers: filled.group_diagnostics,
        records: group_records,
    };
    diagnostics.hold(written(&due.lists.diagnostics, told[0], told[2])?, met)?;
    group_diagnostics.hold(
        written(&due.lists.group_diagnostics, told[0], told[4])?,
        met,
    )
}

/// Both calls tell the same, and the tables are as they were.
fn expect(told: &[u64], due: &[u64], kept: bool, met: &mut Met) -> Result<(), String> {
    met.calls += 1;
    met.refused_12 += usize::from(told[0] == 12);
    if !kept {
        return Err("it changed an input".to_string());
    }
    if told == due {
        Ok(())
    } else {
        Err(format!("{due:?} expected, it told {told:?}"))
    }
}

/// The numbers of the diagnostics that a call has counted, none where it refused.
fn written(numbers: &Lent<u32>, refused: u64, count: u64) -> Result<&[u32], String> {
    let count = if refused == 0 { count as usize } else { 0 };
    numbers.used(count * DIAGNOSTIC_NUMBERS)
}

/// Tables that are not accepted: each of the calls gives their refusal and leaves zeros, with so many numbers of links.
pub fn refused(tables: &Tables, limit: u64, links: usize, refusal: [u64; 3]) -> Result<(), String> {
    all_refuse(tables, limit, Lengths { links, rows: 64 }, refusal)
}

/// A limit that is refused: each of the calls that take one gives this refusal and leaves zeros, with so many numbers of links and so many
/// rows.
pub fn limit_refused(
    tables: &Tables,
    limit: u64,
    [links, rows]: [usize; 2],
    refusal: [u64; 3],
) -> Result<(), String> {
    limited_refuse(tables, limit, Lengths { links, rows }, refusal)
}

/// Each of the calls gives this refusal and leaves zeros; there is room for as many diagnostics as rows.
fn all_refuse(
    tables: &Tables,
    limit: u64,
    lengths: Lengths,
    refusal: [u64; 3],
) -> Result<(), String> {
    limited_refuse(tables, limit, lengths, refusal)?;
    group_refuses(tables, lengths, refusal)
}

/// Each of those that take a limit does.
fn limited_refuse(
    tables: &Tables,
    limit: u64,
    lengths: Lengths,
    refusal: [u64; 3],
) -> Result<(), String> {
    let before = tables.clone();
    traced_refuses(tables, limit, lengths, refusal)?;
    for entry in ENTRIES {
        both_refuse(tables, Asked { entry, limit }, lengths, refusal)?;
    }
    if *tables == before {
        Ok(())
    } else {
        Err("it changed an input".to_string())
    }
}

/// The call for the traced listing refuses.
fn traced_refuses(
    tables: &Tables,
    limit: u64,
    lengths: Lengths,
    refusal: [u64; 3],
) -> Result<(), String> {
    let mut links = Lent::of_length(lengths.links);
    let mut own = Rows::of(lengths.rows);
    let mut diagnostics = Diagnostics::of(lengths.room());
    let told = library::compute_semantic_connections_with_records(
        tables,
        limit,
        links.lend(),
        own.rows.lend(),
        diagnostics.numbers.lend(),
        diagnostics.records.lend(),
    );
    links.used(0)?;
    own.rows.used(0)?;
    diagnostics.are_zero()?;
    is_told("traced listing", told, refusal)
}

/// The call for the group listing refuses.
fn group_refuses(tables: &Tables, lengths: Lengths, refusal: [u64; 3]) -> Result<(), String> {
    let before = tables.clone();
    let mut links = Lent::of_length(lengths.links);
    let mut own = Rows::of(lengths.rows);
    let mut diagnostics = Diagnostics::of(lengths.room());
    let told = library::expand_feature_group_connections_with_records(
        tables,
        links.lend(),
        own.rows.lend(),
        own.names.lend(),
        diagnostics.numbers.lend(),
        diagnostics.records.lend(),
    );
    if *tables != before {
        return Err("it changed an input".to_string());
    }
    links.used(0)?;
    own.rows.used(0)?;
    own.names.used(0)?;
    diagnostics.are_zero()?;
    is_told("group listing", told, refusal)
}

fn is_told(listing: &str, told: [u64; 3], refusal: [u64; 3]) -> Result<(), String> {
    if told == refusal {
        Ok(())
    } else {
        Err(format!(
            "the {listing} with records told {told:?} where {refusal:?} is due"
        ))
    }
}

/// The call for both listings refuses.
fn both_refuse(
    tables: &Tables,
    asked: Asked,
    lengths: Lengths,
    [number, place, letter]: [u64; 3],
) -> Result<(), String> {
    let room = lengths.room();
    let mut lists = Lists::of(lengths.of_both(room, room));
    let (mut records, mut group_records) =
        (Lent::of_length(room.records), Lent::of_length(room.records));
    let told = lists.list_with_records(asked, tables, records.lend(), group_records.lend());
    lists.are_zero()?;
    records.used(0)?;
    group_records.used(0)?;
    let due = [number, place, letter, 0, 0];
    if told == due {
        Ok(())
    } else {
        Err(format!(
            "both listings with records, {asked:?}, told {told:?} where {due:?} is due"
        ))
    }
}
