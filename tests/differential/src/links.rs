//! The link table, an output of every call that looks for children. Each call fills it with the links that are known: in an output
//! that is exactly full, one number too long, and far too long, with zeros behind. One of fewer whole rows than components is refused
//! as 22, behind all refusals of tables and before those of the lists. After any refusal, a later one too, it holds zeros. What else a
//! call gives is the same in all these outputs.

use oracle::letters::{component, connection};
use oracle::listing::REFUSALS_OF_TABLES;
use oracle::sheet::Sheet;
use oracle::stream::Case;
use oracle::traced::STEPS;

use crate::lent::Lent;
use crate::library::{self, Entry, Outputs};
use crate::tables::{MISSING, Tables};
use crate::{DIAGNOSTIC_NUMBERS, ROW_NUMBERS, listed};

/// The numbers of a row: the first child, the next sibling.
const LINKS_NUMBERS: usize = 2;

/// The columns of a number in the text of a case.
const COLUMNS: usize = 6;

/// The calls that look for children.
#[derive(Clone, Copy, Debug, PartialEq, Eq)]
enum Call {
    Traced,
    Group,
    Both(Entry),
}

const CALLS: [Call; 4] = [
    Call::Traced,
    Call::Group,
    Call::Both(Entry::Ported),
    Call::Both(Entry::IgnoringCase),
];

/// So many rows of each listing are lent where it is not known how many there are: as conlist lends them, and then more.
const ROOMS: [usize; 2] = [64, 2048];

/// The refusals behind the links: 11, 12, 13, 14.
const LATER: std::ops::RangeInclusive<u64> = 11..=14;

/// How often what was met, over all models.
#[derive(Default)]
pub struct Met {
    pub models: usize,
    pub components: usize,
    pub calls: usize,
    /// Calls that filled the table.
    pub filled: usize,
    pub refused_22: usize,
    /// Calls that were refused 11, 12, 13, 14.
    pub refused: [usize; 4],
    /// Calls on tables that are not accepted, by their refusal.
    pub unaccepted: [usize; REFUSALS_OF_TABLES.len()],
}

impl Met {
    pub fn print(&self) {
        println!(
            "links: {} components in {} models; {} calls, {} filled the table, {} refused 22, refused 11, 12, 13, 14: {:?}, refused {REFUSALS_OF_TABLES:?}: {:?}",
            self.components,
            self.models,
            self.calls,
            self.filled,
            self.refused_22,
            self.refused,
            self.unaccepted,
        );
    }

    /// All that there is to meet was met.
    pub fn is_whole(&self) -> bool {
        let met = [self.models, self.components, self.filled, self.refused_22];
        let refused = self.refused.iter().chain(&self.unaccepted);
        met.iter().chain(refused).all(|&number| number > 0)
    }
}

/// Holds every call on an accepted sheet to its link table, also with the largest places and with other array indices, neither of which
/// changes a link.
pub fn compare(case: &Case, met: &mut Met) -> Result<(), String> {
    let sheet = Sheet::accepted(&case.sheet).ok_or("not accepted")?;
    let (tables, links) = (Tables::of(&sheet), numbers(&case.text)?);
    let components = sheet.components.len();
    if links.len() != components * LINKS_NUMBERS {
        return Err(format!("a table for {components} components expected"));
    }
    met.models += 1;
    met.components += components;
    for call in CALLS {
        let found = every_length(&tables, call, &links, met)
            .and_then(|()| unaccepted(&sheet, &tables, call, met));
        found.map_err(|what| format!("{call:?}: {what}"))?;
        let others = [
            Some(tables.with_large_places()),
            tables.with_other_indices(),
        ];
        for other in others.iter().flatten() {
            given(other, call, &links, met).map_err(|what| format!("{call:?}, other: {what}"))?;
        }
    }
    Ok(())
}

/// The numbers of a link table in the text of a case.
fn numbers(text: &[u8]) -> Result<Vec<u32>, String> {
    let text = std::str::from_utf8(text).map_err(|_| "a link table of digits expected")?;
    let mut numbers = Vec::new();
    for line in text.lines() {
        if line.len() != LINKS_NUMBERS * COLUMNS {
            return Err("a line of two numbers expected".to_string());
        }
        let (first_child, next_sibling) = line.split_at(COLUMNS);
        for column in [first_child, next_sibling] {
            numbers.push(match column.trim_start() {
                "-" => MISSING,
                digits => digits.parse().map_err(|_| "a number expected")?,
            });
        }
    }
    Ok(numbers)
}

/// The lengths of the outputs of a listing.
#[derive(Clone, Copy)]
struct Lengths {
    rows: usize,
    names: usize,
    diagnostics: usize,
}

/// The outputs of a listing.
struct Lists {
    rows: Lent<u32>,
    names: Lent<u8>,
    diagnostics: Lent<u32>,
}

impl Lists {
    fn of(lengths: Lengths) -> Lists {
        Lists {
            rows: Lent::of_length(lengths.rows),
            names: Lent::of_length(lengths.names),
            diagnostics: Lent::of_length(lengths.diagnostics),
        }
    }

    fn zeros(&self) -> Result<(), String> {
        self.rows.used(0)?;
        self.names.used(0)?;
        self.diagnostics.used(0).map(|_| ())
    }

    fn same(&self, other: &Lists) -> Result<bool, String> {
        Ok(self.rows.contents()? == other.rows.contents()?
            && self.names.contents()? == other.names.contents()?
            && self.diagnostics.contents()? == other.diagnostics.contents()?)
    }
}

/// The lengths of the outputs of the traced and of the group listing.
type Room = [Lengths; 2];

const NO_ROOM: Lengths = Lengths {
    rows: 0,
    names: 0,
    diagnostics: 0,
};

fn room_of(rows: usize) -> Room {
    let lengths = Lengths {
        rows: rows * ROW_NUMBERS,
        names: rows * 64,
        diagnostics: rows * DIAGNOSTIC_NUMBERS,
    };
    [lengths; 2]
}

/// What a call told, with zeros behind the numbers of one listing, and the outputs afterwards.
struct Called {
    told: [u64; 5],
    links: Lent<u32>,
    traced: Lists,
    group: Lists,
}

fn run(
    tables: &Tables,
    call: Call,
    links: usize,
    [traced, group]: Room,
    met: &mut Met,
) -> Result<Called, String> {
    met.calls += 1;
    let before = tables.clone();
    let mut links = Lent::of_length(links);
    // the traced listing composes no names; a call of one listing has no outputs for the other
    let traced = Lengths { names: 0, ..traced };
    let mut traced = Lists::of(if call == Call::Group { NO_ROOM } else { traced });
    let mut group = Lists::of(if call == Call::Traced { NO_ROOM } else { group });
    let one = |[number, one, other]: [u64; 3]| [number, one, other, 0, 0];
    let told = match call {
        Call::Traced => one(library::compute_semantic_connections(
            tables,
            STEPS,
            links.lend(),
            traced.rows.lend(),
            traced.diagnostics.lend(),
        )),
        Call::Group => one(library::expand_feature_group_connections(
            tables,
            links.lend(),
            group.rows.lend(),
            group.names.lend(),
            group.diagnostics.lend(),
        )),
        Call::Both(entry) => library::list_connections(
            entry,
            tables,
            STEPS,
            links.lend(),
            Outputs {
                rows: traced.rows.lend(),
                diagnostics: traced.diagnostics.lend(),
                group_rows: group.rows.lend(),
                names: group.names.lend(),
                group_diagnostics: group.diagnostics.lend(),
            },
        ),
    };
    if *tables != before {
        return Err("it changed an input".to_string());
    }
    Ok(Called {
        told,
        links,
        traced,
        group,
    })
}

/// The call gave its lists, and its table holds these links and zeros behind.
fn filled(called: &Called, links: &[u32], met: &mut Met) -> Result<(), String> {
    met.filled += 1;
    if called.told[0] != 0 {
        return Err(format!("lists expected, it told {:?}", called.told));
    }
    let left = called.links.used(links.len())?;
    if left == links {
        Ok(())
    } else {
        Err(format!("the links are {left:?}, expected {links:?}"))
    }
}

/// The call gave this refusal, and left zeros in every output.
fn refused(
    called: &Called,
    [number, place, letter]: [u64; 3],
    met: &mut Met,
) -> Result<(), String> {
    let due = [number, place, letter, 0, 0];
    if called.told != due {
        return Err(format!("{due:?} expected, it told {:?}", called.told));
    }
    if let Some(place) = REFUSALS_OF_TABLES.iter().position(|&own| own == number) {
        met.unaccepted[place] += 1;
    } else if LATER.contains(&number) {
        met.refused[(number - LATER.start()) as usize] += 1;
    } else {
        met.refused_22 += 1;
    }
    called.links.used(0)?;
    called.traced.zeros()?;
    called.group.zeros()
}

/// A refusal without a place.
fn of_the_call(number: u64) -> [u64; 3] {
    [number, 0, b'-'.into()]
}

/// The call into a table that is exactly full, and lists of so many rows as conlist lends, or of more: the lengths that the lists
/// would have needed. None, if they are too long: their refusal leaves zeros.
fn given(
    tables: &Tables,
    call: Call,
    links: &[u32],
    met: &mut Met,
) -> Result<Option<Room>, String> {
    for rows in ROOMS {
        let called = run(tables, call, links.len(), room_of(rows), met)?;
        if !LATER.contains(&called.told[0]) {
            filled(&called, links, met)?;
            return exact(call, &called).map(Some);
        }
        refused(&called, of_the_call(called.told[0]), met)?;
    }
    Ok(None)
}

/// The lengths of what a call has written.
fn exact(call: Call, called: &Called) -> Result<Room, String> {
    let [_, one, other, third, fourth] = called.told.map(|number| number as usize);
    let ([rows, diagnostics], [group_rows, group_diagnostics]) = match call {
        Call::Traced => ([one, other], [0, 0]),
        Call::Group => ([0, 0], [one, other]),
        Call::Both(_) => ([one, other], [third, fourth]),
    };
    let mut names = 0;
    for row in called
        .group
        .rows
        .used(group_rows * ROW_NUMBERS)?
        .chunks(ROW_NUMBERS)
    {
        names += listed::name_numbers(row)
            .map(|length| length as usize)
            .iter()
            .sum::<usize>();
    }
    Ok([
        Lengths {
            rows: rows * ROW_NUMBERS,
            names: 0,
            diagnostics: diagnostics * DIAGNOSTIC_NUMBERS,
        },
        Lengths {
            rows: group_rows * ROW_NUMBERS,
            names,
            diagnostics: group_diagnostics * DIAGNOSTIC_NUMBERS,
        },
    ])
}

/// The call with tables of every telling length, and with lists that are too short.
fn every_length(tables: &Tables, call: Call, links: &[u32], met: &mut Met) -> Result<(), String> {
    let full = links.len();
    let due = given(tables, call, links, met)?;
    // 22 stands before 11 to 14: where the lists have no room at all as well
    for length in [full - 1, full - LINKS_NUMBERS, 0] {
        for room in [room_of(ROOMS[0]), [NO_ROOM; 2]] {
            let called = run(tables, call, length, room, met)?;
            refused(&called, of_the_call(22), met)?;
        }
    }
    let Some(room) = due else {
        return Ok(());
    };
    let due = run(tables, call, full, room, met)?;
    filled(&due, links, met)?;
    for length in [full + 1, full + LINKS_NUMBERS, 2 * full + 1001] {
        let called = run(tables, call, length, room, met)?;
        filled(&called, links, met)?;
        if called.told != due.told
            || !called.traced.same(&due.traced)?
            || !called.group.same(&due.group)?
        {
            return Err(format!("other lists with {length} numbers for links"));
        }
    }
    for (room, number) in too_short(room) {
        for length in [full, full + 1, 2 * full + 1001] {
            let called = run(tables, call, length, room, met)?;
            refused(&called, of_the_call(number), met)?;
        }
        let called = run(tables, call, full - 1, room, met)?;
        refused(&called, of_the_call(22), met)?;
    }
    Ok(())
}

/// One output of these lengths a number too short, and what is told then.
fn too_short(room: Room) -> Vec<(Room, u64)> {
    let mut found = Vec::new();
    for listing in 0..room.len() {
        let outputs: [(fn(&mut Lengths) -> &mut usize, u64); 3] = [
            (|lengths| &mut lengths.rows, 11),
            (|lengths| &mut lengths.names, 14),
            (|lengths| &mut lengths.diagnostics, 12),
        ];
        for (output, number) in outputs {
            let mut shorter = room;
            let length = output(&mut shorter[listing]);
            if *length > 0 {
                *length -= 1;
                found.push((shorter, number));
            }
        }
    }
    found
}

/// Tables that are spoilt: their refusal stands before 22, and leaves zeros in tables of links of every length.
fn unaccepted(sheet: &Sheet, tables: &Tables, call: Call, met: &mut Met) -> Result<(), String> {
    let spoilt = |change: &dyn Fn(&mut Tables)| {
        let mut spoilt = tables.clone();
        change(&mut spoilt);
        spoilt
    };
    let last = sheet.components.len() - 1;
    let full = sheet.components.len() * LINKS_NUMBERS;
    let (connections, packages) = (sheet.connections.len(), sheet.packages.len());
    let mut wrong = vec![
        (spoilt(&|own| own.table(b'C').push(0)), [10, 0, b'C'.into()]),
        (
            spoilt(&|own| own.components()[last][component::PLACE] = MISSING),
            [6, last as u64, b'C'.into()],
        ),
        (
            spoilt(&|own| own.components()[0][component::PARENT] = 0),
            [7, 0, b'C'.into()],
        ),
        (
            spoilt(&|own| {
                let mut row = [0; connection::NUMBERS];
                row[connection::SOURCE_FEATURE] = MISSING;
                row[connection::DESTINATION] = MISSING;
                row[connection::DESTINATION_FEATURE] = MISSING;
                own.table(b'X').extend(row);
            }),
            [8, connections as u64, b'X'.into()],
        ),
        (
            // the first package once more, or one and the same twice
            spoilt(&|own| {
                let first = own.table(b'P').first().copied();
                own.table(b'P')
                    .extend(first.map_or(vec![0, 0], |name| vec![name]));
            }),
            [9, packages.max(1) as u64, b'P'.into()],
        ),
    ];
    if last > 0 {
        // the last child once more
        let twin = spoilt(&|own| {
            let row = own.components()[last].to_vec();
            own.table(b'C').extend(row);
        });
        wrong.push((twin, [16, last as u64 + 1, b'C'.into()]));
    }
    for (tables, refusal) in &wrong {
        for length in [0, full - 1, full + 2 * LINKS_NUMBERS] {
            let called = run(tables, call, length, room_of(ROOMS[0]), met)?;
            refused(&called, *refusal, met)?;
        }
    }
    Ok(())
}

/// How many components large models have, and the parent and the place of each but the root.
const LARGE: &[(u32, fn(u32) -> (u32, u32))] = &[
    // as many as there may be, the children of one by falling places
    (4096, |row| (0, MISSING - 1 - row)),
    // seven children of each, their places in no order: the factor is odd, so no two rows have the same
    (1000, |row| (row / 7, row.wrapping_mul(2_654_435_769))),
    // each in the one before
    (1000, |row| (row - 1, 5)),
];

/// Models that are larger than a sheet, against a scan by place.
pub fn compare_large(met: &mut Met) -> Result<(), String> {
    for &(components, form) in LARGE {
        let mut sheet = Sheet {
            names: vec!["a".to_string()],
            ..Sheet::default()
        };
        sheet.components.push(component::row([]));
        for row in 1..components {
            let (parent, place) = form(row);
            sheet.components.push(component::row([
                (component::PARENT, Some(parent)),
                (component::PLACE, Some(place)),
            ]));
        }
        let (tables, links) = (Tables::of(&sheet), scan(&sheet));
        met.models += 1;
        met.components += sheet.components.len();
        for call in CALLS {
            let found = given(&tables, call, &links, met).and_then(|_| {
                let called = run(&tables, call, links.len() - 1, [NO_ROOM; 2], met)?;
                refused(&called, of_the_call(22), met)
            });
            found.map_err(|what| format!("{call:?} of {components} components: {what}"))?;
        }
    }
    Ok(())
}

/// The links by a scan of each component's children in the order of their places.
fn scan(sheet: &Sheet) -> Vec<u32> {
    let mut links = vec![MISSING; sheet.components.len() * LINKS_NUMBERS];
    for owner in 0..sheet.components.len() {
        let mut at = owner * LINKS_NUMBERS;
        for child in sheet.children(owner as u32) {
            links[at] = child;
            at = child as usize * LINKS_NUMBERS + 1;
        }
    }
    links
}
