//! Damaged sheets: one for every refusal that a sheet can reach, each with many
//! causes, and sheets with two faults, on which the order of the checks decides.
//!
//! Refusal 10 cannot be reached: the reader only makes whole rows, at most 96 or
//! 256 of them, and good names inside the byte table. Nor can the byte table of
//! refusal 5 be full: it is as long as the longest sheet. Nor is a place missing
//! in the tables, which is 6: in a sheet that is 4. Nor is anything wrong there
//! with the numbers of an array index, which is 6 as well: the reader makes them.

// Every damage of lines has the same signature, also one that adds no line.
#![allow(clippy::ptr_arg)]

use std::ops::Range;

use oracle::letters::{
    Column, Field, LETTERS, Meaning, ROW_LETTERS, blank, column_at, columns, component, connection,
    declared_feature, group_type, line_length, mode, rank, rename,
};
use oracle::listing::refusal_line;
use oracle::sheet::{KEYS, NAME_BYTES, NAME_ROWS, SHEET_BYTES, TABLE_ROWS, bound, bytes_of};
use oracle::{Options, conlist};

use crate::accepted::{attempted_of, reorder_components};
use crate::draft::{Draft, GROUP_CONNECTION, Holder, NO_REFERENCE, put_reference};
use crate::random::Random;

type Line = Vec<u8>;

/// At which level a damage is done. A sheet with two takes them in this order.
#[derive(Clone, Copy)]
enum Damage {
    Tables(fn(&mut Draft)),
    Lines(fn(&mut Random, &mut Vec<Line>)),
    Bytes(fn(&mut Random, &mut Vec<u8>)),
}

const DAMAGES: &[(&str, Damage)] = &[
    ("1 too long", Damage::Bytes(too_long)),
    ("2 letter unknown", Damage::Lines(letter_unknown)),
    ("2 empty line", Damage::Lines(empty_line)),
    (
        "2 last line without LF",
        Damage::Bytes(last_line_without_lf),
    ),
    ("3 letter out of order", Damage::Lines(letter_out_of_order)),
    (
        "3 mode before a rename",
        Damage::Lines(mode_before_a_rename),
    ),
    ("4 length of the line", Damage::Lines(length_of_the_line)),
    ("4 field is no number", Damage::Lines(field_is_no_number)),
    ("4 leading zero", Damage::Lines(leading_zero)),
    ("4 missing not allowed", Damage::Lines(missing_not_allowed)),
    ("4 place missing", Damage::Lines(place_missing)),
    (
        "4 no field for the place",
        Damage::Lines(no_field_for_the_place),
    ),
    (
        "4 index too large by one",
        Damage::Lines(index_too_large_by_one),
    ),
    ("4 index too large", Damage::Lines(index_too_large)),
    (
        "4 index with leading zeros",
        Damage::Lines(index_with_leading_zeros),
    ),
    (
        "4 index missing elsewhere",
        Damage::Lines(index_missing_elsewhere),
    ),
    ("4 index is no number", Damage::Lines(index_is_no_number)),
    ("4 index lost a digit", Damage::Lines(index_lost_a_digit)),
    (
        "4 index of six columns",
        Damage::Lines(index_of_six_columns),
    ),
    ("4 mode too short", Damage::Lines(mode_too_short)),
    ("4 N without its space", Damage::Lines(name_without_space)),
    ("4 name length", Damage::Lines(name_length)),
    ("4 name byte", Damage::Lines(name_byte)),
    ("5 N rows", Damage::Lines(too_many_names)),
    ("5 rows", Damage::Lines(too_many_rows)),
    ("5 modes", Damage::Lines(too_many_modes)),
    ("6 name number", Damage::Tables(name_past_its_table)),
    ("6 component row", Damage::Tables(component_past_its_table)),
    ("6 package row", Damage::Tables(package_past_its_table)),
    ("6 holder row", Damage::Tables(holder_past_its_table)),
    ("6 kind", Damage::Tables(kind_past_its_range)),
    ("6 flag", Damage::Tables(flag_past_its_range)),
    ("6 holder kind", Damage::Tables(holder_kind_past_its_range)),
    ("6 direction", Damage::Tables(direction_past_its_range)),
    ("6 what", Damage::Tables(what_past_its_range)),
    ("6 name of a mode", Damage::Tables(name_of_a_mode)),
    ("6 owner of a mode", Damage::Tables(owner_of_a_mode)),
    ("6 initial of a mode", Damage::Tables(initial_of_a_mode)),
    ("7 no component", Damage::Tables(no_component)),
    ("7 root has a parent", Damage::Tables(root_has_a_parent)),
    ("7 parent missing", Damage::Tables(parent_missing)),
    ("7 parent not smaller", Damage::Tables(parent_not_smaller)),
    (
        "7 behind equal places",
        Damage::Tables(parent_behind_equal_places),
    ),
    (
        "16 children of the root",
        Damage::Tables(equal_places_below_the_root),
    ),
    (
        "16 children further down",
        Damage::Tables(equal_places_further_down),
    ),
    (
        "16 several times",
        Damage::Tables(equal_places_several_times),
    ),
    (
        "16 one inside another",
        Damage::Tables(equal_places_inside_equal_places),
    ),
    ("8 end without feature", Damage::Tables(end_without_feature)),
    (
        "8 package without type",
        Damage::Tables(package_without_type),
    ),
    (
        "8 implementation without type",
        Damage::Tables(implementation_without_type),
    ),
    (
        "8 package rename with a name",
        Damage::Tables(package_rename_with_a_name),
    ),
    (
        "8 rename without a name",
        Damage::Tables(rename_without_a_name),
    ),
    ("9 packages", Damage::Tables(clashing_packages)),
    ("9 types", Damage::Tables(clashing_types)),
    (
        "9 implementations",
        Damage::Tables(clashing_implementations),
    ),
    ("9 group types", Damage::Tables(clashing_group_types)),
    ("9 renames", Damage::Tables(clashing_renames)),
];

/// Accepted sheets whose listing is refused: the refusal, and the profile.
const REFUSED_LISTINGS: &[(u32, &str)] = &[
    (11, "row limit"),
    (11, "group row limit"),
    (12, "diagnostic limit"),
    (12, "group diagnostic limit"),
    (13, "self nesting"),
    (13, "visit limit"),
    (14, "composed limit"),
    (15, "text limit"),
    (11, "several limits"),
    (13, "several limits"),
];

/// Sheets with two faults of which one is 16, which is not checked in the order
/// of the numbers: the refusal of the other.
const BESIDE_EQUAL_PLACES: &[u32] = &[6, 7, 8, 9];

/// How many turns of each round go to sheets with any two faults.
const TURNS_OF_TWO_FAULTS: usize = 7;

/// A sheet that earns a refusal, and what was done to it. The damages take
/// turns with the seed.
pub fn damaged(seed: u64) -> (Vec<u8>, String) {
    let round =
        DAMAGES.len() + REFUSED_LISTINGS.len() + BESIDE_EQUAL_PLACES.len() + TURNS_OF_TWO_FAULTS;
    let turn = (seed % round as u64) as usize;
    if let Some((label, damage)) = DAMAGES.get(turn) {
        return (with_damages(seed, &[*damage]), label.to_string());
    }
    let turn = turn - DAMAGES.len();
    if let Some((refusal, profile)) = REFUSED_LISTINGS.get(turn) {
        let sheet = refused_listing(seed, *refusal, profile);
        return (sheet, format!("{refusal} {profile}"));
    }
    let turn = turn - REFUSED_LISTINGS.len();
    let mut random = Random::new(!seed);
    let (one, other) = match BESIDE_EQUAL_PLACES.get(turn) {
        Some(&refusal) => (
            random.pick(&damages_for(16)),
            random.pick(&damages_for(refusal)),
        ),
        None => (random.pick(DAMAGES), random.pick(DAMAGES)),
    };
    let sheet = with_damages(seed, &[one.1, other.1]);
    (sheet, format!("{}, {}", one.0, other.0))
}

/// The damages that earn a refusal, which their labels begin with.
fn damages_for(refusal: u32) -> Vec<(&'static str, Damage)> {
    let mut damages = DAMAGES.to_vec();
    let number = refusal.to_string();
    damages.retain(|(label, _)| label.split(' ').next() == Some(&number));
    damages
}

fn with_damages(seed: u64, damages: &[Damage]) -> Vec<u8> {
    let mut draft = Draft::new(seed, false);
    every_letter(&mut draft);
    for damage in damages {
        if let Damage::Tables(damage) = damage {
            damage(&mut draft);
        }
    }
    let mut lines = draft.sheet.lines();
    let random = &mut draft.random;
    for damage in damages {
        if let Damage::Lines(damage) = damage {
            damage(random, &mut lines);
        }
    }
    let mut bytes = bytes_of(lines);
    for damage in damages {
        if let Damage::Bytes(damage) = damage {
            damage(random, &mut bytes);
        }
    }
    bytes
}

/// A sheet of this profile whose listing earns this refusal.
fn refused_listing(seed: u64, refusal: u32, profile: &str) -> Vec<u8> {
    let line = refusal_line(refusal);
    for attempt in 0..1000 {
        let sheet = attempted_of(seed, attempt, profile);
        if conlist(&sheet, Options::default()) == Ok(line.clone()) {
            return sheet;
        }
    }
    panic!("no sheet of the profile {profile} earns {refusal}");
}

/// A small accepted sheet with rows of every letter.
fn every_letter(draft: &mut Draft) {
    let pitch = draft.name("pitch");
    let library = draft.name("lib");
    let (drive, plug, socket) = (
        draft.name("drive"),
        draft.name("plug"),
        draft.name("socket"),
    );
    let (one, other) = (draft.name("i"), draft.name("j"));
    for name in [pitch, library] {
        draft.package(name);
    }
    for package in 0..2 {
        let imported = draft.random.pick(&[pitch, library]);
        draft.import(package, imported);
        let private = draft.random.chance(30);
        draft.component_type(package, drive, private);
        draft.implementation(package, drive, one, private);
        draft.implementation(package, drive, other, private);
        draft.group_type(package, plug, private);
    }
    draft.group_type(0, socket, false);
    draft.set_inverse_of(2, [library, plug, None]);
    draft.set_extends(0, [None, socket, None]);
    let (bus, position) = (draft.name("bus"), draft.name("pos"));
    draft.declared_feature(Holder::Type(0), bus, 8, [pitch, plug, None]);
    draft.declared_feature(Holder::GroupType(1), position, 0, NO_REFERENCE);
    draft.declared_feature(Holder::GroupType(0), bus, 8, [None, socket, one]);
    let alias = draft.name("alias");
    draft.package_rename(0, alias, library);
    draft.named_rename(0, 1, alias, [library, drive]);
    draft.named_rename(1, 2, alias, [pitch, plug]);
    let root = draft.root();
    let (axis, motor) = (draft.name("axis[1]"), draft.name("motor"));
    let first = draft.component(axis, Some(root), Some(1));
    for element in 2..=draft.random.range(2, 5) as u32 {
        let name = draft.name(&format!("axis[{element}]"));
        let other = draft.component(name, Some(root), Some(element));
        if draft.random.chance(50) {
            draft.component(motor, Some(other), None);
        }
    }
    for _ in 0..draft.random.range(2, 5) {
        draft.component(motor, Some(first), None);
    }
    for component in 0..draft.sheet.components.len() as u32 {
        draft.set_classifier(component, pitch, drive);
    }
    draft.set_pattern(0, "One_To_One");
    for _ in 0..draft.random.range(1, 3) {
        draft.feature(bus, first, 8);
    }
    draft.connection(root, GROUP_CONNECTION, [axis, bus, None, bus]);
    draft.connection(first, 0, [motor, position, motor, position]);
    draft.connection(root, 0, [None, position, None, None]);
    if draft.random.chance(50) {
        reorder_components(draft);
    }
    draft.place_components();
    draft.index_components();
    for _ in 0..draft.random.range(2, 4) {
        let name = draft.random.pick(&[one, other, position]);
        let owner = draft.random.below(draft.sheet.components.len());
        draft.mode(name, owner as u32);
    }
    for &letter in ROW_LETTERS {
        if draft.sheet.rows(letter).is_empty() {
            draft.sheet.push(letter, &blank(letter));
        }
    }
}

// Damages of the bytes.

fn too_long(random: &mut Random, bytes: &mut Vec<u8>) {
    let over = SHEET_BYTES + random.pick(&[1, 1, 2, 7, 400, 4000]);
    match random.below(4) {
        // Good lines only, as far as there are places for names.
        0 => {
            let mut names = Vec::new();
            while names.len() + bytes.len() < over {
                names.extend(b"N ");
                names.extend([b'y'; NAME_BYTES]);
                names.push(b'\n');
            }
            bytes.splice(0..0, names);
        }
        // A last line that never ends.
        1 => bytes.resize(over, b'9'),
        2 => bytes.resize(over, b'\n'),
        _ => *bytes = vec![random.pick(b"NZ \xff\n"); over],
    }
}

fn last_line_without_lf(random: &mut Random, bytes: &mut Vec<u8>) {
    match random.below(4) {
        0 => {
            bytes.pop();
        }
        1 => {
            let cut = random.range(1, bytes.len().min(60));
            bytes.truncate(bytes.len() - cut);
            if bytes.last() == Some(&b'\n') {
                bytes.push(b'R');
            }
        }
        2 => bytes.push(random.pick(&[LETTERS, b"Z \r\x00\xff"].concat())),
        _ => bytes.extend(random.pick(&[&b"N late"[..], b"R     0", b"C     x", b"\r"])),
    }
}

// Damages of the lines.

/// The place of a line with a row and its letter still whole, if there is one.
fn some_row_line(random: &mut Random, lines: &[Line]) -> Option<usize> {
    some_line(random, lines, |line| {
        let first = line.first().and_then(|&letter| columns(letter).first());
        first.is_some_and(|column| line.len() >= column.characters().end)
    })
}

/// The place of a line with this letter and something behind it, if there is one.
fn some_line_of(random: &mut Random, lines: &[Line], letter: u8) -> Option<usize> {
    some_line(random, lines, |line| line.len() > 1 && line[0] == letter)
}

/// The place of a line with a name still in it, if there is one.
fn some_name_line(random: &mut Random, lines: &[Line]) -> Option<usize> {
    some_line(random, lines, |line| line.len() > 2 && line[0] == b'N')
}

fn some_line(random: &mut Random, lines: &[Line], holds: impl Fn(&Line) -> bool) -> Option<usize> {
    let mut places = (0..lines.len()).collect::<Vec<usize>>();
    places.retain(|&place| holds(&lines[place]));
    (!places.is_empty()).then(|| random.pick(&places))
}

fn letter_unknown(random: &mut Random, lines: &mut Vec<Line>) {
    let place = random.below(lines.len());
    let mut unknown = b"nxcABDGHJKLMOSVWYZ09 -#@\x00\x09\x0d\x7f\x80\xff".to_vec();
    unknown.retain(|&letter| rank(letter).is_none());
    let letter = random.pick(&unknown);
    match random.chance(80) {
        true => match lines[place].first_mut() {
            Some(first) => *first = letter,
            None => lines[place].push(letter),
        },
        false => lines.insert(place, vec![letter]),
    }
}

fn empty_line(random: &mut Random, lines: &mut Vec<Line>) {
    let place = random.range(0, lines.len());
    lines.insert(place, Vec::new());
}

fn letter_out_of_order(random: &mut Random, lines: &mut Vec<Line>) {
    let order = |line: &Line| line.first().and_then(|&letter| rank(letter));
    let late = random.range(1, lines.len() - 1);
    let earlier: Vec<usize> = (0..late)
        .filter(|&place| order(&lines[place]) < order(&lines[late]))
        .collect();
    if earlier.is_empty() {
        let first = lines[0].clone();
        lines.push(first);
        return;
    }
    let mut line = lines[random.pick(&earlier)].clone();
    if random.chance(20) {
        line.pop();
    }
    lines.insert(late + 1, line);
}

/// Puts a mode before one of the renames, one that is there or one more.
fn mode_before_a_rename(random: &mut Random, lines: &mut Vec<Line>) {
    let (Some(mode), Some(rename)) = (
        some_line_of(random, lines, b'M'),
        some_line_of(random, lines, b'R'),
    ) else {
        return;
    };
    let line = match rename < mode && random.chance(50) {
        true => lines.remove(mode),
        false => lines[mode].clone(),
    };
    lines.insert(rename, line);
}

fn length_of_the_line(random: &mut Random, lines: &mut Vec<Line>) {
    let Some(place) = some_row_line(random, lines) else {
        return;
    };
    let line = &mut lines[place];
    let last = columns(line[0]).last().expect("a row's letter").width;
    match random.below(8) {
        0 => {
            line.pop();
        }
        1 => line.push(b' '),
        2 => line.push(b'\r'),
        3 => line.extend(format!("{:last$}", 0).bytes()),
        4 => line.truncate(line.len().saturating_sub(last)),
        5 => line.truncate(1),
        6 => line.insert(1, b' '),
        _ => {
            let fields = line[1..].to_vec();
            line.extend(fields);
        }
    }
}

/// Puts another field into a random column of a random row for which this holds. In a column that is wider than the field its first
/// character stands more often.
fn put_field(
    random: &mut Random,
    lines: &mut [Line],
    field: &[u8],
    allowed: impl Fn(&Column) -> bool,
) {
    let mut places = Vec::new();
    for (place, line) in lines.iter().enumerate() {
        let Some(&letter) = line.first() else {
            continue;
        };
        for column in columns(letter) {
            if allowed(column) && line.len() >= column.characters().end {
                places.push((place, column.characters()));
            }
        }
    }
    if !places.is_empty() {
        let (place, characters) = random.pick(&places);
        let mut wide = vec![field[0]; characters.len() - field.len()];
        wide.extend(field);
        lines[place][characters].copy_from_slice(&wide);
    }
}

fn field_is_no_number(random: &mut Random, lines: &mut Vec<Line>) {
    let field = random.pick(&[
        b"      ",
        b"1     ",
        b" 1    ",
        b"    1 ",
        b"   1 2",
        b"    +1",
        b"    -1",
        b"-     ",
        b"    - ",
        b"    --",
        b"    1-",
        b"   0x1",
        b"    1a",
        b"\t    1",
        b"    1\t",
        b"     .",
        b"   1e0",
        b"     O",
        b"     \x00",
        b"     \xb2",
        b"     \r",
        b"     /",
        b"     :",
    ]);
    put_field(random, lines, field, |_| true);
}

fn leading_zero(random: &mut Random, lines: &mut Vec<Line>) {
    let field = random.pick(&[
        b"    00", b"    01", b"   001", b"000000", b"000001", b"   010",
    ]);
    put_field(random, lines, field, |_| true);
}

fn missing_not_allowed(random: &mut Random, lines: &mut Vec<Line>) {
    put_field(random, lines, b"     -", |column| !column.may_miss);
}

/// The lines of components that are still as long as they have to be.
fn component_lines(lines: &[Line]) -> Vec<usize> {
    let whole = |line: &Line| line.first() == Some(&b'C') && line.len() == line_length(b'C');
    let all = 0..lines.len();
    all.filter(|&line| whole(&lines[line])).collect()
}

/// All of these lines, or one of them.
fn all_component_lines_or_one(random: &mut Random, lines: &[Line]) -> Vec<usize> {
    let components = component_lines(lines);
    match !components.is_empty() && random.chance(50) {
        true => vec![random.pick(&components)],
        false => components,
    }
}

/// Puts this into a column of some component, right-justified. Gives the place of its line.
fn put_into_component(
    random: &mut Random,
    lines: &mut [Line],
    column: usize,
    field: &[u8],
) -> Option<usize> {
    let components = component_lines(lines);
    if components.is_empty() {
        return None;
    }
    let characters = column_at(component::COLUMNS, column).characters();
    let mut wide = vec![b' '; characters.len() - field.len()];
    wide.extend(field);
    let line = random.pick(&components);
    lines[line][characters].copy_from_slice(&wide);
    Some(line)
}

fn place_missing(random: &mut Random, lines: &mut Vec<Line>) {
    put_into_component(random, lines, component::PLACE, b"-");
}

/// Cuts off the field of the place, of every component or of one.
fn no_field_for_the_place(random: &mut Random, lines: &mut Vec<Line>) {
    let column = column_at(component::COLUMNS, component::PLACE);
    for line in all_component_lines_or_one(random, lines) {
        lines[line].truncate(column.characters().start);
    }
}

/// The columns of an array index.
fn index_characters() -> Range<usize> {
    column_at(component::COLUMNS, component::ARRAY_INDEX).characters()
}

fn put_index(random: &mut Random, lines: &mut [Line], field: &[u8]) -> Option<usize> {
    put_into_component(random, lines, component::ARRAY_INDEX, field)
}

/// The smallest number that an array index has no bits for, and the largest of twenty digits.
const TOO_LARGE: u128 = 1 << 64;
const TWENTY_NINES: u128 = 10_u128.pow(20) - 1;

fn index_too_large_by_one(random: &mut Random, lines: &mut Vec<Line>) {
    put_index(random, lines, TOO_LARGE.to_string().as_bytes());
}

fn index_too_large(random: &mut Random, lines: &mut Vec<Line>) {
    let some = u128::from(random.bits());
    let index = match random.below(5) {
        0 => TOO_LARGE + some % 1000,
        // Nothing of it, or little, is left in 64 bits.
        1 => TOO_LARGE * (1 + some % 5) + random.below(9) as u128,
        // The digits of the largest index, but one that is larger, and any behind it.
        2 => {
            let unit = 10_u128.pow(random.below(20) as u32);
            (TOO_LARGE / unit + 1) * unit + some % unit
        }
        3 => TWENTY_NINES - random.pick(&[0, 0, some]),
        _ => TOO_LARGE + some,
    };
    put_index(random, lines, index.to_string().as_bytes());
}

fn index_with_leading_zeros(random: &mut Random, lines: &mut Vec<Line>) {
    let index = random.bits() >> random.range(1, 63);
    let digits = index.to_string().len();
    let width = random.range(digits + 1, index_characters().len());
    put_index(random, lines, format!("{index:0width$}").as_bytes());
}

/// `-` with blanks behind it.
fn index_missing_elsewhere(random: &mut Random, lines: &mut Vec<Line>) {
    let width = random.range(2, index_characters().len());
    put_index(random, lines, format!("{:width$}", "-").as_bytes());
}

fn index_is_no_number(random: &mut Random, lines: &mut Vec<Line>) {
    let field: &[u8] = random.pick(&[
        &b""[..],
        b"1 ",
        b"1                   ",
        b"4294967296          ",
        b"1844674407370955161 ",
        b"1 2",
        b"4 294967296",
        b"1 844674407370955161",
        b"+1",
        b"-1",
        b"--",
        b"1-",
        b"- 1",
        b"-4294967296",
        b"+9223372036854775807",
        b"-9223372036854775808",
        b"4,294,967,296",
        b"4_294_967_296",
        b"4294967296.",
        b"1e19",
        b"0x1",
        b"0xFFFFFFFFFFFFFFFF",
        b"4294967296a",
        b"1844674407370955161O",
        b"1844674407370955161/",
        b"1844674407370955161:",
        b"\t4294967296",
        b"4294967296\t",
        b"4294967296\r",
        b"\x004294967296",
        b"4294967296\xff",
    ]);
    put_index(random, lines, field);
}

/// Drops a digit of an index: a blank stands for it, or the line is shorter.
fn index_lost_a_digit(random: &mut Random, lines: &mut Vec<Line>) {
    let index = 100 + (random.bits() >> random.range(1, 63));
    let mut digits = index.to_string().into_bytes();
    let dropped = random.range(1, digits.len() - 2);
    let blank = random.chance(50);
    if blank {
        digits[dropped] = b' ';
    }
    let line = put_index(random, lines, &digits);
    if let Some(line) = line
        && !blank
    {
        lines[line].remove(index_characters().end - dropped);
    }
}

/// Cuts an index off to six columns, of every component or of one.
fn index_of_six_columns(random: &mut Random, lines: &mut Vec<Line>) {
    let Range { start, end } = index_characters();
    for line in all_component_lines_or_one(random, lines) {
        lines[line].drain(start..end - 6);
    }
}

/// Cuts off the last field of a mode or more, or some of its characters.
fn mode_too_short(random: &mut Random, lines: &mut Vec<Line>) {
    let Some(place) = some_line_of(random, lines, b'M') else {
        return;
    };
    let starts = mode::COLUMNS.iter().map(|column| column.characters().start);
    let starts: Vec<usize> = starts.collect();
    let line = &mut lines[place];
    let length = match random.chance(60) {
        true => random.pick(&starts),
        false => random.range(1, line_length(b'M') - 1),
    };
    line.truncate(length);
}

fn name_without_space(random: &mut Random, lines: &mut Vec<Line>) {
    let Some(place) = some_name_line(random, lines) else {
        return;
    };
    let line = &mut lines[place];
    match random.below(4) {
        0 => {
            line.remove(1);
        }
        1 => line[1] = b'\t',
        2 => line[1] = random.pick(b"-_N\x00\xff\r"),
        _ => line.truncate(1),
    }
}

fn name_length(random: &mut Random, lines: &mut Vec<Line>) {
    let Some(place) = some_name_line(random, lines) else {
        return;
    };
    let length = random.pick(&[0, 0, NAME_BYTES + 1, NAME_BYTES + 1, 65, 100, 300]);
    lines[place].truncate(2);
    lines[place].resize(2 + length, b'y');
}

fn name_byte(random: &mut Random, lines: &mut Vec<Line>) {
    let Some(place) = some_name_line(random, lines) else {
        return;
    };
    let byte = random.pick(b"\x00\x01\x07\x08\x0a\x0b\x0c\x0d\x0e\x1f\x7f\x80\xa0\xff");
    let line = &mut lines[place];
    match random.chance(50) {
        true => {
            let at = random.range(2, line.len());
            line.insert(at, byte);
        }
        false => {
            let at = random.range(2, line.len() - 1);
            line[at] = byte;
        }
    }
}

fn too_many_names(random: &mut Random, lines: &mut Vec<Line>) {
    let names = lines.iter().filter(|line| line.first() == Some(&b'N'));
    let wanted = NAME_ROWS + random.pick(&[1, 1, 2, 40]);
    let added = wanted.saturating_sub(names.count());
    let name = random.pick(&[&b"N y"[..], b"N yyy", b"N  "]);
    lines.splice(0..0, vec![name.to_vec(); added]);
}

fn too_many_rows(random: &mut Random, lines: &mut Vec<Line>) {
    if let Some(place) = some_row_line(random, lines) {
        too_many_like(random, lines, place);
    }
}

fn too_many_modes(random: &mut Random, lines: &mut Vec<Line>) {
    if let Some(place) = some_line_of(random, lines, b'M') {
        too_many_like(random, lines, place);
    }
}

/// Puts so many lines like this one in front of it that its letter has too many.
fn too_many_like(random: &mut Random, lines: &mut Vec<Line>, place: usize) {
    let row = lines[place].clone();
    let rows = lines.iter().filter(|line| line.first() == row.first());
    let wanted = TABLE_ROWS + random.pick(&[1, 1, 2, 9]);
    let added = wanted.saturating_sub(rows.count());
    lines.splice(place..place, vec![row; added]);
    // Past the table a bad row is found bad before it is found one too many.
    if random.chance(15) {
        let last = place + added;
        lines[last].push(b' ');
    }
}

// Damages of the tables.

/// Puts a number past its bound into a random field with such a meaning, in a row of one of these letters.
fn past(draft: &mut Draft, letters: &[u8], wanted: impl Fn(Meaning) -> bool) {
    let mut places = Vec::new();
    for &letter in letters {
        for (row, fields) in draft.sheet.rows(letter).iter().enumerate() {
            for column in columns(letter) {
                if wanted(column.meaning)
                    && let Some(bound) = bound(&draft.sheet, column.meaning, fields)
                {
                    places.push((letter, row, column, bound));
                }
            }
        }
    }
    if places.is_empty() {
        return;
    }
    let (letter, row, column, bound) = draft.random.pick(&places);
    let number = match draft.random.below(5) {
        0..=2 => bound,
        3 => bound + draft.random.range(1, 3),
        _ => 999_999,
    };
    column.put(draft.sheet.row_mut(letter, row), Some(number as u64));
}

fn name_past_its_table(draft: &mut Draft) {
    past(draft, ROW_LETTERS, |meaning| meaning == Meaning::Name);
}

fn component_past_its_table(draft: &mut Draft) {
    past(draft, ROW_LETTERS, |meaning| meaning == Meaning::Row(b'C'));
}

fn package_past_its_table(draft: &mut Draft) {
    past(draft, ROW_LETTERS, |meaning| meaning == Meaning::Row(b'P'));
}

fn holder_past_its_table(draft: &mut Draft) {
    past(draft, ROW_LETTERS, |meaning| meaning == Meaning::Holder);
}

/// The same for what the table of letters calls a kind, a flag and so on.
fn past_its_range(draft: &mut Draft, word: &str) {
    past(
        draft,
        ROW_LETTERS,
        |meaning| matches!(meaning, Meaning::Below(called, _) if called == word),
    );
}

fn kind_past_its_range(draft: &mut Draft) {
    past_its_range(draft, "kind");
}

fn flag_past_its_range(draft: &mut Draft) {
    past_its_range(draft, "flag");
}

fn holder_kind_past_its_range(draft: &mut Draft) {
    past_its_range(draft, "holder kind");
}

fn direction_past_its_range(draft: &mut Draft) {
    past_its_range(draft, "direction");
}

fn what_past_its_range(draft: &mut Draft) {
    past_its_range(draft, "what");
}

fn name_of_a_mode(draft: &mut Draft) {
    past(draft, b"M", |meaning| meaning == Meaning::Name);
}

fn owner_of_a_mode(draft: &mut Draft) {
    past(draft, b"M", |meaning| meaning == Meaning::Row(b'C'));
}

fn initial_of_a_mode(draft: &mut Draft) {
    past(draft, b"M", |meaning| {
        matches!(meaning, Meaning::Below("flag", _))
    });
}

fn no_component(draft: &mut Draft) {
    draft.sheet.clear(b'C');
    // Otherwise features, connections and the like have owners past the table.
    if draft.random.chance(80) {
        for &letter in ROW_LETTERS {
            let mut columns = columns(letter).iter();
            if columns.any(|column| column.meaning == Meaning::Row(b'C')) {
                draft.sheet.clear(letter);
            }
        }
    }
    if draft.random.chance(20) {
        let names = draft.sheet.names.clone();
        draft.sheet = Default::default();
        draft.sheet.names = names;
    }
}

fn component_rows(draft: &Draft) -> u32 {
    draft.sheet.components.len() as u32
}

fn root_has_a_parent(draft: &mut Draft) {
    if component_rows(draft) > 0 {
        let parent = draft.random.below(component_rows(draft) as usize);
        draft.sheet.components[0][component::PARENT] = Some(parent as u32);
    }
}

/// A component row other than the root's, if there is one.
fn some_child(draft: &mut Draft) -> Option<u32> {
    let rows: Vec<u32> = (1..component_rows(draft)).collect();
    (!rows.is_empty()).then(|| draft.random.pick(&rows))
}

fn parent_missing(draft: &mut Draft) {
    if let Some(child) = some_child(draft) {
        draft.sheet.components[child as usize][component::PARENT] = None;
    }
}

fn parent_not_smaller(draft: &mut Draft) {
    if let Some(child) = some_child(draft) {
        let rows: Vec<u32> = (child..component_rows(draft)).collect();
        let parent = draft.random.pick(&rows);
        draft.sheet.components[child as usize][component::PARENT] = Some(parent);
    }
}

/// The pairs of children of one component that have a component behind them, each with the smaller row first.
fn pairs_with_a_row_behind(draft: &Draft) -> Vec<[u32; 2]> {
    let last = component_rows(draft).saturating_sub(1);
    let parent = |row: u32| draft.sheet.components[row as usize][component::PARENT];
    let mut pairs = Vec::new();
    for later in 1..last {
        for earlier in 1..later {
            if parent(earlier).is_some() && parent(earlier) == parent(later) {
                pairs.push([earlier, later]);
            }
        }
    }
    pairs
}

/// A parent that is missing or not smaller, in a row behind two children with the same place.
fn parent_behind_equal_places(draft: &mut Draft) {
    let pairs = pairs_with_a_row_behind(draft);
    if pairs.is_empty() {
        return;
    }
    let [earlier, later] = draft.random.pick(&pairs);
    draft.set_place(later, draft.place(earlier));
    let rows: Vec<u32> = (later + 1..component_rows(draft)).collect();
    let child = draft.random.pick(&rows);
    let parent = draft.random.pick(&[None, Some(child)]);
    draft.sheet.components[child as usize][component::PARENT] = parent;
}

/// A component with two children or more for which this holds, if there is one.
fn some_owner(draft: &mut Draft, holds: impl Fn(u32) -> bool) -> Option<u32> {
    let mut owners: Vec<u32> = (0..component_rows(draft)).collect();
    owners.retain(|&owner| holds(owner) && draft.sheet.children(owner).len() > 1);
    (!owners.is_empty()).then(|| draft.random.pick(&owners))
}

/// Gives a child of such a component the place of another.
fn equal_places(draft: &mut Draft, holds: impl Fn(u32) -> bool) {
    if let Some(owner) = some_owner(draft, holds) {
        let mut children = draft.sheet.children(owner);
        draft.random.shuffle(&mut children);
        draft.set_place(children[0], draft.place(children[1]));
    }
}

fn equal_places_below_the_root(draft: &mut Draft) {
    equal_places(draft, |owner| owner == 0);
}

fn equal_places_further_down(draft: &mut Draft) {
    equal_places(draft, |owner| owner > 0);
}

fn equal_places_several_times(draft: &mut Draft) {
    for _ in 0..draft.random.range(2, 4) {
        equal_places(draft, |_| true);
    }
}

/// Of four children the first and the last have the same place, and so do the two between them.
fn equal_places_inside_equal_places(draft: &mut Draft) {
    let Some(owner) = some_owner(draft, |_| true) else {
        return;
    };
    let children = draft.sheet.children(owner);
    for _ in children.len()..4 {
        draft.namesake(children[0]);
    }
    draft.place_children(owner, false);
    let mut children = draft.sheet.children(owner);
    while children.len() > 4 {
        let left_out = draft.random.below(children.len());
        children.remove(left_out);
    }
    children.sort_unstable();
    let [first, second, third, last] = children[..] else {
        return;
    };
    draft.set_place(last, draft.place(first));
    draft.set_place(third, draft.place(second));
}

/// Changes a random row of a letter, if the letter has rows.
fn change_row(draft: &mut Draft, letter: u8, change: impl Fn(&mut Random, &mut [Field])) {
    let rows = draft.sheet.rows(letter).len();
    if rows > 0 {
        let row = draft.random.below(rows);
        change(&mut draft.random, draft.sheet.row_mut(letter, row));
    }
}

fn end_without_feature(draft: &mut Draft) {
    change_row(draft, b'X', |random, fields| {
        let (subcomponent, feature) = random.pick(&[
            (connection::SOURCE, connection::SOURCE_FEATURE),
            (connection::DESTINATION, connection::DESTINATION_FEATURE),
        ]);
        fields[subcomponent] = Some(0);
        fields[feature] = None;
    });
}

/// Takes the type out of a reference of a U or E row.
fn reference_without_type(draft: &mut Draft, package: Field, implementation: Field) {
    let of_group_types = [group_type::EXTENDS_PACKAGE, group_type::INVERSE_PACKAGE];
    let of_features = [declared_feature::CLASSIFIER_PACKAGE; 2];
    let (letter, places) = draft
        .random
        .pick(&[(b'U', of_group_types), (b'E', of_features)]);
    change_row(draft, letter, |random, fields| {
        let place = random.pick(&places);
        put_reference(fields, place, [package, None, implementation]);
    });
}

fn package_without_type(draft: &mut Draft) {
    let implementation = draft.random.pick(&[None, None, Some(1)]);
    reference_without_type(draft, Some(0), implementation);
}

fn implementation_without_type(draft: &mut Draft) {
    reference_without_type(draft, None, Some(1));
}

fn package_rename_with_a_name(draft: &mut Draft) {
    change_row(draft, b'R', |_, fields| {
        fields[rename::WHAT] = Some(0);
        fields[rename::ORIGINAL_NAME] = Some(0);
    });
}

fn rename_without_a_name(draft: &mut Draft) {
    change_row(draft, b'R', |random, fields| {
        fields[rename::WHAT] = Some(random.pick(&[1, 2]));
        fields[rename::ORIGINAL_NAME] = None;
    });
}

/// Adds a row with the key of another in another spelling, somewhere below it.
fn clash(draft: &mut Draft, letter: u8) {
    let key = KEYS.iter().find(|key| key.letter == letter);
    let names = key.expect("a letter with keys").names;
    let rows = draft.sheet.rows(letter);
    if rows.is_empty() {
        return;
    }
    let mut rows: Vec<Vec<Field>> = rows.into_iter().map(<[Field]>::to_vec).collect();
    for _ in 0..draft.random.pick(&[1, 1, 1, 2]) {
        let original = draft.random.below(rows.len());
        let mut clashing = rows[original].clone();
        for &name in names {
            // A number that another damage has put past the names stays as it is.
            let known = draft.sheet.names.len() as u32;
            if clashing[name].is_some_and(|number| number < known) {
                let text = draft.text(clashing[name]);
                clashing[name] = draft.spelled(&text, 70);
            }
        }
        let place = draft.random.range(original + 1, rows.len());
        rows.insert(place, clashing);
    }
    let first = draft.sheet.rows(letter).len();
    for row in &rows[first..] {
        draft.sheet.push(letter, row);
    }
    for (row, fields) in rows.iter().enumerate() {
        draft.sheet.row_mut(letter, row).copy_from_slice(fields);
    }
}

fn clashing_packages(draft: &mut Draft) {
    clash(draft, b'P');
}

fn clashing_types(draft: &mut Draft) {
    clash(draft, b'T');
}

fn clashing_implementations(draft: &mut Draft) {
    clash(draft, b'Q');
}

fn clashing_group_types(draft: &mut Draft) {
    clash(draft, b'U');
}

fn clashing_renames(draft: &mut Draft) {
    clash(draft, b'R');
}
