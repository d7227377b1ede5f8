//! Children come in the order of their places, and siblings have places of their own.

use oracle::letters::{Sheet, component, connection};
use oracle::model::Renames;
use oracle::sheet::bytes_of;
use oracle::{NoAnswer, Options, conlist, places};

const AXIS: u32 = 5;
const DRIVE: u32 = 6;
const PATTERN: u32 = 7;

/// A cabinet, row 0, with the axes in rows 1 and 2 and the drives in rows 3 and
/// 4, which a connection joins; the places of the five.
fn cabinet(pattern: &str, places: [u32; 5]) -> Sheet {
    let names = [
        "cabinet", "axis[1]", "axis[2]", "drive[1]", "drive[2]", "axis", "drive", pattern,
    ];
    let mut sheet = Sheet {
        names: names.map(str::to_string).to_vec(),
        ..Sheet::default()
    };
    for (row, place) in (0..).zip(places) {
        let root = (row > 0).then_some(0);
        sheet.components.push(component::row([
            (component::NAME, Some(row)),
            (component::PARENT, root),
            (component::ARRAY_INDEX, root),
            (component::PATTERN, (row == 0).then_some(PATTERN)),
            (component::PLACE, Some(place)),
        ]));
    }
    sheet.connections.push(connection::row([
        (connection::SOURCE, Some(AXIS)),
        (connection::SOURCE_FEATURE, Some(0)),
        (connection::DESTINATION, Some(DRIVE)),
        (connection::DESTINATION_FEATURE, Some(0)),
    ]));
    sheet
}

/// The rows of source and destination of the list, in its order.
fn pairs(sheet: &Sheet) -> Vec<[u32; 2]> {
    let text = conlist(&sheet.bytes(), Options::default()).unwrap();
    let rows = text.lines().filter(|line| line.starts_with('S'));
    let number = |field: &str| field.trim().parse().unwrap();
    rows.map(|row| [number(&row[13..19]), number(&row[19..25])])
        .collect()
}

fn is_accepted(sheet: &Sheet) -> bool {
    conlist(&sheet.bytes(), Options::default()) != Err(NoAnswer::NotAccepted)
}

#[test]
fn pairs_go_by_place() {
    let sheet = cabinet("all_to_all", [0, 900, 30, 5, 4]);
    assert_eq!(pairs(&sheet), [[2, 4], [2, 3], [1, 4], [1, 3]]);
    let sheet = cabinet("one_to_one", [0, 900, 30, 4, 5]);
    assert_eq!(pairs(&sheet), [[2, 3], [1, 4]]);
    assert!(places::part_from_rows(&sheet));
    assert!(places::decide(&sheet, Renames::Text));
    assert_eq!(pairs(&places::by_row(&sheet)), [[1, 3], [2, 4]]);
}

#[test]
fn gaps_decide_nothing() {
    let sheet = cabinet("one_to_one", [7, 1, 20, 300, 999_999]);
    assert_eq!(pairs(&sheet), [[1, 3], [2, 4]]);
    assert!(!places::part_from_rows(&sheet));
    assert!(!places::decide(&sheet, Renames::Text));
}

#[test]
fn siblings_have_places_of_their_own() {
    assert!(is_accepted(&cabinet("-", [0, 1, 2, 3, 4])));
    assert!(!is_accepted(&cabinet("-", [0, 1, 2, 3, 1])));
    // The root's place is nobody else's matter.
    assert!(is_accepted(&cabinet("-", [3, 1, 2, 3, 4])));
    // Nor is that of a child of another.
    let mut sheet = cabinet("-", [0, 1, 2, 3, 1]);
    sheet.components[4][component::PARENT] = Some(2);
    assert!(is_accepted(&sheet));
}

#[test]
fn a_place_is_needed() {
    let mut sheet = cabinet("-", [0, 1, 2, 3, 4]);
    let mut lines = sheet.lines();
    let last = lines.iter().rposition(|line| line[0] == b'C').unwrap();
    let shorter = lines[last].len() - 6;
    lines[last].truncate(shorter);
    let answer = conlist(&bytes_of(lines), Options::default());
    assert_eq!(answer, Err(NoAnswer::NotAccepted));
    sheet.components[0][component::PLACE] = None;
    assert!(!is_accepted(&sheet));
}
