//! An array index has 64 bits, in twenty columns of its line, and the original gets all of them.

use oracle::letters::{Sheet, array_index, component, connection, put_array_index};
use oracle::sheet::bytes_of;
use oracle::{NoAnswer, Options, conlist, model};

/// The characters of the array index in a C line.
const FIELD: std::ops::Range<usize> = 13..33;

/// A cabinet with an array of one string, which a connection joins to itself.
fn cabinet(index: Option<u64>) -> Sheet {
    let names = ["cabinet", "string[1]", "string"];
    let mut sheet = Sheet {
        names: names.map(str::to_string).to_vec(),
        ..Sheet::default()
    };
    sheet.components.push(component::row([]));
    let mut string = component::row([(component::NAME, Some(1)), (component::PARENT, Some(0))]);
    put_array_index(&mut string, index);
    sheet.components.push(string);
    sheet.connections.push(connection::row([
        (connection::SOURCE, Some(2)),
        (connection::SOURCE_FEATURE, Some(0)),
        (connection::DESTINATION, Some(2)),
        (connection::DESTINATION_FEATURE, Some(0)),
    ]));
    sheet
}

/// The place of the string's line.
fn line_of_the_string(lines: &[Vec<u8>]) -> usize {
    let last = lines.iter().rposition(|line| line[0] == b'C');
    last.expect("a C line")
}

/// The sheet with other characters in place of the string's index, of twenty columns or not.
fn with_field(field: &str) -> Vec<u8> {
    let mut lines = cabinet(None).lines();
    let line = line_of_the_string(&lines);
    lines[line].splice(FIELD, field.bytes());
    bytes_of(lines)
}

fn is_accepted(sheet: &[u8]) -> bool {
    conlist(sheet, Options::default()) != Err(NoAnswer::NotAccepted)
}

fn rows(text: &str) -> usize {
    text.lines().filter(|line| line.starts_with('S')).count()
}

#[test]
fn the_original_gets_the_whole_index() {
    let largest = u64::from(u32::MAX);
    for index in [0, 1, 999_999, 1_000_000, largest - 1, largest, largest + 1]
        .into_iter()
        .chain([10_u64.pow(19), u64::MAX - 1, u64::MAX])
    {
        let bytes = cabinet(Some(index)).bytes();
        assert_eq!(bytes, with_field(&format!("{index:20}")));
        let sheet = Sheet::accepted(&bytes).unwrap();
        assert_eq!(sheet, cabinet(Some(index)));
        assert_eq!(array_index(&sheet.components[1]), Some(index));
        let instance = model::instance(&sheet);
        let component = &instance.components[model::index(1)];
        assert_eq!(component.array_index, Some(index));
        let text = conlist(&bytes, Options::default()).unwrap();
        assert_eq!(rows(&text), 1, "{index}");
    }
}

#[test]
fn without_an_index_there_is_no_element() {
    let bytes = cabinet(None).bytes();
    assert_eq!(bytes, with_field("                   -"));
    let sheet = Sheet::accepted(&bytes).unwrap();
    assert_eq!(array_index(&sheet.components[1]), None);
    let instance = model::instance(&sheet);
    assert_eq!(instance.components[model::index(1)].array_index, None);
    assert_eq!(rows(&conlist(&bytes, Options::default()).unwrap()), 0);
}

#[test]
fn what_the_field_does_not_hold() {
    assert!(is_accepted(&with_field("18446744073709551615")));
    for field in [
        "18446744073709551616",
        "18446744073709551617",
        "18446744073709551620",
        "20000000000000000000",
        "36893488147419103232",
        "99999999999999999999",
        "00000000000000000000",
        "00000000000000000001",
        "                  01",
        " 0184467440737095516",
        "-                   ",
        "                  - ",
        "                  --",
        "                    ",
        "1                   ",
        "1 446744073709551615",
        "-9223372036854775808",
        // of another length
        "     -",
        "     1",
        "1844674407370955161",
        " 18446744073709551615",
    ] {
        assert!(!is_accepted(&with_field(field)), "{field:?}");
    }
}

/// A line of six columns for the index, padded to twenty, has the same index.
#[test]
fn an_index_of_six_columns_is_padded() {
    let indices = [0, 1, 7, 10, 4096, 99_999, 999_999].map(Some);
    for index in indices.into_iter().chain([None]) {
        let field = match index {
            Some(index) => format!("{index:6}"),
            None => format!("{:>6}", "-"),
        };
        assert!(!is_accepted(&with_field(&field)));
        let padded = with_field(&format!("{:14}{field}", ""));
        assert_eq!(Sheet::accepted(&padded), Some(cabinet(index)));
    }
}
