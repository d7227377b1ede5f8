//! What document 01 itself gives: its run, as document 02 has changed its sheet, which is an example too, and its trial rows.

use std::fs;

use oracle::model::Renames;
use oracle::sheet::Sheet;
use oracle::{NoAnswer, Options, conlist, endpoint, stream};

/// The sheet of a trial among the stored vectors.
fn trial(label: &str) -> Vec<u8> {
    let path = concat!(env!("CARGO_MANIFEST_DIR"), "/../vectors/accepted.txt");
    let cases = stream::read(&fs::read(path).unwrap()).unwrap();
    let label = format!("trial: {label}");
    let case = cases.into_iter().find(|case| case.label == label);
    case.unwrap_or_else(|| panic!("no case {label}")).sheet
}

fn text(sheet: &[u8]) -> String {
    conlist(sheet, Options::default()).unwrap()
}

/// The lines of a text that begin with this letter.
fn lines(text: &str, letter: char) -> Vec<&str> {
    let lines = text.lines();
    lines.filter(|line| line.starts_with(letter)).collect()
}

/// A file of the repository.
fn file(path: &str) -> String {
    let path = format!("{}/../../{path}", env!("CARGO_MANIFEST_DIR"));
    fs::read_to_string(&path).unwrap_or_else(|error| panic!("{path}: {error}"))
}

/// The places that document 02 gives to the components of the run, from its sentence about them.
fn places_of_the_run() -> Vec<u32> {
    let page = file("docs/02-change-requests.md");
    let (_, places) = page.split_once("01's run gains the places ").unwrap();
    let (places, _) = places.split_once(" and follows").unwrap();
    let places = places.split(", ").map(|place| place.parse().unwrap());
    places.collect()
}

/// A C line of document 01 with its third field, the array index, padded from six columns to twenty.
fn with_long_index(line: &str) -> String {
    let (front, index) = line.split_at("C".len() + 2 * 6);
    let padding = " ".repeat(20 - 6);
    format!("{front}{padding}{index}")
}

/// The sheet and the list of the run in document 01, which has the sheet's names in words, array indices of six columns and no places.
fn run_of_the_document() -> (String, String) {
    let page = file("docs/01-scope.md");
    let (_, run) = page.split_once("Input, after `N` lines ").unwrap();
    let (names, run) = run.split_once(":\n```\n").unwrap();
    let (rows, run) = run.split_once("```\nOutput:\n```\n").unwrap();
    let (list, _) = run.split_once("```\n").unwrap();
    let mut sheet: String = names
        .split(", ")
        .map(|name| format!("N {name}\n"))
        .collect();
    let mut places = places_of_the_run().into_iter();
    for row in rows.lines() {
        sheet += &match row.starts_with('C') {
            true => format!("{}{:>6}\n", with_long_index(row), places.next().unwrap()),
            false => format!("{row}\n"),
        };
    }
    assert_eq!(places.next(), None);
    (sheet, list.to_string())
}

#[test]
fn the_run() {
    let (sheet, list) = run_of_the_document();
    assert_eq!(text(sheet.as_bytes()), list);
    assert_eq!(trial("run of document 01"), sheet.as_bytes());
    assert_eq!(file("examples/run.sheet"), sheet);
    assert_eq!(file("examples/run.list"), list);
}

#[test]
fn the_empty_sheet_is_not_accepted() {
    let answer = conlist(b"", Options::default());
    assert_eq!(answer, Err(NoAnswer::NotAccepted));
}

#[test]
fn patterns() {
    let nested = text(&trial("((One_To_One))"));
    assert_eq!(lines(&nested, 'Z'), ["Z     2     0"]);
    let twice = text(&trial("(One_To_One, One_To_One)"));
    assert_eq!(lines(&twice, 'Z'), ["Z     4     0"]);
}

#[test]
fn one_to_one_of_three_and_two() {
    let text = text(&trial("one to one, 3 against 2"));
    assert_eq!(lines(&text, 'D'), ["D     4     0     3     2"]);
    assert_eq!(lines(&text, 'Z'), ["Z     2     0"]);
}

#[test]
fn pump_is_not_its_array_element() {
    let text = text(&trial("pump and pump[1]"));
    assert_eq!(lines(&text, 'S'), ["S     0     0     1     3     1     0"]);
}

#[test]
fn extensions_down_to_the_depth_limit() {
    let ten = text(&trial("a feature 10 extensions down"));
    assert_eq!(lines(&ten, 'Z'), ["Z     0     1"]);
    let eleven = text(&trial("a feature 11 extensions down"));
    assert_eq!(lines(&eleven, 'Z'), ["Z     0     0"]);
}

#[test]
fn a_group_nested_in_itself() {
    for (times, visits) in [(2, 4_095), (3, 265_720)] {
        let sheet = trial(&format!("nested in itself {times} times"));
        let tables = Sheet::accepted(&sheet).unwrap();
        let counts = endpoint::counts(&tables, Renames::Text, u64::MAX);
        assert_eq!(counts.len(), 2);
        for count in counts {
            assert_eq!((count.visits, count.features), (visits, 0));
        }
    }
    let three = text(&trial("nested in itself 3 times"));
    assert_eq!(three, "R    13     0 -\n");
}

/// A chain of 20 steps is followed to its end, a longer one is cut there.
#[test]
fn chains_of_about_twenty_steps() {
    for (steps, connections) in [(19, 20), (20, 21), (21, 21), (22, 21), (23, 21)] {
        let text = text(&trial(&format!("chain of {steps} steps")));
        let row = lines(&text, 'S')[0];
        assert_eq!(row[25..31].trim(), connections.to_string());
    }
}
