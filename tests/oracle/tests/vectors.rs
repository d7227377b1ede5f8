//! The stored vectors agree with the original.

use std::fs;

use oracle::listing::{is_before_the_listings, refusal_of};
use oracle::model::Renames;
use oracle::sheet::Sheet;
use oracle::stream::{self, Case};
use oracle::{NoAnswer, Options, conlist};

const EXACT: Options = Options {
    renames: Renames::Exact,
    unlimited: false,
    lifted: false,
};

fn cases(name: &str) -> Vec<Case> {
    let path = format!("{}/../vectors/{name}", env!("CARGO_MANIFEST_DIR"));
    stream::read(&fs::read(path).unwrap()).unwrap()
}

fn answer(case: &Case, options: Options) -> Result<Vec<u8>, NoAnswer> {
    conlist(&case.sheet, options).map(String::into_bytes)
}

#[test]
fn accepted_sheets() {
    let cases = cases("accepted.txt");
    assert!(cases.len() >= 300);
    for case in cases {
        let tables = Sheet::accepted(&case.sheet).expect("accepted");
        assert_eq!(tables.bytes(), case.sheet, "{}", case.label);
        let expected = Ok(case.text.clone());
        assert_eq!(
            answer(&case, Options::default()),
            expected,
            "{}",
            case.label
        );
        assert_eq!(answer(&case, EXACT), expected, "{}", case.label);
    }
}

#[test]
fn accepted_sheets_with_wild_names() {
    let cases = cases("wild.txt");
    assert!(!cases.is_empty());
    for case in cases {
        let expected = Ok(case.text.clone());
        assert_eq!(answer(&case, EXACT), expected, "{}", case.label);
    }
}

/// The refusals before the listings are not the original's, so of these only that there is one.
#[test]
fn damaged_sheets() {
    let cases = cases("damaged.txt");
    assert!(cases.len() >= 300);
    for case in cases {
        let [refusal, ..] = refusal_of(&case.text).unwrap();
        let expected = match is_before_the_listings(refusal) {
            true => Err(NoAnswer::NotAccepted),
            false => Ok(case.text.clone()),
        };
        assert_eq!(
            answer(&case, Options::default()),
            expected,
            "{}",
            case.label
        );
    }
}
