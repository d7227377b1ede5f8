//! The copy of the original without a limit on the steps of a chain gives what
//! the original gives, exactly where no chain has a twenty-first step.

use std::fs;

use oracle::letters::{Field, Sheet, component, connection};
use oracle::listing::Listing;
use oracle::stream;
use oracle::traced::{self, NO_LIMIT, STEPS};
use oracle::{NoAnswer, Options, conlist, model};

/// More rows than this are not collected.
const MOST_ROWS: u64 = 300_000;

/// The traced listing of the original, and that of the copy.
fn listings(sheet: &Sheet) -> [Listing; 2] {
    [traced::run, traced::run_lifted].map(|run| run(sheet, &mut model::instance(sheet)))
}

/// Holds both to each other and to the counts; the steps of the longest chain.
fn compared(sheet: &Sheet) -> u64 {
    let [original, lifted] = listings(sheet);
    for (listing, limit) in [(&original, STEPS), (&lifted, NO_LIMIT)] {
        assert_eq!(traced::row_count(sheet, limit), listing.rows.len() as u64);
    }
    let longest = traced::longest_chain(sheet, &lifted.rows);
    let cut = traced::longest_chain(sheet, &original.rows);
    assert_eq!(cut, longest.min(STEPS));
    assert_eq!(original.rows == lifted.rows, longest <= STEPS);
    assert_eq!(original.diagnostics, lifted.diagnostics);
    longest
}

#[test]
fn stored_sheets() {
    let path = concat!(env!("CARGO_MANIFEST_DIR"), "/../vectors/accepted.txt");
    let (mut beyond, mut within) = (0, 0);
    for case in stream::read(&fs::read(path).unwrap()).unwrap() {
        let sheet = Sheet::accepted(&case.sheet).expect("accepted");
        if traced::row_count(&sheet, NO_LIMIT) > MOST_ROWS {
            continue;
        }
        match compared(&sheet) > STEPS {
            true => beyond += 1,
            false => within += 1,
        }
    }
    assert!(beyond >= 5, "{beyond}");
    assert!(within >= 200, "{within}");
}

/// Components, each the only child of the one before, and from each a connection
/// to the next: that of the root, and behind it so many steps towards one side.
fn chain(steps: u32, towards_source: bool) -> Sheet {
    let mut sheet = Sheet {
        names: ["a", "b"].map(str::to_string).to_vec(),
        ..Sheet::default()
    };
    let parent = |row: u32| row.checked_sub(1);
    for row in 0..steps + 2 {
        sheet.components.push(component::row([
            (component::PARENT, parent(row)),
            (component::PLACE, Some(0)),
        ]));
    }
    for owner in 0..steps + 1 {
        let inside: [Field; 2] = [Some(0), Some(1)];
        let outside: [Field; 2] = [None, Some(1)];
        let [source, destination] = match towards_source {
            true => [inside, outside],
            false => [outside, inside],
        };
        sheet.connections.push(connection::row([
            (connection::OWNER, Some(owner)),
            (connection::SOURCE, source[0]),
            (connection::SOURCE_FEATURE, source[1]),
            (connection::DESTINATION, destination[0]),
            (connection::DESTINATION_FEATURE, destination[1]),
        ]));
    }
    assert!(Sheet::accepted(&sheet.bytes()).is_some());
    sheet
}

#[test]
fn chains_of_every_length() {
    for steps in 0..=94 {
        for towards_source in [false, true] {
            let sheet = chain(steps, towards_source);
            assert_eq!(compared(&sheet), steps.into());
            let [_, lifted] = listings(&sheet);
            let whole: Vec<u32> = (0..=steps).collect();
            assert_eq!(lifted.rows[0].path, whole);
        }
    }
}

#[test]
fn the_texts_part_behind_the_twentieth_step() {
    let text = |sheet: &Sheet, lifted| {
        let options = Options {
            lifted,
            ..Options::default()
        };
        conlist(&sheet.bytes(), options).unwrap()
    };
    for (steps, one) in [(19, true), (20, true), (21, false), (64, false)] {
        let sheet = chain(steps, true);
        assert_eq!(text(&sheet, false) == text(&sheet, true), one, "{steps}");
    }
}

/// The same refusal stands in for a listing that is too long to wait for.
#[test]
fn a_model_without_end_is_left_out() {
    let path = concat!(
        env!("CARGO_MANIFEST_DIR"),
        "/../vectors/differences/endless_chains.sheet"
    );
    let sheet = fs::read(path).unwrap();
    for lifted in [false, true] {
        let options = |unlimited| Options {
            lifted,
            unlimited,
            ..Options::default()
        };
        let refused = Ok("R    11     0 -\n".to_string());
        assert_eq!(conlist(&sheet, options(false)), refused);
        let answer = conlist(&sheet, options(true));
        assert_eq!(answer, Err(NoAnswer::NotEnding));
    }
}
