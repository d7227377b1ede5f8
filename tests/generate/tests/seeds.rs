//! Generated sheets are what they are said to be, the original answers them, and
//! a seed gives the sheet that is stored of it.

use std::collections::HashSet;
use std::fs;

use generate::{Sort, case};
use oracle::letters::{Field, array_index, mode};
use oracle::listing::refusal_line;
use oracle::model::Renames;
use oracle::modes::{self, Selection, Selections};
use oracle::places;
use oracle::sheet::{Sheet, TABLE_ROWS};
use oracle::stream::{self, Case};
use oracle::{NoAnswer, Options, conlist};

/// How many seeds to try: `SHEETS` in the environment, or 300.
fn seeds() -> std::ops::RangeInclusive<u64> {
    let count = match std::env::var("SHEETS") {
        Ok(text) => text.parse().expect("SHEETS is a number"),
        Err(_) => 300,
    };
    1..=count
}

#[test]
fn accepted_sheets_are_answered_and_have_no_wild_names() {
    let exact = Options {
        renames: Renames::Exact,
        ..Options::default()
    };
    for seed in seeds() {
        let Case { label, sheet, .. } = case(Sort::Accepted, seed);
        let answer = conlist(&sheet, Options::default());
        assert!(answer.is_ok(), "{label}");
        assert_eq!(answer, conlist(&sheet, exact), "{label}");
    }
}

/// Half of the sheets that have siblings, and not all of them.
#[test]
fn siblings_stand_in_another_order_than_their_rows() {
    let (mut with_siblings, mut parted) = (0, 0);
    for seed in seeds() {
        let sheet = Sheet::accepted(&case(Sort::Accepted, seed).sheet).expect("accepted");
        let mut owners = 0..sheet.components.len() as u32;
        with_siblings += usize::from(owners.any(|owner| sheet.children(owner).len() > 1));
        parted += usize::from(places::part_from_rows(&sheet));
    }
    assert!(with_siblings / 2 <= parted && parted < with_siblings);
}

#[test]
fn places_decide_on_a_fifth_of_the_accepted_sheets() {
    let mut decided = 0;
    for seed in seeds() {
        let sheet = Sheet::accepted(&case(Sort::Accepted, seed).sheet).expect("accepted");
        decided += usize::from(places::decide(&sheet, Renames::Text));
    }
    assert!(5 * decided >= seeds().count(), "{decided}");
}

/// Whether an array index is of some kind.
type Kind = fn(u64) -> bool;

/// One in fifty of the accepted sheets has an index of each of these kinds.
#[test]
fn array_indices_are_of_every_length() {
    const KINDS: &[(&str, Kind)] = &[
        ("zero", |index| index == 0),
        ("one digit", |index| (1..10).contains(&index)),
        ("six digits", |index| (100_000..1_000_000).contains(&index)),
        ("seven digits", |index| {
            (1_000_000..10_000_000).contains(&index)
        }),
        ("4,294,967,294", |index| index == 4_294_967_294),
        ("4,294,967,295", |index| index == 4_294_967_295),
        ("4,294,967,296", |index| index == 4_294_967_296),
        ("high bits alone", |index| index > 0 && index as u32 == 0),
        ("all low bits", |index| {
            index >> 32 > 0 && index as u32 == u32::MAX
        }),
        ("twenty digits", |index| index.to_string().len() == 20),
        ("all bits", |index| index == u64::MAX),
    ];
    let mut met = vec![0; KINDS.len()];
    for seed in seeds() {
        let sheet = Sheet::accepted(&case(Sort::Accepted, seed).sheet).expect("accepted");
        let indices = sheet.components.iter().filter_map(|row| array_index(row));
        let indices: Vec<u64> = indices.collect();
        for ((_, holds), met) in KINDS.iter().zip(&mut met) {
            *met += usize::from(indices.iter().any(|&index| holds(index)));
        }
    }
    for ((kind, _), met) in KINDS.iter().zip(met) {
        assert!(50 * met >= seeds().count(), "{kind}: {met}");
    }
}

/// What is to be met among the modes of sheets.
#[derive(Debug, Default)]
struct Modal {
    sheets: usize,
    mixed: usize,
    cut_at_the_last: usize,
    cut_before_the_last: usize,
    exactly_ten_thousand: usize,
    equal_names: usize,
    whole_tables: usize,
}

impl Modal {
    fn of(sort: Sort) -> Modal {
        let mut met = Modal::default();
        for seed in seeds() {
            let sheet = Sheet::accepted(&case(sort, seed).sheet).expect("accepted");
            if !sheet.modes.is_empty() {
                met.count(&sheet);
            }
        }
        met
    }

    fn count(&mut self, sheet: &Sheet) {
        let Selections { list, cut } = modes::run(sheet);
        let owners: Vec<Field> = sheet.modes.iter().map(|row| row[mode::OWNER]).collect();
        let modal: HashSet<&Field> = owners.iter().collect();
        let Selection { rows, .. } = list.last().expect("a selection");
        let at_the_last = rows.len() == modal.len();
        let names: HashSet<&str> = list.iter().map(|own| own.name.as_str()).collect();
        self.sheets += 1;
        self.mixed += usize::from(!owners.is_sorted());
        self.cut_at_the_last += usize::from(cut && at_the_last);
        self.cut_before_the_last += usize::from(cut && !at_the_last);
        self.exactly_ten_thousand += usize::from(!cut && list.len() == 10_000);
        self.equal_names += usize::from(names.len() < list.len());
        self.whole_tables += usize::from(sheet.modes.len() == TABLE_ROWS);
    }
}

/// A third of the accepted sheets has modes, and each thing that there is to meet among them comes in one sheet of a hundred or more.
#[test]
fn modes_of_accepted_sheets() {
    let met = Modal::of(Sort::Accepted);
    let all = seeds().count();
    assert!(all / 4 <= met.sheets && met.sheets <= all / 2, "{met:?}");
    assert!(met.sheets / 2 <= met.mixed, "{met:?}");
    for met_by in [
        met.cut_at_the_last,
        met.cut_before_the_last,
        met.exactly_ten_thousand,
        met.equal_names,
        met.whole_tables,
    ] {
        assert!(100 * met_by >= all, "{met:?}");
    }
}

/// All sheets that are made for their modes have some; a tenth is cut, and some joined names are too long for `mode`.
#[test]
fn modes_of_modal_sheets() {
    let met = Modal::of(Sort::Modal);
    let all = seeds().count();
    assert_eq!(met.sheets, all);
    let cut = met.cut_at_the_last + met.cut_before_the_last;
    assert!(10 * cut >= all, "{met:?}");
    let sheets = seeds().map(|seed| case(Sort::Modal, seed).sheet);
    let too_long = sheets.filter(|sheet| {
        let sheet = Sheet::accepted(sheet).expect("accepted");
        let text = modes::selection_text(&sheet, 0, Options::default());
        text == refusal_line(14)
    });
    assert!(100 * too_long.count() >= all);
}

#[test]
fn wild_sheets_are_answered() {
    for seed in seeds() {
        let Case { label, sheet, .. } = case(Sort::Wild, seed);
        assert!(conlist(&sheet, Options::default()).is_ok(), "{label}");
    }
}

/// By a listing with 11 to 15, or before any listing. A sheet with two faults
/// may have one that takes the other back, so these are left out.
#[test]
fn damaged_sheets_are_refused() {
    for seed in seeds() {
        let Case { label, sheet, .. } = case(Sort::Damaged, seed);
        let refused = match conlist(&sheet, Options::default()) {
            Ok(text) => text.starts_with('R'),
            Err(reason) => reason == NoAnswer::NotAccepted,
        };
        assert!(refused || label.contains(','), "{label}");
    }
}

#[test]
fn stored_sheets_are_made_by_their_seeds() {
    for (file, sort) in [
        ("accepted.txt", Sort::Accepted),
        ("wild.txt", Sort::Wild),
        ("damaged.txt", Sort::Damaged),
    ] {
        let path = format!("{}/../vectors/{file}", env!("CARGO_MANIFEST_DIR"));
        let stored = stream::read(&fs::read(path).unwrap()).unwrap();
        let mut made = 0;
        for Case { label, sheet, .. } in stored {
            // Those written by hand have a label without a seed.
            let mut words = label.split(' ').skip(1);
            if let Some(Ok(seed)) = words.next().map(str::parse) {
                assert_eq!(case(sort, seed).sheet, sheet, "{label}");
                made += 1;
            }
        }
        assert!(made > 0, "{file}");
    }
}
