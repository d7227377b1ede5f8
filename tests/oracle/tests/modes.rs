//! The selections of modes are the original's: components and modes in the
//! order of their rows, the last one's mode changing fastest, 10,000 at most.

use std::collections::HashSet;

use oracle::Options;
use oracle::letters::{Sheet, component, mode, package, rename};
use oracle::modes::{self, JOINED_BYTES, Selection, Selections};
use oracle::sheet::bytes_of;

/// Components with these modes by name, in the order of the components: the
/// root, and the others below it.
fn plant(components: &[&[&str]]) -> Sheet {
    let owned = (0..).zip(components);
    let modes = owned.flat_map(|(owner, modes)| modes.iter().map(move |&name| (owner, name)));
    plant_of(components.len(), &modes.collect::<Vec<_>>())
}

/// So many components, and modes in the order of their rows: the owner and the name of each.
fn plant_of(components: usize, modes: &[(u32, &str)]) -> Sheet {
    let mut sheet = Sheet {
        names: vec!["part".to_string()],
        ..Sheet::default()
    };
    for row in 0..components as u32 {
        sheet.components.push(component::row([
            (component::PARENT, (row > 0).then_some(0)),
            // Places are in another order than the rows, and decide nothing here.
            (component::PLACE, Some(components as u32 - row)),
        ]));
    }
    for &(owner, name) in modes {
        let number = sheet.names.len() as u32;
        sheet.names.push(name.to_string());
        sheet.modes.push(mode::row([
            (mode::NAME, Some(number)),
            (mode::OWNER, Some(owner)),
        ]));
    }
    sheet
}

/// Components with so many modes each, all of one name.
fn counted(counts: &[usize]) -> Sheet {
    let components: Vec<Vec<&str>> = counts.iter().map(|&count| vec!["m"; count]).collect();
    let components: Vec<&[&str]> = components.iter().map(Vec::as_slice).collect();
    plant(&components)
}

fn given(rows: &[u32], name: &str) -> Selection {
    Selection {
        rows: rows.to_vec(),
        name: name.to_string(),
    }
}

/// The number of selections, whether they were cut, and how many components each has.
fn figures(sheet: &Sheet) -> (usize, bool, usize) {
    let Selections { list, cut } = modes::run(sheet);
    let lengths: HashSet<usize> = list.iter().map(|own| own.rows.len()).collect();
    assert!(lengths.len() <= 1);
    let different: HashSet<&[u32]> = list.iter().map(|own| own.rows.as_slice()).collect();
    assert_eq!(different.len(), list.len(), "none is given twice");
    (list.len(), cut, lengths.into_iter().next().unwrap_or(0))
}

#[test]
fn the_last_mode_changes_fastest() {
    let sheet = plant(&[&["off", "on"], &["slow", "mid", "fast"]]);
    let expected = Selections {
        list: vec![
            given(&[0, 2], "off_slow"),
            given(&[0, 3], "off_mid"),
            given(&[0, 4], "off_fast"),
            given(&[1, 2], "on_slow"),
            given(&[1, 3], "on_mid"),
            given(&[1, 4], "on_fast"),
        ],
        cut: false,
    };
    assert_eq!(modes::run(&sheet), expected);
}

/// One between others, and at either end.
#[test]
fn a_component_without_modes_is_left_out() {
    let sheet = plant(&[&[], &["a", "b"], &[], &["c"], &[]]);
    let list = modes::run(&sheet).list;
    assert_eq!(list, [given(&[0, 2], "a_c"), given(&[1, 2], "b_c")]);
}

#[test]
fn modes_of_a_component_need_not_stand_together() {
    let sheet = plant_of(3, &[(2, "x"), (0, "b"), (2, "y"), (0, "a")]);
    let expected = [
        given(&[1, 0], "b_x"),
        given(&[1, 2], "b_y"),
        given(&[3, 0], "a_x"),
        given(&[3, 2], "a_y"),
    ];
    assert_eq!(modes::run(&sheet).list, expected);
}

#[test]
fn no_modes_give_no_selection() {
    let sheet = plant(&[&[], &[]]);
    assert_eq!(figures(&sheet), (0, false, 0));
    assert_eq!(modes::count_text(&sheet), "Z     0     0\n");
}

#[test]
fn a_single_mode_is_a_selection() {
    let sheet = plant(&[&[], &["run"]]);
    assert_eq!(modes::run(&sheet).list, [given(&[0], "run")]);
}

#[test]
fn ten_thousand_are_not_cut() {
    assert_eq!(figures(&counted(&[10, 10, 10, 10])), (10_000, false, 4));
    assert_eq!(figures(&counted(&[20, 20, 25])), (10_000, false, 3));
    assert_eq!(figures(&counted(&[100, 100])), (10_000, false, 2));
    // Components with one mode make no more of them, and are in each.
    assert_eq!(figures(&counted(&[100, 1, 100, 1])), (10_000, false, 4));
}

/// The first 10,000 count, and every component is in them.
#[test]
fn a_list_that_passes_at_the_last_component_is_cut() {
    assert_eq!(figures(&counted(&[73, 137])), (10_000, true, 2));
    let sheet = counted(&[10, 10, 10, 11]);
    assert_eq!(figures(&sheet), (10_000, true, 4));
    // 909 times 11 selections, and one.
    let last = modes::run(&sheet).list.pop().unwrap();
    assert_eq!(last.rows, [9, 10, 29, 30]);
}

/// Components behind the one at which the list passes are missing from each.
#[test]
fn a_list_that_passes_before_the_last_component_is_cut_there() {
    assert_eq!(figures(&counted(&[73, 137, 1])), (10_000, true, 2));
    assert_eq!(figures(&counted(&[22, 22, 22, 1])), (10_000, true, 3));
    assert_eq!(
        figures(&counted(&[10, 10, 10, 11, 2, 2])),
        (10_000, true, 4)
    );
    // Exactly 10,000 do not pass: the next component does.
    assert_eq!(figures(&counted(&[100, 100, 2, 3])), (10_000, true, 3));
}

/// More combinations than 64 bits can count.
#[test]
fn a_product_without_a_number_is_cut() {
    assert_eq!(figures(&counted(&[2; 70])), (10_000, true, 14));
}

/// None is given twice as rows, but joined names can be equal.
#[test]
fn joined_names_can_be_equal() {
    let sheet = plant(&[&["a", "a_b"], &["b_c", "c"]]);
    let expected = [
        given(&[0, 2], "a_b_c"),
        given(&[0, 3], "a_c"),
        given(&[1, 2], "a_b_b_c"),
        given(&[1, 3], "a_b_c"),
    ];
    assert_eq!(modes::run(&sheet).list, expected);
    // The modes of one component may have one name.
    let sheet = plant(&[&["m", "m"]]);
    assert_eq!(
        modes::run(&sheet).list,
        [given(&[0], "m"), given(&[1], "m")]
    );
}

#[test]
fn the_initial_flag_decides_nothing() {
    let mut sheet = plant(&[&["a", "b"], &["c", "d"]]);
    let before = modes::run(&sheet);
    for row in &mut sheet.modes {
        row[mode::INITIAL] = Some(1);
    }
    assert_eq!(modes::run(&sheet), before);
}

#[test]
fn the_texts_of_the_programs() {
    let mode = |sheet: &Sheet, number| modes::selection_text(sheet, number, Options::default());
    let sheet = plant(&[&["off", "on"], &[], &["slow", "mid", "fast"]]);
    assert_eq!(modes::count_text(&sheet), "Z     6     0\n");
    assert_eq!(mode(&sheet, 0), "M     0     2\n= off_slow\n");
    assert_eq!(mode(&sheet, 4), "M     1     3\n= on_mid\n");
    for number in [6, 7, 1 << 32, u64::MAX] {
        assert_eq!(mode(&sheet, number), "R    20     0 -\n");
    }
    assert_eq!(mode(&plant(&[&[]]), 0), "R    20     0 -\n");
    let cut = counted(&[22, 22, 22, 3]);
    assert_eq!(modes::count_text(&cut), "Z 10000     1\n");
    assert_eq!(mode(&cut, 9_999), "M    20    36    55\n= m_m_m\n");
    assert_eq!(mode(&cut, 10_000), "R    20     0 -\n");
}

/// 64 names of 63 bytes and the underscores between them are 4,095 bytes.
#[test]
fn a_joined_name_longer_than_its_output_is_refused() {
    let text = |last: &str, options| {
        let long = "w".repeat(63);
        let mut components: Vec<&[&str]> = vec![&[]];
        let modes = [long.as_str()];
        components.extend(vec![&modes[..]; 63]);
        let modes = [last];
        components.push(&modes);
        modes::selection_text(&plant(&components), 0, options)
    };
    let limited = Options::default();
    let refused = "R    14     0 -\n";
    for (bytes, fits) in [
        (JOINED_BYTES - 1, true),
        (JOINED_BYTES, true),
        (JOINED_BYTES + 1, false),
    ] {
        // 63 names of 63 bytes with an underscore behind each.
        let last = "z".repeat(bytes - 63 * 64);
        let joined = format!("{}_", "w".repeat(63)).repeat(63) + &last;
        assert_eq!(joined.len(), bytes);
        let expected = format!("\n= {joined}\n");
        assert_eq!(text(&last, limited).ends_with(&expected), fits);
        assert_eq!(text(&last, limited) == refused, !fits);
        let unlimited = Options {
            unlimited: true,
            ..limited
        };
        assert!(text(&last, unlimited).ends_with(&expected));
    }
}

/// A line has three fields, none of which may be missing.
#[test]
fn a_mode_has_a_name_an_owner_and_a_flag() {
    let sheet = plant(&[&["a", "b"], &["c"]]);
    assert_eq!(Sheet::accepted(&sheet.bytes()), Some(sheet.clone()));
    let line = "M     3     1     0";
    assert_eq!(sheet.lines().pop().unwrap(), line.as_bytes());
    let (names, components) = (sheet.names.len() as u32, sheet.components.len() as u32);
    for (place, good) in [
        (mode::NAME, 0..names),
        (mode::OWNER, 0..components),
        (mode::INITIAL, 0..2),
    ] {
        let with = |field| {
            let mut sheet = sheet.clone();
            sheet.modes[1][place] = field;
            Sheet::accepted(&sheet.bytes()).is_some()
        };
        assert!(!with(None));
        assert!(good.clone().all(|number| with(Some(number))));
        assert!(!with(Some(good.end)) && !with(Some(999_999)));
    }
    let text = String::from_utf8(sheet.bytes()).unwrap();
    let lines = |put: &str| text.replace(&format!("{line}\n"), put);
    assert!(Sheet::accepted(lines(&format!("{line}\n{line}\n")).as_bytes()).is_some());
    for bad in [
        "M     3     1\n",
        "M     3     1     0     0\n",
        "M     3     1    00\n",
    ] {
        assert!(Sheet::accepted(lines(bad).as_bytes()).is_none(), "{bad:?}");
    }
}

#[test]
fn modes_stand_behind_renames() {
    let mut sheet = plant(&[&["a"]]);
    sheet.packages.push(package::row([]));
    sheet.renames.push(rename::row([]));
    let mut lines = sheet.lines();
    assert!(Sheet::accepted(&bytes_of(lines.clone())).is_some());
    let last = lines.len() - 1;
    lines.swap(last - 1, last);
    assert!(Sheet::accepted(&bytes_of(lines)).is_none());
}

#[test]
fn a_table_has_96_modes_at_most() {
    assert!(Sheet::accepted(&counted(&[48, 48]).bytes()).is_some());
    assert!(Sheet::accepted(&counted(&[48, 49]).bytes()).is_none());
}
