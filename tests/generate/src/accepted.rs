//! Accepted sheets: a model of some profile, its rows in another order, its
//! children in yet another by their places, its array elements with indices of
//! every length, often with modes, sometimes filled up to the sizes that
//! `conlist` lends.

use oracle::letters::{Field, Meaning, ROW_LETTERS, Sheet, columns};
use oracle::model::Renames;
use oracle::sheet::{NAME_BYTES, NAME_ROWS, SHEET_BYTES, TABLE_ROWS};
use oracle::{MOST_VISITS, endpoint};

use crate::Sort;
use crate::draft::Draft;

/// A kind of model: how often, what it is called, how it is made.
type Profile = (usize, &'static str, fn(&mut Draft));

const PROFILES: &[Profile] = &[
    (10, "deep chains", Draft::deep_chains),
    (4, "short chains", Draft::short_chains),
    (11, "component tree", Draft::component_tree),
    (10, "arrays", Draft::arrays),
    (8, "group connections", Draft::group_connections),
    (10, "groups across packages", Draft::groups_across_packages),
    (9, "chains and groups", Draft::chains_and_groups),
    (14, "resolution", Draft::resolution),
    (28, "one reference", Draft::one_reference),
    (4, "depth limit", Draft::depth_limit),
    (2, "self nesting", Draft::self_nesting),
    (4, "visit limit", Draft::visit_limit),
    (3, "composed limit", Draft::composed_limit),
    (3, "row limit", Draft::row_limit),
    (4, "diagnostic limit", Draft::diagnostic_limit),
    (3, "group row limit", Draft::group_row_limit),
    (5, "group diagnostic limit", Draft::group_diagnostic_limit),
    (3, "text limit", Draft::text_limit),
    (4, "several limits", Draft::several_limits),
];

/// The profiles in which the names of renames decide something.
const WILD_PROFILES: &[Profile] = &[
    (1, "groups across packages", Draft::groups_across_packages),
    (2, "resolution", Draft::resolution),
];

/// The profiles in which nothing but modes counts.
const MODAL_PROFILES: &[Profile] = &[
    (9, "modes", Draft::modal_tree),
    (1, "joined name limit", Draft::joined_name_limit),
];

/// More comparisons of features than this, and the original takes long.
const MOST_COMPARISONS: u64 = 2_000_000;

/// An accepted sheet, and the name of its profile. Tries with numbers made from
/// the seed, until a sheet has the right size and the original is quick on it.
pub fn accepted(seed: u64, sort: Sort) -> (Vec<u8>, &'static str) {
    let profiles = match sort {
        Sort::Wild => WILD_PROFILES,
        Sort::Modal => MODAL_PROFILES,
        _ => PROFILES,
    };
    let profile = weighted(seed, profiles);
    for attempt in 0..1000 {
        let sheet = attempted(seed, attempt, sort, profile);
        if let Some(tables) = Sheet::accepted(&sheet)
            && is_quick(&tables)
        {
            return (sheet, profile.1);
        }
    }
    panic!("no accepted sheet for seed {seed}");
}

/// One of the tries of a seed with a profile, whatever comes of it.
pub fn attempted_of(seed: u64, attempt: u64, profile: &str) -> Vec<u8> {
    let mut profiles = PROFILES.iter();
    let found = profiles.find(|(_, name, _)| *name == profile);
    let profile = *found.expect("the name of a profile");
    attempted(seed, attempt, Sort::Accepted, profile)
}

fn attempted(seed: u64, attempt: u64, sort: Sort, (_, _, make): Profile) -> Vec<u8> {
    let number = seed.wrapping_mul(1000).wrapping_add(attempt);
    let mut draft = Draft::new(number, sort == Sort::Wild);
    if draft.random.chance(20) {
        draft.name("unused");
    }
    make(&mut draft);
    draft.classify_components();
    reorder(&mut draft);
    draft.place_components();
    draft.index_components();
    draft.add_modes(sort == Sort::Modal);
    fill_up(&mut draft);
    draft.sheet.bytes()
}

/// The profiles take turns, each as often as its weight says.
fn weighted(seed: u64, profiles: &[Profile]) -> Profile {
    let total: usize = profiles.iter().map(|(weight, ..)| weight).sum();
    // A step that has no factor in common with the total mixes the turns.
    let mut turn = (seed.wrapping_mul(61) % total as u64) as usize;
    for profile in profiles {
        if turn < profile.0 {
            return *profile;
        }
        turn -= profile.0;
    }
    unreachable!("the weights sum up to the total")
}

fn is_quick(sheet: &Sheet) -> bool {
    let counts = endpoint::counts(sheet, Renames::Exact, MOST_VISITS);
    let pairs = counts.chunks(2);
    let comparisons: u64 = pairs.map(|pair| pair[0].features * pair[1].features).sum();
    comparisons <= MOST_COMPARISONS
}

/// Puts rows into another order, as far as their meaning allows.
fn reorder(draft: &mut Draft) {
    if draft.random.chance(60) {
        reorder_components(draft);
    }
    let Draft { random, sheet, .. } = draft;
    if random.chance(60) {
        random.shuffle(&mut sheet.connections);
    }
    if random.chance(60) {
        random.shuffle(&mut sheet.features);
    }
    if random.chance(40) {
        random.shuffle(&mut sheet.declared_features);
    }
    if random.chance(40) {
        random.shuffle(&mut sheet.imports);
    }
}

/// Another order of the components, every parent still before its children.
pub fn reorder_components(draft: &mut Draft) {
    let count = draft.sheet.components.len();
    let mut open = vec![0];
    let mut order = Vec::new();
    let mut new_row = vec![0; count];
    while !open.is_empty() {
        let next = open.swap_remove(draft.random.below(open.len()));
        new_row[next as usize] = order.len() as u32;
        order.push(next);
        open.extend(draft.sheet.children(next));
    }
    let moved = |row: Field| row.map(|row| new_row[row as usize]);
    let sheet = &mut draft.sheet;
    let components = order.iter().map(|&row| sheet.components[row as usize]);
    sheet.components = components.collect();
    for &letter in ROW_LETTERS {
        for row in 0..sheet.rows(letter).len() {
            let fields = sheet.row_mut(letter, row);
            for column in columns(letter) {
                if column.meaning == Meaning::Row(b'C') {
                    fields[column.place] = moved(fields[column.place]);
                }
            }
        }
    }
}

/// Sometimes: features of no matter up to 96, or unused names up to 256, or up
/// to 16,384 bytes of sheet exactly.
fn fill_up(draft: &mut Draft) {
    if draft.random.chance(3) {
        while draft.sheet.features.len() < TABLE_ROWS {
            let name = draft.name("spare");
            draft.feature(name, 0, 0);
        }
    }
    if draft.random.chance(3) {
        let whole = draft.random.chance(60);
        fill_names(draft, whole);
    }
}

fn fill_names(draft: &mut Draft, whole: bool) {
    const AROUND: usize = "N \n".len();
    let mut left = SHEET_BYTES.saturating_sub(draft.sheet.bytes().len());
    while draft.sheet.names.len() < NAME_ROWS && left > AROUND {
        let wanted = match whole {
            true => NAME_BYTES,
            false => draft.random.range(1, 20),
        };
        let mut length = wanted.min(left - AROUND);
        let rest = left - AROUND - length;
        // What is left must be nothing or enough for a line.
        if (1..=AROUND).contains(&rest) && length > AROUND + 1 {
            length -= AROUND + 1;
        }
        draft.sheet.names.push("y".repeat(length));
        left -= AROUND + length;
    }
}
