//! The selections of modes: the original's `compute_soms`, and what the
//! programs `modes` and `mode` print of them.

use spar_hir_def::instance::{SystemInstance, SystemOperationMode};

use crate::letters::Sheet;
use crate::listing::{put_numbers, refusal_line};
use crate::{Options, model};

/// What `mode` lends for the joined name. It lends as many rows as a table of
/// a sheet has at most, so no selection is longer.
pub const JOINED_BYTES: usize = 4_096;

/// One mode of each component that has modes, or of the first of these where
/// the list was cut before the last.
#[derive(Clone, Debug, PartialEq, Eq)]
pub struct Selection {
    /// The M rows.
    pub rows: Vec<u32>,
    /// Their names, joined by underscores.
    pub name: String,
}

/// What the original gives of a model.
#[derive(Clone, Debug, PartialEq, Eq)]
pub struct Selections {
    pub list: Vec<Selection>,
    /// Whether the original says that it has cut the list.
    pub cut: bool,
}

/// Runs the original on a model.
pub fn run(sheet: &Sheet) -> Selections {
    let mut instance = model::instance(sheet);
    instance.compute_soms();
    let list = instance.system_operation_modes.iter();
    Selections {
        list: list.map(selection).collect(),
        cut: says_cut(&instance),
    }
}

fn selection(given: &SystemOperationMode) -> Selection {
    let modes = given.mode_selections.iter();
    Selection {
        rows: modes.map(|&(_, mode)| model::row(mode)).collect(),
        name: given.name.clone(),
    }
}

/// The original's only diagnostic of selections says how many there would be,
/// and that they are truncated.
fn says_cut(instance: &SystemInstance) -> bool {
    match &instance.diagnostics[..] {
        [] => false,
        [one] if one.message.ends_with("; truncated") => true,
        others => panic!("{others:?} are no diagnostics of selections"),
    }
}

/// The text of `modes`: how many selections there are, and 1 where the list was cut.
pub fn count_text(sheet: &Sheet) -> String {
    let Selections { list, cut } = run(sheet);
    let mut text = String::from("Z");
    put_numbers(&mut text, [list.len(), usize::from(cut)]);
    text + "\n"
}

/// The text of `mode`: the M rows of the selection with this number, and the joined name.
pub fn selection_text(sheet: &Sheet, number: u64, options: Options) -> String {
    let mut list = run(sheet).list.into_iter();
    // A number that is no `usize` is past every list.
    let place = usize::try_from(number).unwrap_or(usize::MAX);
    let Some(Selection { rows, name }) = list.nth(place) else {
        return refusal_line(20);
    };
    if name.len() > JOINED_BYTES && !options.unlimited {
        return refusal_line(14);
    }
    let mut text = String::from("M");
    put_numbers(&mut text, rows);
    text + &format!("\n= {name}\n")
}
