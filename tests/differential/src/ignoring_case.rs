//! The second entry for both listings, to which names that differ in the case of letters alone are one. It is held to the lists of a text; or
//! to those that the original, which compares names byte for byte, gives of the model with all names in small letters. Of such a model both
//! readings are one, and its lists are the second entry's of the model itself, but for letter case. Where all names that differ also differ
//! folded, the second entry has to leave what the ported one leaves.

use std::collections::HashSet;

use oracle::model::Renames;
use oracle::sheet::Sheet;
use oracle::stream::Case;
use oracle::traced::STEPS;

use crate::both::{self, Asked, Lengths};
use crate::library::{ENTRIES, Entry};
use crate::lists::{self, Due, Given};
use crate::{damaged, traced};

/// How the entry is asked for the lists.
const ASKED: Asked = Asked {
    entry: Entry::IgnoringCase,
    limit: STEPS,
};

/// How often what was met, over all models.
#[derive(Default)]
pub struct Met {
    pub lists: lists::Met,
    /// Models that the second entry answers otherwise than the ported one.
    pub answered_otherwise: usize,
    /// Models in which all names that differ also differ folded.
    pub names_apart: usize,
}

impl Met {
    pub fn print(&self) {
        self.lists.print("ignoring case");
        println!(
            "both entries: {} models, {} answered otherwise by the second, {} with all names apart",
            self.lists.models, self.answered_otherwise, self.names_apart,
        );
    }

    /// All that there is to meet was met.
    pub fn is_whole(&self) -> bool {
        self.lists.is_whole() && self.answered_otherwise > 0 && self.names_apart > 0
    }
}

/// Holds the entry to the original on the model with all names in small letters.
pub fn compare(sheet: &Sheet, renames: Renames, met: &mut Met) -> Result<(), String> {
    let given = Given::of(sheet, ASKED, str::to_ascii_lowercase);
    let folded = folded(sheet);
    let traced = traced::expected(&folded);
    let due = lists::original(traced, &folded, renames, given.links.length());
    hold(&given, due, met)
}

/// Holds the entry to a text of it.
pub fn compare_text(case: &Case, met: &mut Met) -> Result<(), String> {
    let sheet = Sheet::accepted(&case.sheet).ok_or("not accepted")?;
    damaged::read_again(&case.sheet, &sheet)?;
    let given = Given::of(&sheet, ASKED, str::to_string);
    let due = lists::told(&case.text, given.links.length())?;
    hold(&given, Some(due), met)
}

/// The model with all names in small letters.
pub fn folded(sheet: &Sheet) -> Sheet {
    let mut sheet = sheet.clone();
    for name in &mut sheet.names {
        name.make_ascii_lowercase();
    }
    sheet
}

/// The entry gives what is due, and what the ported entry gives where both are to give one list.
fn hold(given: &Given, due: Option<Due>, met: &mut Met) -> Result<(), String> {
    given
        .hold(due, &mut met.lists)
        .and_then(|()| both_entries(given, met))
        .map_err(|what| format!("ignoring case: {what}"))
}

/// Counts whether the entries part, in outputs as conlist lends them. Where all names are apart they are alike.
fn both_entries(given: &Given, met: &mut Met) -> Result<(), String> {
    let alike = are_alike(given, Lengths::of(given.links.length(), 64))?;
    met.answered_otherwise += usize::from(!alike);
    if names_apart(given.sheet) {
        met.names_apart += 1;
        return are_alike_in_all(given);
    }
    Ok(())
}

/// The entries are alike in outputs as conlist lends them, in shorter and in longer ones.
pub fn are_alike_in_all(given: &Given) -> Result<(), String> {
    let full = given.links.length();
    for (links, rows) in [
        (full, 64),
        (full, 3),
        (full + 1, 0),
        (full + 1000, 2048),
        (full - 1, 64),
    ] {
        if !are_alike(given, Lengths::of(links, rows))? {
            return Err("all names are apart, and the entries part".to_string());
        }
    }
    Ok(())
}

/// Both entries tell the same and leave the same, in outputs of these lengths.
fn are_alike(given: &Given, lengths: Lengths) -> Result<bool, String> {
    let limit = given.asked.limit;
    let [ported, second] =
        ENTRIES.map(|entry| both::call(&given.tables, Asked { entry, limit }, lengths));
    ported?.is_as(&second?)
}

/// Whether all names that differ also differ folded.
pub fn names_apart(sheet: &Sheet) -> bool {
    let names: HashSet<&String> = sheet.names.iter().collect();
    let folded: HashSet<String> = names.iter().map(|name| name.to_ascii_lowercase()).collect();
    names.len() == folded.len()
}
