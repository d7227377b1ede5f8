//! Seeded sheets for comparing readers and listings: the same seed gives the
//! same sheet, as long as the sheet has this form.
//!
//! Accepted sheets are dense in what the rules of documents 01 and 02 are about;
//! damaged sheets earn every refusal that a sheet can reach.

mod accepted;
mod damaged;
mod draft;
mod groups;
mod indices;
mod modes;
mod places;
mod random;
mod resolving;
mod sizes;
mod tracing;

use oracle::stream::Case;

/// Which sheets to make.
#[derive(Clone, Copy, Debug, PartialEq, Eq)]
pub enum Sort {
    /// Accepted, with names that the original keeps apart as document 01 does.
    Accepted,
    /// Accepted, with names that the original's text form of a rename loses.
    Wild,
    /// Accepted, all of them with modes and little else.
    Modal,
    /// Refused: most as sheets, some by their listings.
    Damaged,
}

/// The sheet of a seed, as a case without a text.
pub fn case(sort: Sort, seed: u64) -> Case {
    let (sheet, label) = match sort {
        Sort::Accepted => {
            let (sheet, profile) = accepted::accepted(seed, sort);
            (sheet, format!("accepted {seed} {profile}"))
        }
        Sort::Wild => {
            let (sheet, profile) = accepted::accepted(seed, sort);
            (sheet, format!("wild {seed} {profile}"))
        }
        Sort::Modal => {
            let (sheet, profile) = accepted::accepted(seed, sort);
            (sheet, format!("modal {seed} {profile}"))
        }
        Sort::Damaged => {
            let (sheet, damage) = damaged::damaged(seed);
            (sheet, format!("damaged {seed} {damage}"))
        }
    };
    Case {
        label,
        sheet,
        text: Vec::new(),
    }
}
