//! What the places of children decide: whether the original lists otherwise
//! where children come in the order of their rows.

use spar_hir_def::instance::SystemInstance;
use spar_hir_def::name::Name;

use crate::letters::{Sheet, component};
use crate::model::{self, FeatureNames, Renames};
use crate::traced;
use crate::{MOST_ROWS, group_listing_ends};

/// Whether some component has children whose places are not in the order of their rows.
pub fn part_from_rows(sheet: &Sheet) -> bool {
    let mut owners = 0..sheet.components.len() as u32;
    owners.any(|owner| !sheet.children(owner).is_sorted())
}

/// The sheet with each component's row as its place.
pub fn by_row(sheet: &Sheet) -> Sheet {
    let mut sheet = sheet.clone();
    for (fields, row) in sheet.components.iter_mut().zip(0..) {
        fields[component::PLACE] = Some(row);
    }
    sheet
}

/// Whether the original gives other rows or diagnostics, or another order of
/// them, than with children in the order of their rows. A listing that cannot
/// be waited for gives none.
pub fn decide(sheet: &Sheet, renames: Renames) -> bool {
    part_from_rows(sheet) && {
        let (listed, by_row) = (listed(sheet, renames), listed(&by_row(sheet), renames));
        listed.semantic_connections != by_row.semantic_connections
            || diagnostics(&listed) != diagnostics(&by_row)
    }
}

/// The original's instance behind both listings.
fn listed(sheet: &Sheet, renames: Renames) -> SystemInstance {
    let mut instance = model::instance(sheet);
    if traced::row_count(sheet, traced::STEPS) <= MOST_ROWS {
        instance.compute_semantic_connections();
    }
    if group_listing_ends(sheet, renames).is_ok() {
        let scope = model::scope(sheet, FeatureNames::OfTheSheet, renames);
        instance.expand_feature_group_connections(&scope);
    }
    instance
}

fn diagnostics(instance: &SystemInstance) -> Vec<(&str, &[Name])> {
    let given = instance.diagnostics.iter();
    given
        .map(|own| (own.message.as_str(), own.path.as_slice()))
        .collect()
}
