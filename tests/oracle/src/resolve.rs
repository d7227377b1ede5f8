//! The original's `resolve_classifier` on every reference of a sheet.
//!
//! `conlist` shows little of it: an implementation that is found, for one,
//! prints like nothing found.

use spar_hir_def::name::ClassifierRef;
use spar_hir_def::resolver::ResolvedClassifier;

use crate::letters::{Sheet, component, declared_feature, group_type, package, reference};
use crate::model::{self, FeatureNames, Renames};

/// What a reference resolves to.
#[derive(Clone, Copy, Debug, PartialEq, Eq)]
pub enum Found {
    Nothing,
    Type(u32),
    Implementation(u32),
    GroupType(u32),
}

/// A reference of the sheet, asked from one of its packages.
#[derive(Clone, Debug, PartialEq, Eq)]
pub struct Resolution {
    /// Name number of the asking package.
    pub asking: u32,
    /// Where the reference stands: letter, row, and 0 for extends, 1 for
    /// inverse_of, 2 for a classifier or a component's type.
    pub letter: u8,
    pub row: usize,
    pub place: u32,
    pub found: Found,
}

/// Every reference of the U and E rows and every component's type, asked from
/// every package that a P or C row names.
pub fn resolutions(sheet: &Sheet, renames: Renames) -> Vec<Resolution> {
    let scope = model::scope(sheet, FeatureNames::OfTheSheet, renames);
    let mut resolutions = Vec::new();
    for asking in asking_packages(sheet) {
        let from = model::name(sheet, Some(asking));
        for (letter, row, place, reference) in references(sheet) {
            resolutions.push(Resolution {
                asking,
                letter,
                row,
                place,
                found: found(&scope.resolve_classifier(&from, &reference)),
            });
        }
    }
    resolutions
}

fn found(resolved: &ResolvedClassifier) -> Found {
    match resolved {
        ResolvedClassifier::Unresolved => Found::Nothing,
        ResolvedClassifier::ComponentType { loc, .. } => Found::Type(loc.raw_idx),
        ResolvedClassifier::ComponentImpl { loc, .. } => Found::Implementation(loc.raw_idx),
        ResolvedClassifier::FeatureGroupType { loc, .. } => Found::GroupType(loc.raw_idx),
    }
}

fn asking_packages(sheet: &Sheet) -> Vec<u32> {
    let packages = sheet.packages.iter();
    let packages = packages.filter_map(|fields| fields[package::NAME]);
    let of_components = sheet.components.iter();
    let of_components = of_components.filter_map(|fields| fields[component::PACKAGE]);
    let mut asking: Vec<u32> = packages.chain(of_components).collect();
    asking.sort_unstable();
    asking.dedup();
    asking
}

fn references(sheet: &Sheet) -> Vec<(u8, usize, u32, ClassifierRef)> {
    let mut references = Vec::new();
    let mut add = |letter, row, place, reference| {
        if let Some(reference) = model::classifier_ref(sheet, reference) {
            references.push((letter, row, place, reference));
        }
    };
    for (row, fields) in sheet.group_types.iter().enumerate() {
        add(b'U', row, 0, reference(fields, group_type::EXTENDS_PACKAGE));
        add(b'U', row, 1, reference(fields, group_type::INVERSE_PACKAGE));
    }
    for (row, fields) in sheet.declared_features.iter().enumerate() {
        let classifier = reference(fields, declared_feature::CLASSIFIER_PACKAGE);
        add(b'E', row, 2, classifier);
    }
    for (row, fields) in sheet.components.iter().enumerate() {
        let own_type = [fields[component::PACKAGE], fields[component::TYPE], None];
        add(b'C', row, 2, own_type);
    }
    references
}
