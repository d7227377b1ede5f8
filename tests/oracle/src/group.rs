//! The group listing: the original's `expand_feature_group_connections`.

use std::collections::HashMap;

use spar_hir_def::feature_group::ExpandedFeature;
use spar_hir_def::instance::{InstanceDiagnostic, SystemInstance};
use spar_hir_def::name::Name;
use spar_hir_def::resolver::GlobalScope;

use crate::endpoint::{self, AskedGroup, Endpoint};
use crate::letters::{Sheet, connection, declared_feature};
use crate::listing::{Diagnostic, Listing};
use crate::model::{self, FeatureNames, Renames};
use crate::traced;

/// Runs the original on an instance that it has traced before. What comes to
/// its rows and diagnostics is the listing.
pub fn run(sheet: &Sheet, renames: Renames, instance: &mut SystemInstance) -> Listing {
    let scope = model::scope(sheet, FeatureNames::OfTheSheet, renames);
    let rows = instance.semantic_connections.len();
    let diagnostics = instance.diagnostics.len();
    instance.expand_feature_group_connections(&scope);
    let rows = instance.semantic_connections[rows..].iter();
    Listing {
        rows: rows.map(traced::row).collect(),
        diagnostics: numbered(sheet, renames, &scope, &instance.diagnostics[diagnostics..]),
    }
}

/// The original does not number its diagnostics. All are code 5, and they stand
/// in the order of the X rows and of each one's source features, so the source
/// features without a match, counted in that order, give the numbers.
fn numbered(
    sheet: &Sheet,
    renames: Renames,
    scope: &GlobalScope,
    given: &[InstanceDiagnostic],
) -> Vec<Diagnostic> {
    if given.is_empty() {
        return Vec::new();
    }
    let by_row = model::scope(sheet, FeatureNames::Rows, renames);
    let mut unmatched = Vec::new();
    for pair in endpoint::endpoints(sheet, scope).chunks(2) {
        let (Some(source), Some(destination)) = (&pair[0].asked, &pair[1].asked) else {
            continue;
        };
        for row in unmatched_rows(scope, &by_row, source, destination) {
            let feature = sheet.declared_features[row][declared_feature::NAME];
            unmatched.push((pair[0].connection, feature));
        }
    }
    assert_eq!(unmatched.len(), given.len());
    let pairs = given.iter().zip(unmatched);
    pairs
        .map(|(own, (connection, feature))| {
            let message = format!(
                "feature group connection '{}': source feature '{}' has no matching destination feature (STPA-REQ-011)",
                sheet.name(sheet.connections[connection][connection::NAME]),
                sheet.name(feature),
            );
            assert_eq!(own.message, message);
            let feature = feature.expect("a name number");
            traced::diagnostic([5, connection as u32, feature, 0], own)
        })
        .collect()
}

/// The E rows of the source's features that no feature of the destination matches.
fn unmatched_rows(
    scope: &GlobalScope,
    by_row: &GlobalScope,
    source: &AskedGroup,
    destination: &AskedGroup,
) -> Vec<usize> {
    let first = first_by_name(destination.expand(scope));
    let features = source.expand(scope);
    let rows = endpoint::declared_rows(source, by_row);
    assert_eq!(features.len(), rows.len());
    let pairs = features.iter().zip(rows);
    pairs
        .filter(|(feature, _)| !first.contains_key(&folded(feature)))
        .map(|(_, row)| row)
        .collect()
}

fn folded(feature: &ExpandedFeature) -> String {
    feature.name.as_str().to_ascii_lowercase()
}

/// The first feature of each folded name.
fn first_by_name(features: Vec<ExpandedFeature>) -> HashMap<String, ExpandedFeature> {
    let mut first = HashMap::new();
    for feature in features {
        first.entry(folded(&feature)).or_insert(feature);
    }
    first
}

/// How much a group listing would hold.
#[derive(Clone, Copy, Debug, Default, PartialEq, Eq)]
pub struct Size {
    pub rows: usize,
    pub composed_bytes: usize,
    pub diagnostics: usize,
}

/// The size of the listing, without the listing: the original's expansions,
/// matched through a map instead of feature by feature. For pairs of groups
/// with thousands of features each, which the original is long at.
pub fn size(sheet: &Sheet, renames: Renames) -> Size {
    let scope = model::scope(sheet, FeatureNames::OfTheSheet, renames);
    let mut size = Size::default();
    for pair in endpoint::endpoints(sheet, &scope).chunks(2) {
        let row = &sheet.connections[pair[0].connection];
        let connection = sheet.name(row[connection::NAME]);
        add_pair(&mut size, &scope, connection, &pair[0], &pair[1]);
    }
    size
}

fn add_pair(
    size: &mut Size,
    scope: &GlobalScope,
    connection: &str,
    source: &Endpoint,
    destination: &Endpoint,
) {
    let (Some(source_group), Some(destination_group)) = (&source.asked, &destination.asked) else {
        return;
    };
    let first = first_by_name(destination_group.expand(scope));
    for feature in source_group.expand(scope) {
        let Some(matching) = first.get(&folded(&feature)) else {
            size.diagnostics += 1;
            continue;
        };
        size.rows += 1;
        size.composed_bytes += connection.len() + 1 + feature.name.as_str().len();
        size.composed_bytes += full_name_bytes(&source.feature, &feature);
        size.composed_bytes += full_name_bytes(&destination.feature, matching);
    }
}

/// The length of group.prefix.feature, or group.feature without a prefix.
fn full_name_bytes(group: &Name, feature: &ExpandedFeature) -> usize {
    let prefix = feature.group_prefix.as_ref();
    let prefix = prefix.map_or(0, |prefix| prefix.as_str().len() + 1);
    group.as_str().len() + 1 + prefix + feature.name.as_str().len()
}
