//! The endpoints of feature group connections: which group each one asks for,
//! how many visits and which features its expansion has.
//!
//! The original keeps its steps up to the expansion private, so they are
//! restated here. The group listing does not depend on this module, but for the
//! feature numbers of its diagnostics, and these are held against the
//! original's own messages.

use std::collections::HashMap;

use spar_hir_def::feature_group::{ExpandedFeature, expand_feature_group};
use spar_hir_def::item_tree::FeatureKind;
use spar_hir_def::name::{ClassifierRef, Name};
use spar_hir_def::resolver::{GlobalScope, ResolvedClassifier};

use crate::letters::{Field, Sheet, component, connection, ends, feature};
use crate::model::{self, FeatureNames, Renames};
use crate::traced::children_by_name;
use crate::visits;

/// An endpoint of a feature group connection whose two components are found.
pub struct Endpoint {
    pub connection: usize,
    /// 0 the source, 1 the destination.
    pub side: u32,
    /// The group's name in the X row.
    pub feature: Name,
    /// What `expand_endpoint_feature_group` asks for, unless it gives none.
    pub asked: Option<AskedGroup>,
}

/// A group as it is asked for: the asking package and the bare name.
#[derive(Clone, PartialEq, Eq, Hash)]
pub struct AskedGroup {
    pub package: Name,
    pub group: Name,
}

impl AskedGroup {
    pub fn expand(&self, scope: &GlobalScope) -> Vec<ExpandedFeature> {
        expand_feature_group(scope, &self.package, &self.group, false)
    }
}

/// The endpoints in the order of the X rows, the source before the destination.
pub fn endpoints(sheet: &Sheet, scope: &GlobalScope) -> Vec<Endpoint> {
    let mut endpoints = Vec::new();
    for (connection, row) in sheet.connections.iter().enumerate() {
        let [src, src_feature, dst, dst_feature] = ends(row);
        let kind = row[connection::KIND];
        if kind != Some(2) || src_feature.is_none() || dst_feature.is_none() {
            continue;
        }
        let owner = row[connection::OWNER].expect("an owner");
        let components = (
            first_child_or_owner(sheet, owner, src),
            first_child_or_owner(sheet, owner, dst),
        );
        let (Some(source), Some(destination)) = components else {
            continue;
        };
        for (side, component, feature) in [(0, source, src_feature), (1, destination, dst_feature)]
        {
            endpoints.push(Endpoint {
                connection,
                side,
                feature: model::name(sheet, feature),
                asked: asked_group(sheet, scope, component, feature),
            });
        }
    }
    endpoints
}

fn first_child_or_owner(sheet: &Sheet, owner: u32, subcomponent: Field) -> Option<u32> {
    match subcomponent {
        None => Some(owner),
        Some(_) => children_by_name(sheet, owner, sheet.name(subcomponent))
            .first()
            .copied(),
    }
}

fn asked_group(
    sheet: &Sheet,
    scope: &GlobalScope,
    component: u32,
    feature: Field,
) -> Option<AskedGroup> {
    let wanted = sheet.name(feature);
    let is_group = sheet.features.iter().any(|row| {
        let same_name = sheet.name(row[feature::NAME]).eq_ignore_ascii_case(wanted);
        same_name && row[feature::OWNER] == Some(component) && row[feature::KIND] == Some(8)
    });
    if !is_group {
        return None;
    }
    let row = &sheet.components[component as usize];
    let package = model::name(sheet, row[component::PACKAGE]);
    let type_name = model::name(sheet, row[component::TYPE]);
    let type_ref = ClassifierRef::qualified(package.clone(), type_name);
    let ResolvedClassifier::ComponentType { loc, .. } =
        scope.resolve_classifier(&package, &type_ref)
    else {
        return None;
    };
    let component_type = scope.get_component_type(loc)?;
    let declared = component_type
        .features
        .iter()
        .filter_map(|&index| scope.get_feature(loc.tree, index));
    let group = declared
        .filter(|declared| declared.kind == FeatureKind::FeatureGroup)
        .find(|declared| declared.name.as_str().eq_ignore_ascii_case(wanted))?;
    let classifier = group.classifier.as_ref()?;
    Some(AskedGroup {
        package: classifier.package.clone().unwrap_or(package),
        group: classifier.type_name.clone(),
    })
}

/// The cost of an endpoint's expansion.
#[derive(Clone, Copy, Debug, PartialEq, Eq)]
pub struct Count {
    pub connection: usize,
    pub side: u32,
    pub visits: u64,
    pub features: u64,
}

/// Visits and features of every endpoint; 0 and 0 where it gives none. An
/// expansion stops, and its features do not count, after one visit more than
/// `most`.
pub fn counts(sheet: &Sheet, renames: Renames, most: u64) -> Vec<Count> {
    let scope = model::scope(sheet, FeatureNames::OfTheSheet, renames);
    // Many endpoints of a sheet ask for the same group.
    let mut known = HashMap::new();
    let count = |endpoint: Endpoint| {
        let (visits, features) = match endpoint.asked {
            None => (0, 0),
            Some(asked) => *known.entry(asked).or_insert_with_key(|asked| {
                visits::count(&scope, &asked.package, &asked.group, most)
            }),
        };
        Count {
            connection: endpoint.connection,
            side: endpoint.side,
            visits,
            features,
        }
    };
    let endpoints = endpoints(sheet, &scope);
    endpoints.into_iter().map(count).collect()
}

/// One feature of an endpoint's expansion.
#[derive(Clone, Debug, PartialEq, Eq)]
pub struct Expanded {
    pub connection: usize,
    pub side: u32,
    pub declared_feature: usize,
    /// 0 in, 1 out, 2 in and out.
    pub direction: Option<u32>,
    pub prefix: Option<String>,
}

/// The features of every endpoint, by the original's `expand_feature_group`.
pub fn expansions(sheet: &Sheet, renames: Renames) -> Vec<Expanded> {
    let scope = model::scope(sheet, FeatureNames::OfTheSheet, renames);
    let by_row = model::scope(sheet, FeatureNames::Rows, renames);
    let mut expansions = Vec::new();
    for endpoint in endpoints(sheet, &scope) {
        let Some(asked) = endpoint.asked else {
            continue;
        };
        let rows = declared_rows(&asked, &by_row);
        for (feature, declared_feature) in asked.expand(&scope).iter().zip(rows) {
            expansions.push(Expanded {
                connection: endpoint.connection,
                side: endpoint.side,
                declared_feature,
                direction: feature.direction.map(|direction| direction as u32),
                prefix: feature.group_prefix.as_ref().map(Name::to_string),
            });
        }
    }
    expansions
}

/// The E rows of a group's features, from a scope that calls them by their rows.
pub fn declared_rows(asked: &AskedGroup, by_row: &GlobalScope) -> Vec<usize> {
    let row_of = |feature: &ExpandedFeature| {
        let digits = feature.name.as_str().strip_prefix('e');
        digits.and_then(|digits| digits.parse().ok())
    };
    let rows = asked.expand(by_row);
    rows.iter()
        .map(|feature| row_of(feature).expect("a feature called by its row"))
        .collect()
}
