//! An instrumented COPY of the original `feature_group.rs`, to count visits.
//!
//! It differs from the original in this comment, in its paths (`spar_hir_def::`
//! for `crate::`), in taking `ExpandedFeature` from the original, and in the
//! lines marked COUNT. A test holds the two files against each other.

use std::cell::Cell; // COUNT

use spar_hir_def::feature_group::ExpandedFeature; // COUNT
use spar_hir_def::item_tree::{Direction, FeatureKind};
use spar_hir_def::name::{ClassifierRef, Name};
use spar_hir_def::resolver::{GlobalScope, ResolvedClassifier};

thread_local! { // COUNT
    static VISITS: Cell<u64> = const { Cell::new(0) }; // COUNT
    static MOST: Cell<u64> = const { Cell::new(0) }; // COUNT
} // COUNT

/// The visits and features of a group's expansion, which stops after one visit more than `most`.
pub fn count(scope: &GlobalScope, package: &Name, group: &Name, most: u64) -> (u64, u64) { // COUNT
    VISITS.set(0); // COUNT
    MOST.set(most); // COUNT
    let features = expand_feature_group(scope, package, group, false).len() as u64; // COUNT
    (VISITS.get(), features) // COUNT
} // COUNT

/// Expand a feature group type into its individual features.
///
/// If `is_inverse` is true, all In/Out directions are flipped (InOut stays).
/// Handles nested feature groups recursively with a depth limit.
pub fn expand_feature_group(
    scope: &GlobalScope,
    package: &Name,
    fg_name: &Name,
    is_inverse: bool,
) -> Vec<ExpandedFeature> {
    // Build a ClassifierRef for the feature group type name (unqualified,
    // within the given package).
    let class_ref = ClassifierRef::type_only(fg_name.clone());
    expand_from_ref(scope, package, &class_ref, is_inverse, None, 0)
}

/// Maximum recursion depth for nested feature groups.
const MAX_DEPTH: usize = 10;

/// Core recursive expansion.
fn expand_from_ref(
    scope: &GlobalScope,
    package: &Name,
    class_ref: &ClassifierRef,
    is_inverse: bool,
    prefix: Option<&Name>,
    depth: usize,
) -> Vec<ExpandedFeature> {
    VISITS.set(VISITS.get() + 1); // COUNT
    if VISITS.get() > MOST.get() { return Vec::new(); } // COUNT
    if depth > MAX_DEPTH {
        return Vec::new();
    }

    // Resolve the classifier to find the feature group type.
    let resolved = scope.resolve_classifier(package, class_ref);
    let (pkg_name, loc) = match &resolved {
        ResolvedClassifier::FeatureGroupType { package, loc } => (package.clone(), *loc),
        _ => return Vec::new(),
    };

    let fgt = match scope.get_feature_group_type(loc) {
        Some(fgt) => fgt,
        None => return Vec::new(),
    };

    // If this feature group type is defined as `inverse of AnotherFGT`,
    // delegate to the referenced type with the inverse flag toggled.
    if let Some(inv_ref) = &fgt.inverse_of {
        return expand_from_ref(scope, &pkg_name, inv_ref, !is_inverse, prefix, depth + 1);
    }

    // Handle extends: collect parent features first (grandparent → parent → self).
    let mut result = Vec::new();
    if let Some(ext_ref) = &fgt.extends {
        let parent_features =
            expand_from_ref(scope, &pkg_name, ext_ref, is_inverse, prefix, depth + 1);
        result.extend(parent_features);
    }

    // Collect the feature indices we need before accessing them,
    // since we need the tree for feature lookup.
    let feat_indices: Vec<_> = fgt.features.clone();
    for &feat_idx in &feat_indices {
        let feat = match scope.get_feature(loc.tree, feat_idx) {
            Some(f) => f,
            None => continue,
        };

        if feat.kind == FeatureKind::FeatureGroup {
            // Nested feature group — recurse if there is a classifier reference.
            let nested_prefix = make_prefix(prefix, &feat.name);
            if let Some(nested_ref) = &feat.classifier {
                let nested = expand_from_ref(
                    scope,
                    &pkg_name,
                    nested_ref,
                    is_inverse,
                    Some(&nested_prefix),
                    depth + 1,
                );
                result.extend(nested);
            } else {
                // Feature group without a classifier — emit it as-is.
                result.push(ExpandedFeature {
                    name: feat.name.clone(),
                    kind: feat.kind,
                    direction: maybe_flip(feat.direction, is_inverse),
                    group_prefix: prefix.cloned(),
                });
            }
        } else {
            result.push(ExpandedFeature {
                name: feat.name.clone(),
                kind: feat.kind,
                direction: maybe_flip(feat.direction, is_inverse),
                group_prefix: prefix.cloned(),
            });
        }
    }

    result
}

/// Build a dotted prefix name: `existing_prefix.name` or just `name`.
fn make_prefix(existing: Option<&Name>, name: &Name) -> Name {
    match existing {
        Some(p) => Name::new(&format!("{}.{}", p.as_str(), name.as_str())),
        None => name.clone(),
    }
}

/// Optionally flip a direction when `is_inverse` is true.
fn maybe_flip(dir: Option<Direction>, is_inverse: bool) -> Option<Direction> {
    match (dir, is_inverse) {
        (Some(d), true) => Some(flip_direction(d)),
        (d, _) => d,
    }
}

/// Flip a direction: In becomes Out, Out becomes In, InOut stays InOut.
pub fn flip_direction(dir: Direction) -> Direction {
    match dir {
        Direction::In => Direction::Out,
        Direction::Out => Direction::In,
        Direction::InOut => Direction::InOut,
    }
}

// ── Tests ──────────────────────────────────────────────────────────

