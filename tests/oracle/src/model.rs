//! The original's instance and scope, built from the tables of a sheet.
//!
//! A feature, connection, mode or import list is all rows that name the owner,
//! ascending; a child list has them in the order of their places. There is one
//! item tree, so an arena index is a row.

use std::sync::Arc;

use la_arena::{Arena, Idx, RawIdx};
use spar_hir_def::instance::{
    ComponentInstance, ConnectionEnd, ConnectionInstance, FeatureInstance, ModeInstance,
    SystemInstance,
};
use spar_hir_def::item_tree::{
    ComponentCategory, ComponentImplItem, ComponentTypeItem, ConnectionKind, Direction, Feature,
    FeatureGroupTypeItem, FeatureIdx, FeatureKind, ItemRef, ItemTree, Package, RenamesItem,
    RenamesKind,
};
use spar_hir_def::name::{ClassifierRef, Name};
use spar_hir_def::properties::PropertyMap;
use spar_hir_def::resolver::{CiName, GlobalScope};

use crate::letters::{
    Field, Reference, Sheet, array_index, component, component_type, connection, declared_feature,
    ends, feature, group_type, implementation, import, mode, package, reference, rename,
};

/// How the renames of classifiers and feature groups come into the scope.
#[derive(Clone, Copy, Debug, Default, PartialEq, Eq)]
pub enum Renames {
    /// As in the original: as the text `Pkg::Type`, which it takes apart again.
    #[default]
    Text,
    /// As the pair of names of the R row, put into the scope's maps.
    Exact,
}

/// What the declared features of group types are called in the scope.
#[derive(Clone, Copy, Debug, PartialEq, Eq)]
pub enum FeatureNames {
    /// As in the sheet.
    OfTheSheet,
    /// `e` and the E row, so that an expansion tells the rows it came from.
    /// Their names take no part in any resolution.
    Rows,
}

/// The index of a row.
pub fn index<T>(row: u32) -> Idx<T> {
    Idx::from_raw(RawIdx::from_u32(row))
}

/// The row of an index.
pub fn row<T>(index: Idx<T>) -> u32 {
    index.into_raw().into_u32()
}

/// The rows, ascending, of which this holds.
fn rows_where<T, R>(table: &[R], holds: impl Fn(&R) -> bool) -> Vec<Idx<T>> {
    let numbered = table.iter().zip(0..);
    let kept = numbered.filter(|(fields, _)| holds(fields));
    kept.map(|(_, row)| index(row)).collect()
}

pub fn name(sheet: &Sheet, field: Field) -> Name {
    Name::new(sheet.name(field))
}

fn optional_name(sheet: &Sheet, field: Field) -> Option<Name> {
    field.map(|_| name(sheet, field))
}

fn feature_kind(field: Field) -> FeatureKind {
    match field {
        Some(0) => FeatureKind::DataPort,
        Some(1) => FeatureKind::EventPort,
        Some(2) => FeatureKind::EventDataPort,
        Some(3) => FeatureKind::Parameter,
        Some(4) => FeatureKind::DataAccess,
        Some(5) => FeatureKind::BusAccess,
        Some(6) => FeatureKind::SubprogramAccess,
        Some(7) => FeatureKind::SubprogramGroupAccess,
        Some(8) => FeatureKind::FeatureGroup,
        Some(9) => FeatureKind::AbstractFeature,
        _ => panic!("an accepted sheet has feature kinds 0 to 9"),
    }
}

fn connection_kind(field: Field) -> ConnectionKind {
    match field {
        Some(0) => ConnectionKind::Port,
        Some(1) => ConnectionKind::Access,
        Some(2) => ConnectionKind::FeatureGroup,
        Some(3) => ConnectionKind::Feature,
        Some(4) => ConnectionKind::Parameter,
        _ => panic!("an accepted sheet has connection kinds 0 to 4"),
    }
}

fn direction(number: u32) -> Direction {
    match number {
        0 => Direction::In,
        1 => Direction::Out,
        2 => Direction::InOut,
        _ => panic!("an accepted sheet has directions 0 to 2"),
    }
}

fn renames_kind(field: Field) -> RenamesKind {
    match field {
        Some(0) => RenamesKind::Package,
        Some(1) => RenamesKind::Classifier,
        Some(2) => RenamesKind::FeatureGroup,
        _ => panic!("an accepted sheet renames a package, a classifier or a feature group"),
    }
}

/// A reference, unless it is missing.
pub fn classifier_ref(sheet: &Sheet, reference: Reference) -> Option<ClassifierRef> {
    let [package, type_name, implementation] = reference;
    Some(ClassifierRef {
        package: optional_name(sheet, package),
        type_name: optional_name(sheet, type_name)?,
        impl_name: optional_name(sheet, implementation),
    })
}

/// The scope of the P, I, T, Q, U, E and R rows.
pub fn scope(sheet: &Sheet, feature_names: FeatureNames, renames: Renames) -> GlobalScope {
    let mut tree = ItemTree::default();
    add_declared_features(&mut tree, sheet, feature_names);
    add_component_types(&mut tree, sheet);
    add_component_implementations(&mut tree, sheet);
    add_group_types(&mut tree, sheet);
    add_renames(&mut tree, sheet);
    add_packages(&mut tree, sheet);
    let mut scope = GlobalScope::from_trees(vec![Arc::new(tree)]);
    assert!(scope.diagnostics.is_empty());
    if renames == Renames::Exact {
        put_exact_renames(&mut scope, sheet);
    }
    scope
}

fn add_declared_features(tree: &mut ItemTree, sheet: &Sheet, feature_names: FeatureNames) {
    for (row, fields) in sheet.declared_features.iter().enumerate() {
        let of_group_type = fields[declared_feature::HOLDER_KIND] == Some(1);
        let classifier = reference(fields, declared_feature::CLASSIFIER_PACKAGE);
        tree.features.alloc(Feature {
            name: if feature_names == FeatureNames::Rows && of_group_type {
                Name::new(&format!("e{row}"))
            } else {
                name(sheet, fields[declared_feature::NAME])
            },
            kind: feature_kind(fields[declared_feature::KIND]),
            direction: fields[declared_feature::DIRECTION].map(direction),
            access_kind: None,
            classifier: classifier_ref(sheet, classifier),
            is_refined: false,
            array_dimensions: vec![],
            property_associations: vec![],
        });
    }
}

/// The features that a T row (holder kind 0) or U row (holder kind 1) declares.
fn held_features(sheet: &Sheet, holder_kind: u32, holder: usize) -> Vec<FeatureIdx> {
    rows_where(&sheet.declared_features, |fields| {
        fields[declared_feature::HOLDER_KIND] == Some(holder_kind)
            && fields[declared_feature::HOLDER] == Some(holder as u32)
    })
}

fn add_component_types(tree: &mut ItemTree, sheet: &Sheet) {
    for (row, fields) in sheet.types.iter().enumerate() {
        tree.component_types.alloc(ComponentTypeItem {
            name: name(sheet, fields[component_type::NAME]),
            category: ComponentCategory::System,
            is_public: fields[component_type::PRIVATE] == Some(0),
            extends: None,
            features: held_features(sheet, 0, row),
            flow_specs: vec![],
            modes: vec![],
            mode_transitions: vec![],
            prototypes: vec![],
            property_associations: vec![],
            requires_modes: false,
            emv2: vec![],
        });
    }
}

fn add_component_implementations(tree: &mut ItemTree, sheet: &Sheet) {
    for fields in &sheet.implementations {
        tree.component_impls.alloc(ComponentImplItem {
            type_name: name(sheet, fields[implementation::TYPE]),
            impl_name: name(sheet, fields[implementation::NAME]),
            category: ComponentCategory::System,
            is_public: fields[implementation::PRIVATE] == Some(0),
            extends: None,
            subcomponents: vec![],
            connections: vec![],
            end_to_end_flows: vec![],
            flow_impls: vec![],
            modes: vec![],
            mode_transitions: vec![],
            prototypes: vec![],
            call_sequences: vec![],
            property_associations: vec![],
            requires_modes: false,
            emv2: vec![],
        });
    }
}

fn add_group_types(tree: &mut ItemTree, sheet: &Sheet) {
    for (row, fields) in sheet.group_types.iter().enumerate() {
        let extends = reference(fields, group_type::EXTENDS_PACKAGE);
        let inverse_of = reference(fields, group_type::INVERSE_PACKAGE);
        tree.feature_group_types.alloc(FeatureGroupTypeItem {
            name: name(sheet, fields[group_type::NAME]),
            is_public: fields[group_type::PRIVATE] == Some(0),
            extends: classifier_ref(sheet, extends),
            inverse_of: classifier_ref(sheet, inverse_of),
            features: held_features(sheet, 1, row),
            prototypes: vec![],
        });
    }
}

fn add_renames(tree: &mut ItemTree, sheet: &Sheet) {
    for fields in &sheet.renames {
        let package = name(sheet, fields[rename::ORIGINAL_PACKAGE]);
        tree.renames.alloc(RenamesItem {
            alias: name(sheet, fields[rename::ALIAS]),
            original: match optional_name(sheet, fields[rename::ORIGINAL_NAME]) {
                None => package,
                Some(original) => Name::new(&format!("{package}::{original}")),
            },
            kind: renames_kind(fields[rename::WHAT]),
        });
    }
}

fn add_packages(tree: &mut ItemTree, sheet: &Sheet) {
    for (row, fields) in sheet.packages.iter().enumerate() {
        let own = Some(row as u32);
        let imports = sheet.imports.iter();
        let imports = imports.filter(|fields| fields[import::PACKAGE] == own);
        tree.packages.alloc(Package {
            name: name(sheet, fields[package::NAME]),
            with_clauses: imports
                .map(|fields| name(sheet, fields[import::NAME]))
                .collect(),
            public_items: items(sheet, own, Some(0)),
            private_items: items(sheet, own, Some(1)),
            renames: rows_where(&sheet.renames, |fields| fields[rename::PACKAGE] == own),
        });
    }
}

/// The items of a package that are all public (private 0) or all private (1).
fn items(sheet: &Sheet, package: Field, private: Field) -> Vec<ItemRef> {
    let types = rows_where(&sheet.types, |fields| {
        fields[component_type::PACKAGE] == package && fields[component_type::PRIVATE] == private
    });
    let implementations = rows_where(&sheet.implementations, |fields| {
        fields[implementation::PACKAGE] == package && fields[implementation::PRIVATE] == private
    });
    let group_types = rows_where(&sheet.group_types, |fields| {
        fields[group_type::PACKAGE] == package && fields[group_type::PRIVATE] == private
    });
    let types = types.into_iter().map(ItemRef::ComponentType);
    let implementations = implementations.into_iter().map(ItemRef::ComponentImpl);
    let group_types = group_types.into_iter().map(ItemRef::FeatureGroupType);
    types.chain(implementations).chain(group_types).collect()
}

/// Replaces what the original made of the renames' text by the pair of the R row.
fn put_exact_renames(scope: &mut GlobalScope, sheet: &Sheet) {
    for fields in &sheet.renames {
        let Some(original) = optional_name(sheet, fields[rename::ORIGINAL_NAME]) else {
            continue;
        };
        let package = fields[rename::PACKAGE].expect("a P row") as usize;
        let package = sheet.packages[package][package::NAME];
        let package_scope = scope
            .packages
            .get_mut(&CiName::new(&name(sheet, package)))
            .expect("every P row is in the scope");
        let renames = match fields[rename::WHAT] {
            Some(1) => &mut package_scope.classifier_renames,
            _ => &mut package_scope.feature_group_renames,
        };
        renames.insert(
            CiName::new(&name(sheet, fields[rename::ALIAS])),
            (name(sheet, fields[rename::ORIGINAL_PACKAGE]), original),
        );
    }
}

/// The instance of the C, F, X and M rows.
pub fn instance(sheet: &Sheet) -> SystemInstance {
    instance_with(sheet, |_| true)
}

/// The instance with one X row only, which is its connection 0.
pub fn instance_with_connection(sheet: &Sheet, connection: usize) -> SystemInstance {
    instance_with(sheet, |row| row == connection)
}

fn instance_with(sheet: &Sheet, keep: impl Fn(usize) -> bool) -> SystemInstance {
    let connections: Vec<Connection> = sheet
        .connections
        .iter()
        .enumerate()
        .filter(|(row, _)| keep(*row))
        .map(|(_, fields)| *fields)
        .collect();
    let mut instance = empty_instance();
    for row in 0..sheet.components.len() {
        add_component(&mut instance, sheet, row, &connections);
    }
    for fields in &sheet.features {
        instance.features.alloc(FeatureInstance {
            name: name(sheet, fields[feature::NAME]),
            kind: feature_kind(fields[feature::KIND]),
            direction: None,
            owner: index(fields[feature::OWNER].expect("an owner")),
            classifier: None,
            access_kind: None,
            array_index: None,
            data_size_bytes: None,
        });
    }
    for fields in &connections {
        let [src, src_feature, dst, dst_feature] = ends(fields);
        instance.connections.alloc(ConnectionInstance {
            name: name(sheet, fields[connection::NAME]),
            kind: connection_kind(fields[connection::KIND]),
            is_bidirectional: false,
            owner: index(fields[connection::OWNER].expect("an owner")),
            src: connection_end(sheet, src, src_feature),
            dst: connection_end(sheet, dst, dst_feature),
            in_modes: vec![],
        });
    }
    for fields in &sheet.modes {
        instance.mode_instances.alloc(ModeInstance {
            name: name(sheet, fields[mode::NAME]),
            is_initial: fields[mode::INITIAL] == Some(1),
            owner: index(fields[mode::OWNER].expect("an owner")),
        });
    }
    instance
}

/// An X row.
type Connection = [Field; connection::NUMBERS];

fn empty_instance() -> SystemInstance {
    SystemInstance {
        root: index(0),
        components: Arena::default(),
        features: Arena::default(),
        connections: Arena::default(),
        flow_instances: Arena::default(),
        end_to_end_flows: Arena::default(),
        mode_instances: Arena::default(),
        mode_transition_instances: Arena::default(),
        diagnostics: vec![],
        property_maps: Default::default(),
        feature_property_maps: Default::default(),
        connection_property_maps: Default::default(),
        emv2_models: Default::default(),
        semantic_connections: vec![],
        system_operation_modes: vec![],
    }
}

fn add_component(
    instance: &mut SystemInstance,
    sheet: &Sheet,
    row: usize,
    connections: &[Connection],
) {
    let fields = &sheet.components[row];
    let own = Some(row as u32);
    let children = sheet.children(row as u32);
    let added = instance.components.alloc(ComponentInstance {
        name: name(sheet, fields[component::NAME]),
        category: ComponentCategory::System,
        type_name: name(sheet, fields[component::TYPE]),
        impl_name: None,
        package: name(sheet, fields[component::PACKAGE]),
        parent: fields[component::PARENT].map(index),
        children: children.into_iter().map(index).collect(),
        features: rows_where(&sheet.features, |other| other[feature::OWNER] == own),
        connections: rows_where(connections, |other| other[connection::OWNER] == own),
        flows: vec![],
        modes: rows_where(&sheet.modes, |other| other[mode::OWNER] == own),
        mode_transitions: vec![],
        array_index: array_index(fields),
        in_modes: vec![],
    });
    let pattern = fields[component::PATTERN];
    if pattern.is_some() {
        let mut properties = PropertyMap::new();
        properties.put("", "Connection_Pattern", sheet.name(pattern));
        instance.property_maps.insert(added, properties);
    }
}

fn connection_end(sheet: &Sheet, subcomponent: Field, feature: Field) -> Option<ConnectionEnd> {
    feature.map(|_| ConnectionEnd {
        subcomponent: optional_name(sheet, subcomponent),
        feature: name(sheet, feature),
    })
}
