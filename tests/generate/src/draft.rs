//! A sheet in the making. Everything added keeps it accepted: rows are only
//! added where there is room, and only under keys that are still free.

use oracle::letters::{
    Field, Reference, Sheet, component, component_type, connection, declared_feature, feature,
    group_type, implementation, import, mode, package, rename,
};
use oracle::sheet::{NAME_ROWS, TABLE_ROWS};

use crate::random::Random;

pub const NO_REFERENCE: Reference = [None; 3];

/// The kind of a feature group among the feature kinds.
pub const FEATURE_GROUP: u32 = 8;

/// The kind of a feature group connection among the connection kinds.
pub const GROUP_CONNECTION: u32 = 2;

/// Makes another seed of a seed, which no sheet has.
const MODES: u64 = u64::MAX / 3;

/// What holds a declared feature.
#[derive(Clone, Copy)]
pub enum Holder {
    Type(u32),
    GroupType(u32),
}

pub struct Draft {
    pub random: Random,
    /// The choices of modes, so that all else in a sheet is what it would be without them.
    pub mode_random: Random,
    pub sheet: Sheet,
    /// Also names that the original's text form of a rename loses.
    pub wild: bool,
}

impl Draft {
    pub fn new(seed: u64, wild: bool) -> Self {
        Draft {
            random: Random::new(seed),
            mode_random: Random::new(seed ^ MODES),
            sheet: Sheet::default(),
            wild,
        }
    }

    /// The number of a name. Mostly one that it has, sometimes a second one.
    pub fn name(&mut self, text: &str) -> Field {
        let names = self.sheet.names.iter().zip(0..);
        let numbers: Vec<u32> = names
            .filter(|(name, _)| *name == text)
            .map(|(_, number)| number)
            .collect();
        let used = self.sheet.names.len();
        if used == NAME_ROWS && numbers.is_empty() {
            return Some(self.random.below(NAME_ROWS) as u32);
        }
        if !numbers.is_empty() && (used + 6 >= NAME_ROWS || self.random.chance(93)) {
            return Some(self.random.pick(&numbers));
        }
        self.sheet.names.push(text.to_string());
        Some(used as u32)
    }

    /// The number of a name, with so many chances in a hundred in another spelling.
    pub fn spelled(&mut self, text: &str, percent: usize) -> Field {
        if !self.random.chance(percent) {
            return self.name(text);
        }
        let other: String = text
            .chars()
            .map(|letter| match self.random.chance(50) {
                true => letter.to_ascii_uppercase(),
                false => letter.to_ascii_lowercase(),
            })
            .collect();
        self.name(&other)
    }

    /// The text of a name number.
    pub fn text(&self, name: Field) -> String {
        self.sheet.name(name).to_string()
    }

    fn equal_folded(&self, one: Field, other: Field) -> bool {
        let (one, other) = (self.sheet.name(one), self.sheet.name(other));
        one.eq_ignore_ascii_case(other)
    }

    /// Adds a component. Its package, type and place are chosen at the end, and
    /// where it has an array index, mostly another one.
    pub fn component(&mut self, name: Field, parent: Field, array_index: Field) -> u32 {
        let row = self.sheet.components.len();
        if row == TABLE_ROWS {
            return (row - 1) as u32;
        }
        self.sheet.components.push(component::row([
            (component::NAME, name),
            (component::PARENT, parent),
            (component::ARRAY_INDEX, array_index),
            (component::PACKAGE, None),
            (component::TYPE, None),
        ]));
        row as u32
    }

    /// Adds a sibling of a component that is alike but for its place and the number of its array index: a connection that finds the one
    /// finds both.
    pub fn namesake(&mut self, component: u32) -> u32 {
        let row = self.sheet.components.len();
        if row == TABLE_ROWS {
            return component;
        }
        let fields = self.sheet.components[component as usize];
        self.sheet.components.push(fields);
        row as u32
    }

    /// The root, added if it is not there yet.
    pub fn root(&mut self) -> u32 {
        if self.sheet.components.is_empty() {
            let name = self.name("root");
            self.component(name, None, None);
        }
        0
    }

    pub fn component_name(&self, component: u32) -> String {
        self.text(self.sheet.components[component as usize][component::NAME])
    }

    pub fn place(&self, component: u32) -> u32 {
        self.sheet.components[component as usize][component::PLACE].expect("a place")
    }

    pub fn set_place(&mut self, component: u32, place: u32) {
        self.sheet.components[component as usize][component::PLACE] = Some(place);
    }

    pub fn set_classifier(&mut self, component: u32, package: Field, type_name: Field) {
        let fields = &mut self.sheet.components[component as usize];
        fields[component::PACKAGE] = package;
        fields[component::TYPE] = type_name;
    }

    pub fn set_pattern(&mut self, component: u32, pattern: &str) {
        let name = self.name(pattern);
        self.sheet.components[component as usize][component::PATTERN] = name;
    }

    pub fn feature(&mut self, name: Field, owner: u32, kind: u32) {
        if self.sheet.features.len() < TABLE_ROWS {
            self.sheet.features.push(feature::row([
                (feature::NAME, name),
                (feature::OWNER, Some(owner)),
                (feature::KIND, Some(kind)),
            ]));
        }
    }

    /// Adds a connection between (subcomponent?, feature?) and the same.
    pub fn connection(&mut self, owner: u32, kind: u32, ends: [Field; 4]) {
        let row = self.sheet.connections.len();
        if row == TABLE_ROWS {
            return;
        }
        let name = match self.random.below(10) {
            0 => "c".to_string(),
            1 => "c it's".to_string(),
            _ => format!("c{row}"),
        };
        let name = self.name(&name);
        let [src, src_feature, dst, dst_feature] = ends;
        self.sheet.connections.push(connection::row([
            (connection::NAME, name),
            (connection::OWNER, Some(owner)),
            (connection::KIND, Some(kind)),
            (connection::SOURCE, src),
            (connection::SOURCE_FEATURE, src_feature),
            (connection::DESTINATION, dst),
            (connection::DESTINATION_FEATURE, dst_feature),
        ]));
    }

    pub fn package(&mut self, name: Field) -> Option<u32> {
        let packages = &self.sheet.packages;
        let taken = packages
            .iter()
            .any(|row| self.equal_folded(row[package::NAME], name));
        if taken || packages.len() == TABLE_ROWS {
            return None;
        }
        let fields = package::row([(package::NAME, name)]);
        self.sheet.packages.push(fields);
        Some(self.sheet.packages.len() as u32 - 1)
    }

    pub fn package_name(&self, package: u32) -> String {
        self.text(self.sheet.packages[package as usize][package::NAME])
    }

    pub fn import(&mut self, package: u32, name: Field) {
        if self.sheet.imports.len() < TABLE_ROWS {
            self.sheet.imports.push(import::row([
                (import::PACKAGE, Some(package)),
                (import::NAME, name),
            ]));
        }
    }

    pub fn component_type(&mut self, package: u32, name: Field, private: bool) -> Option<u32> {
        let package = Some(package);
        let types = &self.sheet.types;
        let taken = types.iter().any(|row| {
            row[component_type::PACKAGE] == package
                && self.equal_folded(row[component_type::NAME], name)
        });
        if taken || types.len() == TABLE_ROWS {
            return None;
        }
        self.sheet.types.push(component_type::row([
            (component_type::PACKAGE, package),
            (component_type::NAME, name),
            (component_type::PRIVATE, Some(u32::from(private))),
        ]));
        Some(self.sheet.types.len() as u32 - 1)
    }

    pub fn implementation(&mut self, package: u32, type_name: Field, name: Field, private: bool) {
        let package = Some(package);
        let implementations = &self.sheet.implementations;
        let taken = implementations.iter().any(|row| {
            row[implementation::PACKAGE] == package
                && self.equal_folded(row[implementation::TYPE], type_name)
                && self.equal_folded(row[implementation::NAME], name)
        });
        if !taken && implementations.len() < TABLE_ROWS {
            self.sheet.implementations.push(implementation::row([
                (implementation::PACKAGE, package),
                (implementation::TYPE, type_name),
                (implementation::NAME, name),
                (implementation::PRIVATE, Some(u32::from(private))),
            ]));
        }
    }

    pub fn group_type(&mut self, package: u32, name: Field, private: bool) -> Option<u32> {
        let package = Some(package);
        let group_types = &self.sheet.group_types;
        let taken = group_types.iter().any(|row| {
            row[group_type::PACKAGE] == package && self.equal_folded(row[group_type::NAME], name)
        });
        if taken || group_types.len() == TABLE_ROWS {
            return None;
        }
        self.sheet.group_types.push(group_type::row([
            (group_type::PACKAGE, package),
            (group_type::NAME, name),
            (group_type::PRIVATE, Some(u32::from(private))),
        ]));
        Some(self.sheet.group_types.len() as u32 - 1)
    }

    pub fn group_type_name(&self, group_type: u32) -> Field {
        self.sheet.group_types[group_type as usize][group_type::NAME]
    }

    pub fn group_type_package(&self, group_type: u32) -> u32 {
        self.sheet.group_types[group_type as usize][group_type::PACKAGE].expect("a P row")
    }

    pub fn set_private(&mut self, group_type: u32) {
        self.sheet.group_types[group_type as usize][group_type::PRIVATE] = Some(1);
    }

    pub fn set_extends(&mut self, group_type: u32, reference: Reference) {
        let fields = &mut self.sheet.group_types[group_type as usize];
        put_reference(fields, group_type::EXTENDS_PACKAGE, reference);
    }

    pub fn set_inverse_of(&mut self, group_type: u32, reference: Reference) {
        let fields = &mut self.sheet.group_types[group_type as usize];
        put_reference(fields, group_type::INVERSE_PACKAGE, reference);
    }

    /// Adds a declared feature with a random direction.
    pub fn declared_feature(
        &mut self,
        holder: Holder,
        name: Field,
        kind: u32,
        reference: Reference,
    ) {
        if self.sheet.declared_features.len() == TABLE_ROWS {
            return;
        }
        let direction = self.random.pick(&[None, Some(0), Some(1), Some(2)]);
        let (holder_kind, holder) = match holder {
            Holder::Type(row) => (0, row),
            Holder::GroupType(row) => (1, row),
        };
        let mut fields = declared_feature::row([
            (declared_feature::HOLDER_KIND, Some(holder_kind)),
            (declared_feature::HOLDER, Some(holder)),
            (declared_feature::NAME, name),
            (declared_feature::KIND, Some(kind)),
            (declared_feature::DIRECTION, direction),
        ]);
        put_reference(&mut fields, declared_feature::CLASSIFIER_PACKAGE, reference);
        self.sheet.declared_features.push(fields);
    }

    pub fn package_rename(&mut self, package: u32, alias: Field, original: Field) {
        self.rename(package, 0, alias, [original, None]);
    }

    /// `what` is 1 for a classifier, 2 for a feature group. Unless the draft is
    /// wild, leaves out what the original's text form of the rename loses.
    pub fn named_rename(&mut self, package: u32, what: u32, alias: Field, original: [Field; 2]) {
        let kept = self.wild || text_form_keeps(&self.text(original[0]), &self.text(original[1]));
        if kept {
            self.rename(package, what, alias, original);
        }
    }

    /// `original` is a package's name and, unless a package is renamed, a name in it.
    fn rename(&mut self, package: u32, what: u32, alias: Field, original: [Field; 2]) {
        let (package, what) = (Some(package), Some(what));
        let renames = &self.sheet.renames;
        let taken = renames.iter().any(|row| {
            row[rename::PACKAGE] == package
                && row[rename::WHAT] == what
                && self.equal_folded(row[rename::ALIAS], alias)
        });
        if !taken && renames.len() < TABLE_ROWS {
            self.sheet.renames.push(rename::row([
                (rename::PACKAGE, package),
                (rename::WHAT, what),
                (rename::ALIAS, alias),
                (rename::ORIGINAL_PACKAGE, original[0]),
                (rename::ORIGINAL_NAME, original[1]),
            ]));
        }
    }

    /// Adds a mode, which is an initial one or not.
    pub fn mode(&mut self, name: Field, owner: u32) {
        if self.sheet.modes.len() < TABLE_ROWS {
            let initial = self.random.below(2) as u32;
            self.sheet.modes.push(mode::row([
                (mode::NAME, name),
                (mode::OWNER, Some(owner)),
                (mode::INITIAL, Some(initial)),
            ]));
        }
    }
}

/// Puts a reference into a row, its package at this place.
pub fn put_reference(row: &mut [Field], package: usize, reference: Reference) {
    row[package..package + reference.len()].copy_from_slice(&reference);
}

/// Whether `Pkg::Type`, split at the first `::` and trimmed, gives the two names back.
fn text_form_keeps(package: &str, type_name: &str) -> bool {
    let trimmed = |text: &str| text.trim() == text;
    let splits_elsewhere = package.contains("::") || package.ends_with(':');
    !splits_elsewhere && trimmed(package) && trimmed(type_name)
}

/// The name up to the first `[`, or all of it where nothing stands before that.
pub fn base_name(name: &str) -> &str {
    match name.find('[') {
        Some(at) if at > 0 => &name[..at],
        _ => name,
    }
}
