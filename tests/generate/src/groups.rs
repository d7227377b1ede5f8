//! Models for the group listing: packages, types, feature groups that extend,
//! invert and nest one another, and connections between them.

use oracle::letters::{Field, Reference, component, component_type, declared_feature, feature};
use oracle::sheet::TABLE_ROWS;

use crate::draft::{Draft, FEATURE_GROUP, GROUP_CONNECTION, Holder, NO_REFERENCE, base_name};

const PACKAGES: &[&str] = &["p", "lib", "Base", "x y", "q.q", "Pk", "sub[1]", "z:w"];
const TYPES: &[&str] = &[
    "t", "T1", "u", "grp", "Grp2", "plug", "sock", "m.n", "w::v", ":y",
];

/// Names of which the original's text form of a rename loses some.
const WILD_PACKAGES: &[&str] = &[
    "a::b", " p", "p ", "lib:", "::", "\tq", "p", "a", "Base", " ",
];
const WILD_TYPES: &[&str] = &["t", " t", "t ", "::u", "b::t", "u\t", "grp", " ", "T1"];

/// The names of group features of components and of component types.
const GROUP_FEATURES: &[&str] = &["bus", "bus", "link", "Net", "b.s"];

/// The names of features inside group types.
const PORTS: &[&str] = &[
    "pos", "cur", "trip", "ack", "pos", "cur", "in", "out.x", "v[1]", "z z",
];

/// How much to make, and how many of a hundred features are nested groups.
struct Amount {
    packages: usize,
    group_types: usize,
    features: usize,
    nested: usize,
}

impl Draft {
    /// Few packages, many connections between groups.
    pub fn group_connections(&mut self) {
        let amount = Amount {
            packages: 2,
            group_types: self.random.range(1, 8),
            features: self.random.range(3, 30),
            nested: 14,
        };
        self.packages_and_groups(amount);
        self.components_with_groups();
    }

    /// More packages, with renames and imports between them.
    pub fn groups_across_packages(&mut self) {
        let amount = Amount {
            packages: 5,
            group_types: self.random.range(4, 16),
            features: self.random.range(10, 45),
            nested: 10,
        };
        self.packages_and_groups(amount);
        self.components_with_groups();
    }

    /// Traced rows and group rows in one sheet.
    pub fn chains_and_groups(&mut self) {
        let amount = Amount {
            packages: 3,
            group_types: self.random.range(2, 6),
            features: self.random.range(4, 20),
            nested: 12,
        };
        self.packages_and_groups(amount);
        if self.random.chance(50) {
            self.deep_chains();
        } else {
            self.component_tree();
        }
        self.classify_components();
        self.group_features_of_components();
        for _ in 0..self.random.range(2, 10) {
            self.group_connection();
        }
    }

    fn components_with_groups(&mut self) {
        let components = self.random.range(2, 14);
        self.components(components);
        self.patterns(10);
        self.classify_components();
        self.group_features_of_components();
        for _ in 0..self.random.range(3, 16) {
            self.group_connection();
        }
    }

    fn some_package(&mut self) -> &'static str {
        let pool = if self.wild { WILD_PACKAGES } else { PACKAGES };
        self.random.pick(pool)
    }

    fn some_type(&mut self) -> &'static str {
        let pool = if self.wild { WILD_TYPES } else { TYPES };
        self.random.pick(pool)
    }

    fn some_package_row(&mut self) -> u32 {
        self.random.below(self.sheet.packages.len()) as u32
    }

    fn packages_and_groups(&mut self, amount: Amount) {
        for _ in 0..amount.packages {
            let text = self.some_package();
            let name = self.spelled(text, 20);
            self.package(name);
        }
        for _ in 0..amount.group_types {
            let (package, text) = (self.some_package_row(), self.some_type());
            let (name, private) = (self.spelled(text, 10), self.random.chance(20));
            self.group_type(package, name, private);
        }
        self.component_types();
        for _ in 0..self.random.below(3) {
            let (package, text) = (self.some_package_row(), self.some_type());
            let (type_name, name) = (self.spelled(text, 10), self.name("i"));
            let private = self.random.chance(30);
            self.implementation(package, type_name, name, private);
        }
        // Without circles an expansion ends by itself.
        let circles = self.random.chance(40);
        self.extend_and_invert(circles);
        for _ in 0..amount.features {
            self.feature_of_group(circles, amount.nested);
        }
        self.group_features_of_types();
        self.some_renames();
        self.some_imports();
    }

    fn component_types(&mut self) {
        for _ in 0..self.random.range(1, 3) + self.sheet.packages.len() {
            let package = self.some_package_row();
            let text = match self.random.chance(75) {
                true => "dev",
                false => self.some_type(),
            };
            let (name, private) = (self.spelled(text, 10), self.random.chance(15));
            self.component_type(package, name, private);
        }
    }

    /// A group type that this one may refer to: a later one, or any.
    fn other_group_type(&mut self, group_type: u32, circles: bool) -> Option<u32> {
        let count = self.sheet.group_types.len() as u32;
        let first = if circles { 0 } else { group_type + 1 };
        let choices: Vec<u32> = (first..count).collect();
        (!choices.is_empty()).then(|| self.random.pick(&choices))
    }

    fn extend_and_invert(&mut self, circles: bool) {
        for group_type in 0..self.sheet.group_types.len() as u32 {
            let asking = self.group_type_package(group_type);
            if self.random.chance(30)
                && let Some(other) = self.other_group_type(group_type, circles)
            {
                let reference = self.reference(asking, other);
                self.set_extends(group_type, reference);
            }
            if self.random.chance(18)
                && let Some(other) = self.other_group_type(group_type, circles)
            {
                let reference = self.reference(asking, other);
                self.set_inverse_of(group_type, reference);
            }
        }
    }

    /// A reference to a group type from a package, sometimes to something else.
    fn reference(&mut self, asking: u32, group_type: u32) -> Reference {
        if self.random.chance(5) {
            let text = self.some_type();
            return [None, self.spelled(text, 10), None];
        }
        let home = self.group_type_package(group_type);
        let type_name = self.text(self.group_type_name(group_type));
        let type_name = self.spelled(&type_name, 15);
        let home_name = self.package_name(home);
        let package = match self.random.below(20) {
            0 => {
                let text = self.some_package();
                self.spelled(text, 10)
            }
            1..=2 => {
                let text = self.random.pick(&["al", "p", "lib"]);
                self.spelled(text, 15)
            }
            3..=9 => self.spelled(&home_name, 15),
            _ if asking != home && self.random.chance(50) => self.spelled(&home_name, 15),
            _ => None,
        };
        let implementation = match self.random.chance(4) {
            true => self.name("i"),
            false => None,
        };
        [package, type_name, implementation]
    }

    fn feature_of_group(&mut self, circles: bool, nested: usize) {
        if self.sheet.group_types.is_empty() {
            return;
        }
        let group_type = self.random.below(self.sheet.group_types.len()) as u32;
        let asking = self.group_type_package(group_type);
        let text = self.random.pick(PORTS);
        let name = self.spelled(text, 12);
        let kind = match self.random.chance(nested) {
            true => FEATURE_GROUP,
            false => self.random.below(10) as u32,
        };
        let classified = if kind == FEATURE_GROUP { 75 } else { 25 };
        let reference = match self.other_group_type(group_type, circles) {
            Some(other) if self.random.chance(classified) => self.reference(asking, other),
            _ => NO_REFERENCE,
        };
        self.declared_feature(Holder::GroupType(group_type), name, kind, reference);
    }

    fn group_features_of_types(&mut self) {
        for type_row in 0..self.sheet.types.len() as u32 {
            let asking = self.sheet.types[type_row as usize][component_type::PACKAGE];
            let asking = asking.expect("a P row");
            for _ in 0..self.random.range(1, 4) {
                let text = self.random.pick(GROUP_FEATURES);
                let name = self.spelled(text, 12);
                let kind = match self.random.chance(85) {
                    true => FEATURE_GROUP,
                    false => self.random.below(10) as u32,
                };
                let reference = if self.sheet.group_types.is_empty() || self.random.chance(8) {
                    NO_REFERENCE
                } else {
                    let group_type = self.random.below(self.sheet.group_types.len()) as u32;
                    self.reference(asking, group_type)
                };
                self.declared_feature(Holder::Type(type_row), name, kind, reference);
            }
        }
    }

    fn some_renames(&mut self) {
        for _ in 0..self.random.below(7) {
            let package = self.some_package_row();
            let original = self.some_package_row();
            let original = self.package_name(original);
            match self.random.below(3) {
                0 => {
                    let other = self.some_package_row();
                    let other = self.package_name(other);
                    let alias = self.random.pick(&["al", "al", "lib", other.as_str()]);
                    let alias = self.spelled(alias, 10);
                    let original = self.spelled(&original, 15);
                    self.package_rename(package, alias, original);
                }
                what => {
                    let alias = match self.random.chance(70) {
                        true => self.some_type(),
                        false => "dev",
                    };
                    let alias = self.spelled(alias, 10);
                    let original = self
                        .random
                        .pick(&[original.as_str(), original.as_str(), "al"]);
                    let original = self.spelled(original, 15);
                    let name = self.renamed_type();
                    self.named_rename(package, what as u32, alias, [original, name]);
                }
            }
        }
    }

    fn renamed_type(&mut self) -> Field {
        if self.sheet.group_types.is_empty() || self.random.chance(20) {
            let text = self.some_type();
            return self.spelled(text, 15);
        }
        let group_type = self.random.below(self.sheet.group_types.len()) as u32;
        let text = self.text(self.group_type_name(group_type));
        self.spelled(&text, 15)
    }

    fn some_imports(&mut self) {
        for _ in 0..self.random.below(2 * self.sheet.packages.len()) {
            let (package, imported) = (self.some_package_row(), self.some_package_row());
            let text = match self.random.chance(85) {
                true => self.package_name(imported),
                false => "al".to_string(),
            };
            let name = self.spelled(&text, 15);
            self.import(package, name);
        }
    }

    /// Gives every component that has none a package and a type, mostly those
    /// of a T row.
    pub fn classify_components(&mut self) {
        for component in 0..self.sheet.components.len() {
            if self.sheet.components[component][component::PACKAGE].is_none() {
                let [package, type_name] = self.classifier_of_component();
                self.set_classifier(component as u32, package, type_name);
            }
        }
    }

    fn classifier_of_component(&mut self) -> [Field; 2] {
        let (package, type_name) = match self.random.below(100) {
            0..=3 if !self.sheet.group_types.is_empty() => {
                let group_type = self.random.below(self.sheet.group_types.len()) as u32;
                let package = self.package_name(self.group_type_package(group_type));
                (package, self.text(self.group_type_name(group_type)))
            }
            8.. if !self.sheet.types.is_empty() => {
                let found = self.random.pick(&self.sheet.types);
                let package = found[component_type::PACKAGE].expect("a P row");
                let name = self.text(found[component_type::NAME]);
                (self.package_name(package), name)
            }
            _ => (
                self.some_package().to_string(),
                self.some_type().to_string(),
            ),
        };
        [self.spelled(&package, 15), self.spelled(&type_name, 15)]
    }

    /// The names of the group features that a component's type declares, as far
    /// as its package and type name tell without any rename.
    fn declared_groups(&self, component: u32) -> Vec<Field> {
        let own = &self.sheet.components[component as usize];
        let package = self.sheet.name(own[component::PACKAGE]);
        let type_name = self.sheet.name(own[component::TYPE]);
        let found = self.sheet.types.iter().position(|row| {
            let home = self.package_name(row[component_type::PACKAGE].expect("a P row"));
            let name = self.sheet.name(row[component_type::NAME]);
            home.eq_ignore_ascii_case(package) && name.eq_ignore_ascii_case(type_name)
        });
        let Some(found) = found else {
            return Vec::new();
        };
        let declared = self.sheet.declared_features.iter();
        declared
            .filter(|row| {
                row[declared_feature::HOLDER_KIND] == Some(0)
                    && row[declared_feature::HOLDER] == Some(found as u32)
                    && row[declared_feature::KIND] == Some(FEATURE_GROUP)
            })
            .map(|row| row[declared_feature::NAME])
            .collect()
    }

    fn group_features_of_components(&mut self) {
        for component in 0..self.sheet.components.len() as u32 {
            let declared = self.declared_groups(component);
            for _ in 0..self.random.range(1, 3) {
                if self.sheet.features.len() == TABLE_ROWS {
                    return;
                }
                let text = match declared.is_empty() || self.random.chance(15) {
                    true => self.random.pick(GROUP_FEATURES).to_string(),
                    false => {
                        let name = self.random.pick(&declared);
                        self.text(name)
                    }
                };
                let kind = match self.random.chance(88) {
                    true => FEATURE_GROUP,
                    false => self.random.below(10) as u32,
                };
                let name = self.spelled(&text, 15);
                self.feature(name, component, kind);
            }
        }
    }

    /// A group connection between ends that mostly have the group features.
    fn group_connection(&mut self) {
        let owner = self.owner();
        let (of_owner, missing) = (self.random.below(12), self.random.below(25));
        let mut ends = [None; 4];
        for side in 0..2 {
            if missing == side {
                continue;
            }
            let end = match of_owner == side || of_owner == 2 {
                true => [None, self.group_feature_of(owner)],
                false => self.group_end(owner),
            };
            ends[2 * side..2 * side + 2].copy_from_slice(&end);
        }
        let kind = match self.random.chance(95) {
            true => GROUP_CONNECTION,
            false => self.random.below(5) as u32,
        };
        self.connection(owner, kind, ends);
    }

    /// A child of the owner and a group feature of it.
    fn group_end(&mut self, owner: u32) -> [Field; 2] {
        let children = self.sheet.children(owner);
        if children.is_empty() || self.random.chance(5) {
            let text = self.random.pick(GROUP_FEATURES);
            return [self.subcomponent(owner), self.spelled(text, 15)];
        }
        let child = self.random.pick(&children);
        let text = self.component_name(child);
        let name = match self.random.chance(25) {
            true => self.spelled(base_name(&text), 30),
            false => self.name(&text),
        };
        [name, self.group_feature_of(child)]
    }

    fn group_feature_of(&mut self, component: u32) -> Field {
        let features = self.sheet.features.iter();
        let names: Vec<Field> = features
            .filter(|row| row[feature::OWNER] == Some(component))
            .map(|row| row[feature::NAME])
            .collect();
        let text = match names.is_empty() || self.random.chance(5) {
            true => self.random.pick(GROUP_FEATURES).to_string(),
            false => {
                let name = self.random.pick(&names);
                self.text(name)
            }
        };
        self.spelled(&text, 15)
    }
}
