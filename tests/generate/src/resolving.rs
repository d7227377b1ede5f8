//! Models in which every rule of resolution decides something: several packages
//! that use the same few type names, with renames, imports and private items.
//!
//! Each group type has a feature with a name of its own, so that rows and
//! diagnostics tell which one was found.

use oracle::letters::{Field, Reference, package};

use crate::draft::{Draft, FEATURE_GROUP, GROUP_CONNECTION, Holder, NO_REFERENCE};

const PACKAGES: &[&str] = &["p0", "p1", "p2", "p3", "Long.Pkg"];
const TYPES: &[&str] = &["a", "b", "c"];

/// Names of which the original's text form of a rename loses some.
const WILD_PACKAGES: &[&str] = &["p", " p", "a::b", "a", "q:", "q"];
const WILD_TYPES: &[&str] = &["a", " a", "b", "b::a", "a "];

/// The group features of every component type and of every component.
const GROUPS: usize = 5;

/// The names that this model uses.
struct Names {
    packages: Vec<&'static str>,
    types: &'static [&'static str],
    /// How many of a hundred references name an implementation.
    implementations: usize,
}

impl Draft {
    pub fn resolution(&mut self) {
        let (packages, types) = match self.wild {
            true => (WILD_PACKAGES, WILD_TYPES),
            false => (PACKAGES, TYPES),
        };
        let mut packages = packages.to_vec();
        self.random.shuffle(&mut packages);
        packages.truncate(self.random.range(2, packages.len()));
        let names = Names {
            packages,
            types,
            implementations: self.random.pick(&[8, 8, 50]),
        };
        for text in &names.packages {
            let name = self.spelled(text, 20);
            self.package(name);
        }
        let density = self.random.range(20, 60);
        let mut probes = Vec::new();
        for package in 0..names.packages.len() as u32 {
            self.items_of_the_same_names(&names, package, density);
            self.probes(&names, package, &mut probes);
            self.device_type(&names, package, &probes);
            for _ in 0..self.random.range(1, 5) {
                self.rename_in(&names, package);
            }
            for _ in 0..self.random.below(7) {
                let name = self.some_package_name(&names);
                self.import(package, name);
            }
        }
        self.devices(&names);
        self.connect_devices(&names);
    }

    /// A package's name, or an alias that some package has.
    fn some_package_name(&mut self, names: &Names) -> Field {
        let text = match self.random.chance(25) {
            true => "al",
            false => self.random.pick(&names.packages),
        };
        self.spelled(text, 15)
    }

    fn some_type_name(&mut self, names: &Names) -> Field {
        let text = match self.random.chance(22) {
            true => self.random.pick(&["al1", "al2"]),
            false => self.random.pick(names.types),
        };
        self.spelled(text, 15)
    }

    fn some_reference(&mut self, names: &Names) -> Reference {
        let package = match self.random.chance(50) {
            true => None,
            false => self.some_package_name(names),
        };
        let type_name = self.some_type_name(names);
        let implementation = match self.random.chance(names.implementations) {
            true => self.name("i"),
            false => None,
        };
        [package, type_name, implementation]
    }

    fn items_of_the_same_names(&mut self, names: &Names, package: u32, density: usize) {
        for text in names.types {
            if self.random.chance(density) {
                let (name, private) = (self.spelled(text, 10), self.random.chance(35));
                if let Some(group_type) = self.group_type(package, name, private) {
                    self.feature_of_its_own(group_type);
                }
            }
            if self.random.chance(16) {
                let (name, private) = (self.spelled(text, 10), self.random.chance(50));
                self.component_type(package, name, private);
            }
            if self.random.chance(20 + names.implementations) {
                let (type_name, name) = (self.spelled(text, 15), self.name("i"));
                let private = self.random.chance(40);
                self.implementation(package, type_name, name, private);
            }
        }
    }

    fn feature_of_its_own(&mut self, group_type: u32) {
        let name = self.name(&format!("f{group_type}"));
        let kind = self.random.pick(&[0, 1, 2, 3, 4, 5, 6, 7, 9]);
        self.declared_feature(Holder::GroupType(group_type), name, kind, NO_REFERENCE);
    }

    /// Group types that lead on to a reference.
    fn probes(&mut self, names: &Names, package: u32, probes: &mut Vec<u32>) {
        for number in 0..self.random.range(1, 3) {
            let name = self.name(&format!("probe{number}"));
            let Some(probe) = self.group_type(package, name, false) else {
                continue;
            };
            let reference = self.some_reference(names);
            self.lead_on(probe, reference);
            probes.push(probe);
        }
    }

    /// A component type whose group features ask for probes and for anything.
    fn device_type(&mut self, names: &Names, package: u32, probes: &[u32]) {
        let (name, private) = (self.name("dev"), self.random.chance(20));
        let Some(device) = self.component_type(package, name, private) else {
            return;
        };
        for number in 0..GROUPS {
            let reference = match self.random.chance(65) {
                true => {
                    let probe = self.random.pick(probes);
                    self.reference_to_probe(package, probe)
                }
                false => self.some_reference(names),
            };
            let name = self.name(&format!("g{number}"));
            self.declared_feature(Holder::Type(device), name, FEATURE_GROUP, reference);
        }
    }

    fn reference_to_probe(&mut self, asking: u32, probe: u32) -> Reference {
        let home = self.group_type_package(probe);
        let type_name = self.group_type_name(probe);
        if home == asking && self.random.chance(50) {
            return [None, type_name, None];
        }
        let home = self.package_name(home);
        [self.spelled(&home, 10), type_name, None]
    }

    fn rename_in(&mut self, names: &Names, package: u32) {
        let what = self.random.below(3) as u32;
        if what == 0 {
            let alias = match self.random.chance(50) {
                true => "al",
                false => self.random.pick(&names.packages),
            };
            let original = match self.random.chance(15) {
                true => "al",
                false => self.random.pick(&names.packages),
            };
            let (alias, original) = (self.spelled(alias, 10), self.spelled(original, 15));
            self.package_rename(package, alias, original);
        } else {
            let alias = match self.random.chance(60) {
                true => self.random.pick(&["al1", "al2"]),
                false => self.random.pick(names.types),
            };
            let alias = self.spelled(alias, 10);
            let original = [self.some_package_name(names), self.some_type_name(names)];
            self.named_rename(package, what, alias, original);
        }
    }

    /// A component of each package's device type. Sometimes two have one name,
    /// of which the first by its place is found.
    fn devices(&mut self, names: &Names) {
        self.root();
        let (package, device) = (self.some_package_name(names), self.name("dev"));
        self.set_classifier(0, package, device);
        let packages = names.packages.len();
        for package in 0..packages {
            self.device(package, package);
        }
        if self.random.chance(40) {
            let (number, package) = (self.random.below(packages), self.random.below(packages));
            self.device(number, package);
        }
    }

    /// The device with this number, of a package's device type.
    fn device(&mut self, number: usize, package: usize) {
        let name = self.name(&format!("s{number}"));
        let row = self.component(name, Some(0), None);
        let home = self.sheet.packages[package][package::NAME];
        let device = self.spelled("dev", 10);
        self.set_classifier(row, home, device);
        for number in 0..GROUPS {
            let group = self.spelled(&format!("g{number}"), 8);
            self.feature(group, row, FEATURE_GROUP);
        }
    }

    fn connect_devices(&mut self, names: &Names) {
        for _ in 0..self.random.range(4, 20) {
            let mut ends = [None; 4];
            for end in ends.chunks_mut(2) {
                let device = self.random.below(names.packages.len());
                let group = self.random.below(GROUPS);
                end[0] = self.name(&format!("s{device}"));
                end[1] = self.name(&format!("g{group}"));
            }
            self.connection(0, GROUP_CONNECTION, ends);
        }
    }

    /// A small model with one reference, on which a rule decides that seldom does.
    pub fn one_reference(&mut self) {
        let group_type = self.two_ends();
        let (lib, base) = (self.spelled("lib", 20), self.spelled("Base", 20));
        let [lib_row, base_row] = [lib, base].map(|name| self.package(name).expect("a new name"));
        let item = self.spelled("item", 20);
        let [lib_item, base_item] = [lib_row, base_row].map(|package| {
            let found = self.group_type(package, item, false);
            let found = found.expect("a new name");
            self.feature_of_its_own(found);
            found
        });
        if self.random.chance(20) {
            self.set_inverse_of(lib_item, [base, item, None]);
        }
        let scene = Scene {
            lib,
            lib_row,
            lib_item,
            base,
            base_item,
            item,
            alias: self.spelled("al", 20),
            other_alias: self.spelled("al2", 20),
            implementation: self.name("i"),
        };
        let question = self.random.pick(QUESTIONS);
        let reference = question(self, &scene);
        self.lead_on(group_type, reference);
    }

    /// Lets a group type lead on to a reference: by extends, inverse_of or nesting.
    fn lead_on(&mut self, group_type: u32, reference: Reference) {
        match self.random.below(3) {
            0 => self.set_extends(group_type, reference),
            1 => self.set_inverse_of(group_type, reference),
            _ => {
                let name = self.name(&format!("n{group_type}"));
                let holder = Holder::GroupType(group_type);
                self.declared_feature(holder, name, FEATURE_GROUP, reference);
            }
        }
    }
}

/// What `one_reference` asks about. The asking package is row 0. Both `lib` and
/// `base` have a public group type `item`.
struct Scene {
    lib: Field,
    lib_row: u32,
    lib_item: u32,
    base: Field,
    base_item: u32,
    item: Field,
    alias: Field,
    other_alias: Field,
    implementation: Field,
}

/// Prepares the scene and gives the reference to ask.
type Question = fn(&mut Draft, &Scene) -> Reference;

const QUESTIONS: &[Question] = &[
    private_implementation,
    private_type_before_group_type,
    alias_of_an_alias,
    classifier_alias_with_implementation,
    group_alias_with_implementation,
    alias_that_leads_nowhere,
    alias_of_both_kinds,
    alias_in_a_package_alias,
    first_import,
    import_after_a_private_one,
    import_under_a_package_alias,
    own_package_by_an_alias,
    other_package_by_the_own_name,
    reference_inside_the_found_group,
    extension_beside_an_inverse,
];

/// An import that may matter.
fn some_import(draft: &mut Draft, scene: &Scene) {
    let import = draft.random.pick(&[scene.lib, scene.base]);
    draft.import(0, import);
}

/// A private implementation, asked from outside.
fn private_implementation(draft: &mut Draft, scene: &Scene) -> Reference {
    draft.implementation(scene.lib_row, scene.item, scene.implementation, true);
    draft.import(0, scene.lib);
    let package = draft.random.pick(&[scene.lib, None]);
    [package, scene.item, scene.implementation]
}

/// A private component type in front of a public group type.
fn private_type_before_group_type(draft: &mut Draft, scene: &Scene) -> Reference {
    draft.component_type(scene.lib_row, scene.item, true);
    draft.import(0, scene.lib);
    let package = draft.random.pick(&[scene.lib, None]);
    [package, scene.item, None]
}

/// A package rename to a name that is an alias too.
fn alias_of_an_alias(draft: &mut Draft, scene: &Scene) -> Reference {
    draft.package_rename(0, scene.alias, scene.lib);
    draft.package_rename(0, scene.lib, scene.base);
    [scene.alias, scene.item, None]
}

fn classifier_alias_with_implementation(draft: &mut Draft, scene: &Scene) -> Reference {
    draft.implementation(scene.lib_row, scene.item, scene.implementation, false);
    draft.named_rename(0, 1, scene.alias, [scene.lib, scene.item]);
    [None, scene.alias, scene.implementation]
}

fn group_alias_with_implementation(draft: &mut Draft, scene: &Scene) -> Reference {
    draft.implementation(scene.lib_row, scene.alias, scene.implementation, false);
    draft.named_rename(0, 2, scene.alias, [scene.lib, scene.item]);
    draft.import(0, scene.lib);
    [None, scene.alias, scene.implementation]
}

/// An alias that leads nowhere, although an import has that name.
fn alias_that_leads_nowhere(draft: &mut Draft, scene: &Scene) -> Reference {
    let what = draft.random.range(1, 2) as u32;
    draft.named_rename(0, what, scene.item, [scene.base, scene.other_alias]);
    some_import(draft, scene);
    [None, scene.item, None]
}

/// A classifier's alias that is a group's alias too.
fn alias_of_both_kinds(draft: &mut Draft, scene: &Scene) -> Reference {
    draft.named_rename(0, 1, scene.alias, [scene.lib, scene.item]);
    draft.named_rename(0, 2, scene.alias, [scene.base, scene.item]);
    [None, scene.alias, None]
}

/// An alias whose package is an alias.
fn alias_in_a_package_alias(draft: &mut Draft, scene: &Scene) -> Reference {
    let what = draft.random.range(1, 2) as u32;
    draft.package_rename(0, scene.other_alias, scene.base);
    draft.named_rename(0, what, scene.alias, [scene.other_alias, scene.item]);
    some_import(draft, scene);
    [None, scene.alias, None]
}

/// Two imports that both have the name.
fn first_import(draft: &mut Draft, scene: &Scene) -> Reference {
    draft.import(0, scene.lib);
    draft.import(0, scene.base);
    [None, scene.item, None]
}

/// Two imports, of which one has the name privately.
fn import_after_a_private_one(draft: &mut Draft, scene: &Scene) -> Reference {
    let private = draft.random.pick(&[scene.lib_item, scene.base_item]);
    draft.set_private(private);
    first_import(draft, scene)
}

/// An import whose name is a package's alias.
fn import_under_a_package_alias(draft: &mut Draft, scene: &Scene) -> Reference {
    draft.package_rename(0, scene.lib, scene.base);
    draft.import(0, scene.lib);
    [None, scene.item, None]
}

/// A private group of the own package, asked by an alias of that package.
fn own_package_by_an_alias(draft: &mut Draft, scene: &Scene) -> Reference {
    let own = draft.sheet.packages[0][package::NAME];
    draft.package_rename(0, scene.alias, own);
    let found = draft.group_type(0, scene.item, true);
    draft.feature_of_its_own(found.expect("a new name"));
    [scene.alias, scene.item, None]
}

/// A private group of another package, asked by the own package's name, which
/// is an alias of the other.
fn other_package_by_the_own_name(draft: &mut Draft, scene: &Scene) -> Reference {
    draft.set_private(scene.base_item);
    draft.package_rename(scene.lib_row, scene.lib, scene.base);
    let found = draft.group_type(scene.lib_row, scene.alias, false);
    draft.lead_on(found.expect("a new name"), [scene.lib, scene.item, None]);
    [scene.lib, scene.alias, None]
}

/// A reference inside the group that is found, to a name that both packages have.
fn reference_inside_the_found_group(draft: &mut Draft, scene: &Scene) -> Reference {
    for package in [0, scene.lib_row] {
        let found = draft.group_type(package, scene.alias, false);
        draft.feature_of_its_own(found.expect("a new name"));
    }
    draft.lead_on(scene.lib_item, [None, scene.alias, None]);
    [scene.lib, scene.item, None]
}

/// A group type that both extends one and is the inverse of another.
fn extension_beside_an_inverse(draft: &mut Draft, scene: &Scene) -> Reference {
    let found = draft.group_type(scene.lib_row, scene.alias, false);
    let found = found.expect("a new name");
    draft.feature_of_its_own(found);
    draft.set_extends(found, [None, scene.item, None]);
    draft.set_inverse_of(found, [scene.base, scene.item, None]);
    [scene.lib, scene.alias, None]
}
