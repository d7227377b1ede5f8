//! Models at the edges of the depth limit, the visit limit and the sizes of
//! `conlist`'s outputs, a little below and a little above.

use oracle::letters::{Field, connection};

use crate::draft::{Draft, FEATURE_GROUP, GROUP_CONNECTION, Holder, NO_REFERENCE};

impl Draft {
    /// The root with two children of one type, both with a group feature of the
    /// group type that is handed back, and a connection between them. Sometimes
    /// a child is there twice, and then mostly with the group feature twice.
    pub fn two_ends(&mut self) -> u32 {
        let package_name = self.name("p");
        let package = self.package(package_name).expect("the first package");
        let device_name = self.name("dev");
        let device = self.component_type(package, device_name, false);
        let device = device.expect("the first component type");
        let group_name = self.name("grp");
        let group_type = self.group_type(package, group_name, false);
        let group_type = group_type.expect("the first group type");
        let bus = self.name("bus");
        let reference = [None, group_name, None];
        self.declared_feature(Holder::Type(device), bus, FEATURE_GROUP, reference);
        self.root();
        let (left, right) = (self.name("l"), self.name("r"));
        for name in [left, right] {
            let row = self.component(name, Some(0), None);
            self.feature(bus, row, FEATURE_GROUP);
        }
        for component in 0..3 {
            self.set_classifier(component, package_name, device_name);
        }
        for end in 1..3 {
            if self.random.chance(25) {
                let twin = self.namesake(end);
                if self.random.chance(85) {
                    self.feature(bus, twin, FEATURE_GROUP);
                }
            }
        }
        self.connection(0, GROUP_CONNECTION, [left, bus, right, bus]);
        group_type
    }

    /// Gives an end, and the child with its name, one more group feature.
    fn group_feature_of_end(&mut self, feature: Field, end: u32) {
        let name = self.component_name(end);
        for child in self.sheet.children(0) {
            if self.component_name(child) == name {
                self.feature(feature, child, FEATURE_GROUP);
            }
        }
    }

    fn plain_feature(&mut self, group_type: u32, text: &str, kind: u32) {
        let name = self.name(text);
        self.declared_feature(Holder::GroupType(group_type), name, kind, NO_REFERENCE);
    }

    fn nested_group(&mut self, group_type: u32, text: &str, inner: u32) {
        let name = self.name(text);
        let reference = [None, self.group_type_name(inner), None];
        let holder = Holder::GroupType(group_type);
        self.declared_feature(holder, name, FEATURE_GROUP, reference);
    }

    fn next_group_type(&mut self, number: usize) -> u32 {
        let name = self.name(&format!("g{number}"));
        self.group_type(0, name, false).expect("a new name")
    }

    /// A chain of extensions, inversions or nestings, 8 to 13 long, with a
    /// feature at its end.
    pub fn depth_limit(&mut self) {
        let mut group_type = self.two_ends();
        let inverting = self.random.chance(40);
        let nesting = self.random.chance(30);
        for number in 0..self.random.range(8, 13) {
            let next = self.next_group_type(number);
            let reference = [None, self.group_type_name(next), None];
            if inverting && self.random.chance(70) {
                self.set_inverse_of(group_type, reference);
            } else if nesting && self.random.chance(50) {
                self.nested_group(group_type, &format!("n{number}"), next);
            } else {
                self.set_extends(group_type, reference);
            }
            if self.random.chance(60) {
                let kind = self.random.below(10) as u32;
                self.plain_feature(group_type, &format!("f{number}"), kind);
            }
            group_type = next;
        }
        self.plain_feature(group_type, "last", 0);
    }

    /// A group nested in itself, up to three times.
    pub fn self_nesting(&mut self) {
        let group_type = self.two_ends();
        for number in 0..self.random.range(1, 3) {
            self.nested_group(group_type, &format!("n{number}"), group_type);
        }
        if self.random.chance(40) {
            self.plain_feature(group_type, "one", 1);
        }
    }

    /// Two groups nested in each other: visits below and above 65,536.
    pub fn visit_limit(&mut self) {
        let outer = self.two_ends();
        let inner = self.next_group_type(0);
        self.nested_group(outer, "n1", outer);
        self.nested_group(outer, "n2", inner);
        for number in 0..self.random.range(2, 3) {
            let nested = self.random.pick(&[outer, inner]);
            self.nested_group(inner, &format!("m{number}"), nested);
        }
        if self.random.chance(60) {
            let reference = [None, self.group_type_name(outer), None];
            self.set_extends(inner, reference);
        }
    }

    /// Long prefixes: composed names of about 4,096 bytes.
    pub fn composed_limit(&mut self) {
        let mut group_type = self.two_ends();
        let long = "w".repeat(self.random.range(40, 63));
        for number in 0..self.random.range(4, 9) {
            let next = self.next_group_type(number);
            self.nested_group(group_type, &long, next);
            for feature in 0..self.random.below(3) {
                self.plain_feature(group_type, &format!("x{number}{feature}"), 0);
            }
            group_type = next;
        }
        for feature in 0..self.random.range(2, 8) {
            self.plain_feature(group_type, &format!("y{feature}"), 3);
        }
    }

    /// Two arrays with about 64 pairs.
    pub fn row_limit(&mut self) {
        let root = self.root();
        let sizes = [
            (8, 8),
            (9, 7),
            (13, 5),
            (16, 4),
            (5, 13),
            (11, 6),
            (32, 2),
            (1, 64),
            (22, 3),
            (9, 8),
        ];
        let (sources, destinations) = self.random.pick(&sizes);
        for (array, size) in [("axis", sources), ("drive", destinations)] {
            for element in 1..=size {
                let name = self.name(&format!("{array}[{element}]"));
                self.component(name, Some(root), Some(element));
            }
        }
        let (src, dst) = (self.spelled("axis", 30), self.spelled("drive", 30));
        let feature = self.name("cmd");
        self.connection(root, 0, [src, feature, dst, feature]);
        if self.random.chance(20) {
            self.connection(root, 4, [src, feature, None, feature]);
        }
    }

    /// About 64 diagnostics of the traced listing.
    pub fn diagnostic_limit(&mut self) {
        let root = self.root();
        let (nobody, feature) = (self.name("nobody"), self.name("cmd"));
        let wanted = self.random.range(58, 70);
        let mut given = 0;
        while given < wanted {
            if self.random.chance(70) {
                self.connection(root, 0, [None, feature, None, None]);
                given += 1;
            } else {
                self.connection(root, 0, [nobody, feature, nobody, feature]);
                given += 2;
            }
        }
    }

    /// About 64 rows of the group listing.
    pub fn group_row_limit(&mut self) {
        let group_type = self.two_ends();
        let stem = "k".repeat(self.random.pick(&[1, 1, 1, 20]));
        for number in 0..self.random.range(60, 70) {
            let kind = self.random.below(10) as u32;
            self.plain_feature(group_type, &format!("{stem}{number}"), kind);
        }
    }

    /// About 64 diagnostics of the group listing.
    pub fn group_diagnostic_limit(&mut self) {
        let group_type = self.two_ends();
        for number in 0..self.random.range(56, 76) {
            self.plain_feature(group_type, &format!("k{number}"), 0);
        }
        // The destination gets a group of its own, with few of these features.
        let other = self.next_group_type(0);
        let link = self.name("link");
        let reference = [None, self.group_type_name(other), None];
        self.declared_feature(Holder::Type(0), link, FEATURE_GROUP, reference);
        self.group_feature_of_end(link, 2);
        self.sheet.connections[0][connection::DESTINATION_FEATURE] = link;
        for number in 0..self.random.below(5) {
            self.plain_feature(other, &format!("k{number}"), 0);
        }
    }

    /// Rows with long names: a text of about 8,192 bytes.
    pub fn text_limit(&mut self) {
        let root = self.root();
        let child = self.name("l");
        self.component(child, Some(root), None);
        let long = "v".repeat(self.random.range(35, 63));
        let feature = self.name(&long);
        for _ in 0..self.random.range(45, 64) {
            self.connection(root, 0, [child, feature, child, feature]);
        }
    }

    /// Several of these in one sheet, so that the order of the refusals decides.
    pub fn several_limits(&mut self) {
        match self.random.below(4) {
            0 => self.visit_limit(),
            1 => self.composed_limit(),
            2 => self.group_row_limit(),
            _ => self.group_diagnostic_limit(),
        }
        if self.random.chance(40) {
            self.group_of_too_many_visits();
        }
        match self.random.below(5) {
            0 => self.row_limit(),
            1 => self.diagnostic_limit(),
            2 => self.text_limit(),
            _ => {}
        }
    }

    /// A second connection between the two ends, over the visit limit.
    fn group_of_too_many_visits(&mut self) {
        let name = self.name("heavy");
        let heavy = self.group_type(0, name, false).expect("a new name");
        for number in 0..3 {
            self.nested_group(heavy, &format!("h{number}"), heavy);
        }
        let load = self.name("load");
        self.declared_feature(Holder::Type(0), load, FEATURE_GROUP, [None, name, None]);
        self.group_feature_of_end(load, 1);
        self.group_feature_of_end(load, 2);
        let (left, right) = (self.name("l"), self.name("r"));
        self.connection(0, GROUP_CONNECTION, [left, load, right, load]);
    }
}
