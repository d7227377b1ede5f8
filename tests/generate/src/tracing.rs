//! Models for the traced listing: trees of components, arrays, chains.

use oracle::letters::Field;

use crate::draft::{Draft, base_name};

const CHILD_NAMES: &[&str] = &[
    "a", "b", "A", "pump", "Pump", "pump[1]", "pump[2]", "PUMP[3]", "pump[1]", "axis[1]",
    "axis[2]", "AXIS[9]", "axis", "[", "a[", "[2]", "q.r", " s", "s ", "t\tu", "a[1][2]", "b]",
    "pump[2",
];

/// Few, so that they meet; some differ in case only.
const FEATURE_NAMES: &[&str] = &["cmd", "cmd", "cmd", "set", "set", "CMD", "pos"];

const PATTERNS: &[&str] = &[
    "One_To_One",
    "((one_to_one))",
    "( ONE_TO_ONE ,)",
    "(One_To_One, One_To_One)",
    "all_to_all",
    "one_to_one_",
    "\tone_to_one",
    "one to one",
    "One_To_\tOne",
    "()",
    "o n e_t o_o,n(e)",
    "((One_To_One))",
    "one_to_one",
    "[one_to_one]",
    "one-to-one",
];

/// A side of a connection: towards the source or towards the destination.
#[derive(Clone, Copy, PartialEq, Eq)]
enum Side {
    Source,
    Destination,
}

impl Draft {
    /// A tree of components and connections of every shape.
    pub fn component_tree(&mut self) {
        let components = self.random.range(2, 40);
        let connections = self.random.range(1, 30);
        self.components(components);
        self.patterns(22);
        for _ in 0..connections {
            let kind = self.random.below(5) as u32;
            self.any_connection(kind);
        }
    }

    /// Adds so many components, some deep and some wide.
    pub fn components(&mut self, count: usize) {
        self.root();
        for _ in 0..count {
            let used = self.sheet.components.len();
            if used > 1 && self.random.chance(15) {
                let twin = self.random.range(1, used - 1);
                self.namesake(twin as u32);
                continue;
            }
            let parent = match self.random.chance(45) {
                true => used - 1 - self.random.below(used.min(3)),
                false => self.random.below(used),
            };
            let name = self.random.pick(CHILD_NAMES);
            let element = if name.contains('[') { 75 } else { 12 };
            let array_index = self.array_index(element);
            let name = self.spelled(name, 15);
            self.component(name, Some(parent as u32), array_index);
        }
    }

    fn array_index(&mut self, percent: usize) -> Field {
        let index = self.random.below(5) as u32;
        self.random.chance(percent).then_some(index)
    }

    /// Gives so many of a hundred components a Connection_Pattern.
    pub fn patterns(&mut self, percent: usize) {
        for component in 0..self.sheet.components.len() {
            if self.random.chance(percent) {
                let pattern = self.random.pick(PATTERNS);
                self.set_pattern(component as u32, pattern);
            }
        }
    }

    /// The root, or a component that mostly has children.
    pub fn owner(&mut self) -> u32 {
        if self.random.chance(30) {
            return 0;
        }
        for _ in 0..6 {
            let owner = self.random.below(self.sheet.components.len()) as u32;
            if !self.sheet.children(owner).is_empty() {
                return owner;
            }
        }
        0
    }

    /// A subcomponent as a connection of the owner names it: mostly there, as
    /// it is spelled, by its base name, or in another case.
    pub fn subcomponent(&mut self, owner: u32) -> Field {
        let children = self.sheet.children(owner);
        if children.is_empty() || self.random.chance(5) {
            let name = self.random.pick(CHILD_NAMES);
            return self.spelled(name, 20);
        }
        let child = self.random.pick(&children);
        let name = self.component_name(child);
        match self.random.below(10) {
            0..=5 => self.name(&name),
            6..=8 => self.spelled(base_name(&name), 30),
            _ => self.spelled(&name, 100),
        }
    }

    fn any_connection(&mut self, kind: u32) {
        let owner = self.owner();
        let (src, dst) = (self.subcomponent(owner), self.subcomponent(owner));
        let feature = self.random.pick(FEATURE_NAMES);
        let src_feature = self.name(feature);
        let feature = self.random.pick(FEATURE_NAMES);
        let dst_feature = self.name(feature);
        let ends = match self.random.below(100) {
            0..=39 => [src, src_feature, dst, dst_feature],
            40..=62 => [src, src_feature, None, dst_feature],
            63..=85 => [None, src_feature, dst, dst_feature],
            86..=89 => [None, src_feature, None, dst_feature],
            90..=92 => [None, None, dst, dst_feature],
            93..=95 => [src, src_feature, None, None],
            96..=97 => [None, None, None, dst_feature],
            _ => [None; 4],
        };
        self.connection(owner, kind, ends);
    }

    /// One or two long chains that meet in a connection of the root.
    pub fn deep_chains(&mut self) {
        self.root();
        let sources = match self.random.chance(70) {
            true => self.random.range(18, 24),
            false => self.random.range(0, 30),
        };
        let destinations = match self.random.chance(50) {
            true => self.random.range(18, 24),
            false => self.random.range(0, 22),
        };
        self.chains_meet(sources, destinations);
    }

    /// The same with few steps.
    pub fn short_chains(&mut self) {
        self.root();
        let (sources, destinations) = (self.random.range(0, 4), self.random.range(0, 4));
        self.chains_meet(sources, destinations);
    }

    fn chains_meet(&mut self, sources: usize, destinations: usize) {
        let (src, src_feature) = self.chain(Side::Source, sources);
        let (dst, dst_feature) = self.chain(Side::Destination, destinations);
        self.connection(0, 0, [src, src_feature, dst, dst_feature]);
        if self.random.chance(50) {
            let outside = self.name("out");
            self.connection(0, 1, [src, src_feature, None, outside]);
        }
        if self.random.chance(50) {
            let outside = self.name("in");
            self.connection(0, 3, [None, outside, dst, dst_feature]);
        }
        self.patterns(10);
    }

    /// A chain of so many steps below a new child of the root. Gives the child
    /// and the feature at which it starts.
    fn chain(&mut self, side: Side, steps: usize) -> (Field, Field) {
        let tag = if side == Side::Source { "s" } else { "d" };
        // One feature name all the way, or another at each step.
        let same = self.random.chance(30);
        let feature_name = |step: usize| match same {
            true => "cmd".to_string(),
            false => format!("{tag}f{step}"),
        };
        let twins: Vec<usize> = (0..self.random.below(3))
            .map(|_| self.random.below(steps + 1))
            .collect();
        let (start, mut current) = self.link(0, tag, 0, twins.contains(&0));
        let start_feature = self.name(&feature_name(0));
        let branches = self.random.below(4);
        let branching: Vec<usize> = (0..branches)
            .map(|_| self.random.below(steps.max(1)))
            .collect();
        for step in 0..steps {
            let outer = self.name(&feature_name(step));
            let inner = self.name(&feature_name(step + 1));
            let twice = twins.contains(&(step + 1));
            let (child, next) = self.link(current, tag, step + 1, twice);
            let kind = self.random.below(5) as u32;
            self.step(side, current, kind, (child, inner), outer);
            if branching.contains(&step) && self.sheet.components.len() < 90 {
                let leaf = self.name("leaf");
                self.component(leaf, Some(current), None);
                let other = self.name("zz");
                let inner = self.random.pick(&[inner, other]);
                self.step(side, current, 0, (leaf, inner), outer);
            }
            if self.random.chance(8) {
                self.dead_branch(side, current, (child, inner), outer);
            }
            current = next;
        }
        (start, start_feature)
    }

    /// A child of a chain, sometimes an array element, and where it is there
    /// twice a second one, at which the chain ends. Gives the name by which a
    /// connection finds it, and its row.
    fn link(&mut self, parent: u32, tag: &str, step: usize, twice: bool) -> (Field, u32) {
        let element = self.random.chance(25);
        let text = match element {
            true => format!("{tag}{step}[1]"),
            false => format!("{tag}{step}"),
        };
        let array_index = element.then(|| self.random.below(4) as u32);
        let name = self.name(&text);
        let row = self.component(name, Some(parent), array_index);
        if twice {
            self.namesake(row);
        }
        let found_by = match element && self.random.chance(60) {
            true => self.spelled(base_name(&text), 40),
            false => self.name(&text),
        };
        (found_by, row)
    }

    /// A connection that leads from the owner's feature to the child's.
    fn step(&mut self, side: Side, owner: u32, kind: u32, child: (Field, Field), outer: Field) {
        let ends = match side {
            Side::Source => [child.0, child.1, None, outer],
            Side::Destination => [None, outer, child.0, child.1],
        };
        self.connection(owner, kind, ends);
    }

    /// A connection that is no step: no such child, or the feature in another case.
    fn dead_branch(&mut self, side: Side, owner: u32, child: (Field, Field), outer: Field) {
        if self.random.chance(50) {
            let nobody = self.name("nobody");
            self.step(side, owner, 0, (nobody, child.1), outer);
        } else {
            let upper = self.text(outer).to_ascii_uppercase();
            let upper = self.name(&upper);
            self.step(side, owner, 0, child, upper);
        }
    }

    /// Two arrays and the connections between them, mostly one to one.
    pub fn arrays(&mut self) {
        let root = self.root();
        let sizes = [self.random.range(0, 5), self.random.range(0, 5)];
        for (array, size) in ["axis", "Drive"].into_iter().zip(sizes) {
            for element in 1..=size {
                let name = self.name(&format!("{array}[{element}]"));
                let row = self.component(name, Some(root), Some(element as u32));
                if self.random.chance(30) {
                    self.inner_step(row);
                }
            }
        }
        let pattern = self.random.pick(PATTERNS);
        self.set_pattern(root, pattern);
        let (src, dst) = (self.spelled("axis", 40), self.spelled("drive", 40));
        let feature = self.name("cmd");
        let kind = self.random.below(5) as u32;
        self.connection(root, kind, [src, feature, dst, feature]);
        if self.random.chance(40) {
            let one = self.spelled("axis[1]", 20);
            self.connection(root, 0, [one, feature, dst, feature]);
        }
        if self.random.chance(40) {
            self.connection(root, 0, [src, feature, None, feature]);
        }
        if self.random.chance(40) {
            self.connection(root, 0, [None, feature, dst, feature]);
        }
    }

    /// A step in and a step out below an array element, over two motors.
    fn inner_step(&mut self, element: u32) {
        for motor in ["mot[1]", "mot[2]"] {
            let name = self.name(motor);
            self.component(name, Some(element), Some(1));
        }
        let (motor, feature) = (self.spelled("mot", 30), self.name("cmd"));
        let inner = self.name("set");
        self.connection(element, 0, [motor, inner, None, feature]);
        self.connection(element, 0, [None, feature, motor, inner]);
    }
}
