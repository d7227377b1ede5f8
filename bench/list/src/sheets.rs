//! Sheets at the edges of what is read and listed.

use std::collections::HashMap;

use oracle::letters::{component, put_array_index};
use oracle::sheet::{Field, NAME_BYTES, NAME_ROWS, SHEET_BYTES, Sheet, TABLE_ROWS};

const PORT: u32 = 0;
const GROUP_CONNECTION: u32 = 2;
const GROUP_FEATURE: u32 = 8;

/// A sheet that is being written.
#[derive(Default)]
struct Draft {
    sheet: Sheet,
    known: HashMap<String, u32>,
}

impl Draft {
    /// With the root as its only component.
    fn new() -> Draft {
        let mut draft = Draft::default();
        draft.component("plant", None, "p", "t");
        draft
    }

    /// The number of a name, which is added once.
    fn name(&mut self, text: &str) -> Field {
        let names = &mut self.sheet.names;
        let number = *self.known.entry(text.to_string()).or_insert_with(|| {
            names.push(text.to_string());
            names.len() as u32 - 1
        });
        Some(number)
    }

    /// A component whose place is its row.
    fn component(&mut self, name: &str, parent: Field, package: &str, type_name: &str) -> u32 {
        let row = self.sheet.components.len() as u32;
        let fields = component::row([
            (component::NAME, self.name(name)),
            (component::PARENT, parent),
            (component::PACKAGE, self.name(package)),
            (component::TYPE, self.name(type_name)),
            (component::PLACE, Some(row)),
        ]);
        self.sheet.components.push(fields);
        row
    }

    fn child(&mut self, name: &str, parent: u32) -> u32 {
        self.component(name, Some(parent), "p", "t")
    }

    /// A child with an array index.
    fn element(&mut self, name: &str, parent: u32) {
        let row = self.child(name, parent);
        put_array_index(&mut self.sheet.components[row as usize], Some(1));
    }

    fn feature(&mut self, name: &str, owner: u32, kind: u32) {
        let name = self.name(name);
        self.sheet.features.push([name, Some(owner), Some(kind)]);
    }

    /// A connection between two ends, each a subcomponent (none where it is empty) and a feature.
    fn connection(
        &mut self,
        name: &str,
        owner: u32,
        kind: u32,
        source: (&str, &str),
        destination: (&str, &str),
    ) {
        let name = self.name(name);
        let mut fields = vec![name, Some(owner), Some(kind)];
        for (subcomponent, feature) in [source, destination] {
            fields.push(if subcomponent.is_empty() {
                None
            } else {
                self.name(subcomponent)
            });
            fields.push(self.name(feature));
        }
        self.sheet.push(b'X', &fields);
    }

    /// A connection between two children of the root.
    fn wire(&mut self, name: &str, source: &str, destination: &str) {
        self.connection(name, 0, PORT, (source, "out"), (destination, "in"));
    }

    /// The sheet, filled up with names that nothing uses to as many bytes as are read.
    fn filled(mut self) -> Vec<u8> {
        while self.sheet.names.len() < NAME_ROWS {
            let room = SHEET_BYTES.checked_sub(self.sheet.bytes().len());
            let room = room.expect("no more bytes than are read");
            if room < 4 {
                break;
            }
            // A line has three bytes more than its name, so up to three bytes can be left.
            let length = NAME_BYTES.min(room - 3);
            self.sheet.names.push("z".repeat(length));
        }
        self.sheet.bytes()
    }
}

/// A name as long as those of cabinets are.
fn cabinet(k: usize) -> String {
    format!("cabinet_of_north_row_module_{k:02}")
}

/// 96 components, 96 features and 96 connections. 64 of the connections give a row each, over an inner one at its source; or all
/// 96 do, which are more rows than there is room for.
pub fn largest(listed: bool) -> Vec<u8> {
    let mut draft = Draft::new();
    let names: Vec<String> = (0..95).map(cabinet).collect();
    let modules: Vec<u32> = names[..32]
        .iter()
        .map(|name| draft.child(name, 0))
        .collect();
    for k in 32..95 {
        let parent = modules[k % 32];
        draft.child(&names[k], parent);
    }
    for k in 0..96 {
        draft.feature(&format!("port_{:02}", k % 32), k, PORT);
    }
    for k in 0..96 {
        let (from, to) = (k % 32, (k * 7 + 1) % 32);
        let out = format!("port_{from:02}");
        let name = format!("wire_{k:02}");
        if k < 64 || !listed {
            let (source, destination) = (&names[from], &names[to]);
            draft.connection(&name, 0, PORT, (source, &out), (destination, "port_in"));
        } else {
            // The module's own feature comes from a child of it.
            let child = names[32 + from].as_str();
            draft.connection(&name, modules[from], PORT, (child, "port_00"), ("", &out));
        }
    }
    draft.filled()
}

/// Rows of every letter: 32 components of types of their own, 32 connections between feature groups with two features each,
/// imports and renames.
pub fn largest_groups() -> Vec<u8> {
    const PACKAGES: u32 = 8;
    let mut draft = Draft::new();
    let package_of = |k: u32| format!("package_{}", k % PACKAGES);
    for k in 0..PACKAGES {
        let name = draft.name(&package_of(k));
        draft.sheet.packages.push([name]);
    }
    for k in 0..32 {
        let own = (axis(k), format!("type_{k:02}"));
        let row = draft.component(&own.0, Some(0), &package_of(k), &own.1);
        draft.feature("bus", row, GROUP_FEATURE);
        let (source, destination) = ((own.0.as_str(), "bus"), (&*axis(k * 5 + 3), "bus"));
        let wire = format!("w{k:02}");
        draft.connection(&wire, 0, GROUP_CONNECTION, source, destination);

        let package = Some(k % PACKAGES);
        let (public, holder, none) = (Some(0), Some(k), None);
        let (type_name, group) = (draft.name(&own.1), draft.name(&format!("group_{k:02}")));
        let (bus, set, done) = (draft.name("bus"), draft.name("set"), draft.name("done"));
        let implementation = draft.name("built");
        let alias = draft.name(&format!("alias_{k:02}"));
        let (other, renamed) = (draft.name(&package_of(k + 1)), draft.name("type_00"));
        let kinds = (Some(GROUP_FEATURE), Some(PORT));
        let rows: [(u8, &[Field]); 8] = [
            (b'I', &[package, other]),
            (b'T', &[package, type_name, public]),
            (b'Q', &[package, type_name, implementation, public]),
            (
                b'U',
                &[package, group, public, none, none, none, none, none, none],
            ),
            (
                b'E',
                &[Some(0), holder, bus, kinds.0, none, none, group, none],
            ),
            (
                b'E',
                &[Some(1), holder, set, kinds.1, Some(0), none, none, none],
            ),
            (
                b'E',
                &[Some(1), holder, done, kinds.1, Some(1), none, none, none],
            ),
            (b'R', &[package, Some(1), alias, other, renamed]),
        ];
        for (letter, row) in rows {
            draft.sheet.push(letter, row);
        }
    }
    draft.filled()
}

fn axis(k: u32) -> String {
    format!("axis_{:02}", k % 32)
}

/// A connection between two children of the root, and a chain of 20 levels under each of them with a connection at each level.
pub fn deepest() -> Vec<u8> {
    let mut draft = Draft::new();
    draft.connection("wire", 0, PORT, ("left", "out"), ("right", "in"));
    for (side, feature) in [("left", "out"), ("right", "in")] {
        let mut parent = draft.child(side, 0);
        for level in 1..=20 {
            let child = draft.child("part", parent);
            let name = format!("{side}_{level}");
            let (inner, outer) = (("part", feature), ("", feature));
            if side == "left" {
                draft.connection(&name, parent, PORT, inner, outer);
            } else {
                draft.connection(&name, parent, PORT, outer, inner);
            }
            parent = child;
        }
    }
    draft.sheet.bytes()
}

/// One owner with 90 children and 64 connections between them.
pub fn widest() -> Vec<u8> {
    let mut draft = Draft::new();
    let names: Vec<String> = (0..90).map(|k| format!("axis_{k:02}")).collect();
    for name in &names {
        draft.child(name, 0);
    }
    for k in 0..64 {
        draft.wire(&format!("wire_{k:02}"), &names[k], &names[89 - k]);
    }
    draft.sheet.bytes()
}

/// One owner with 95 array elements, each of an array of its own, and 64 connections between these arrays.
pub fn elements() -> Vec<u8> {
    let mut draft = Draft::new();
    let arrays: Vec<String> = (0..95).map(|k| format!("axis_{k:02}")).collect();
    for array in &arrays {
        draft.element(&format!("{array}[1]"), 0);
    }
    for k in 0..64 {
        draft.wire("wire", &arrays[k], &arrays[94 - k]);
    }
    draft.sheet.bytes()
}

/// Two arrays of 47 elements each with long names, joined one to one: their elements stand in the drawing as they do in the sheet, or the other way round.
pub fn two_arrays(falling: bool) -> Vec<u8> {
    let mut draft = Draft::new();
    let arrays = ["a", "b"].map(|front| format!("{front}{}", "x".repeat(57)));
    draft.sheet.components[0][component::PATTERN] = draft.name("one_to_one");
    for array in &arrays {
        for k in 1..=47 {
            draft.element(&format!("{array}[{k}]"), 0);
        }
    }
    if falling {
        let places = (1..draft.sheet.components.len() as u32).rev();
        for (row, place) in draft.sheet.components[1..].iter_mut().zip(places) {
            row[component::PLACE] = Some(place);
        }
    }
    draft.wire("wire", &arrays[0], &arrays[1]);
    draft.sheet.bytes()
}

/// A name of the longest that there are, all of which are alike but for what stands before the last byte, so that neither their first bytes nor their last
/// tell them apart.
fn alike(own: &str) -> String {
    let rest = NAME_BYTES - 1 - own.len();
    format!("{}{own}x", "x".repeat(rest))
}

/// One owner with 90 children whose names are alike almost to their ends, and 64 connections between the last two.
pub fn worst_children() -> Vec<u8> {
    let mut draft = Draft::new();
    let names: Vec<String> = (0..90).map(|k| alike(&format!("{k:02}"))).collect();
    for name in &names {
        draft.child(name, 0);
    }
    for _ in 0..64 {
        draft.wire("wire", &names[89], &names[88]);
    }
    draft.sheet.bytes()
}

/// One owner with 95 array elements whose names are alike almost to their ends, and 64 connections between the last two. These are named by a capital, so
/// every name is compared twice: byte for byte and, as no child has that very name, once more with the case ignored.
pub fn worst_elements() -> Vec<u8> {
    let mut draft = Draft::new();
    for _ in 0..93 {
        draft.element(&alike("c"), 0);
    }
    draft.element(&alike("a"), 0);
    draft.element(&alike("b"), 0);
    for _ in 0..64 {
        draft.wire("wire", &alike("A"), &alike("B"));
    }
    draft.sheet.bytes()
}

/// No connection, and as many references as fit that no package resolves. They are asked from the last of 96 packages, whose 96 imports
/// all name that package again, and it has 96 component types and 96 group types. So each reference asks 96 times for a package among 96,
/// a type among 96 and a group type among 96, and all of these names are alike almost to their ends.
pub fn worst_imports() -> Vec<u8> {
    const LAST: usize = TABLE_ROWS - 1;
    let mut draft = Draft::default();
    let names: Vec<Field> = (0..TABLE_ROWS)
        .map(|k| draft.name(&alike(&format!("{k:02}"))))
        .collect();
    let nowhere = draft.name(&alike("--"));
    let (package, public, none) = (Some(LAST as u32), Some(0), None);
    let sheet = &mut draft.sheet;
    sheet.components.push(component::row([
        (component::NAME, names[0]),
        (component::PACKAGE, names[LAST]),
        (component::TYPE, names[0]),
    ]));
    for name in names.iter().copied() {
        sheet.push(b'P', &[name]);
        sheet.push(b'I', &[package, names[LAST]]);
        sheet.push(b'T', &[package, name, public]);
        let (extends, inverse) = ([none, nowhere, none], [none, nowhere, none]);
        let own = [package, name, public];
        sheet.push(b'U', &[own, extends, inverse].concat());
    }
    // Nested groups of the first group type, until there is one too many.
    let (of_group, group) = (Some(1), Some(GROUP_FEATURE));
    let own = [of_group, Some(0), names[0], group, none];
    while sheet.bytes().len() <= SHEET_BYTES {
        sheet.push(b'E', &[&own[..], &[none, nowhere, none]].concat());
    }
    sheet.declared_features.pop();
    sheet.bytes()
}

/// As many connections between as many pairs of children.
pub fn pairs(count: usize) -> Vec<u8> {
    let mut draft = Draft::new();
    for k in 0..count {
        let (source, destination) = (format!("from_{k:02}"), format!("to_{k:02}"));
        for name in [&source, &destination] {
            let row = draft.child(name, 0);
            draft.feature("port", row, PORT);
        }
        let name = format!("wire_{k:02}");
        draft.connection(&name, 0, PORT, (&source, "port"), (&destination, "port"));
    }
    draft.sheet.bytes()
}
