//! The traced listing: the original's `compute_semantic_connections`.

use std::collections::HashMap;

use spar_hir_def::instance::{InstanceDiagnostic, SemanticConnection, SystemInstance};

use crate::letters::{Field, Sheet, array_index, component, connection, ends};
use crate::listing::{Diagnostic, Listing, Row};
use crate::{lifted, model};

/// The most steps of a chain in the original.
pub const STEPS: u64 = 20;

/// In its place, no limit at all.
pub const NO_LIMIT: u64 = u64::MAX;

/// Runs the original on the instance. Its rows and diagnostics are the listing.
pub fn run(sheet: &Sheet, instance: &mut SystemInstance) -> Listing {
    run_by(
        SystemInstance::compute_semantic_connections,
        sheet,
        instance,
    )
}

/// The same by the copy of the original that has no limit on the steps of a chain.
pub fn run_lifted(sheet: &Sheet, instance: &mut SystemInstance) -> Listing {
    run_by(lifted::compute_semantic_connections, sheet, instance)
}

/// The original's method, or the copy of it.
type Compute = fn(&mut SystemInstance);

fn run_by(compute: Compute, sheet: &Sheet, instance: &mut SystemInstance) -> Listing {
    compute(instance);
    Listing {
        rows: instance.semantic_connections.iter().map(row).collect(),
        diagnostics: diagnostics(compute, sheet, &instance.diagnostics),
    }
}

/// A semantic connection as a row of a listing.
pub fn row(connection: &SemanticConnection) -> Row {
    let (source, source_feature) = &connection.ultimate_source;
    let (destination, destination_feature) = &connection.ultimate_destination;
    let path = connection.connection_path.iter();
    let path: Vec<u32> = path.map(|&index| model::row(index)).collect();
    Row {
        connection: path[0],
        kind: connection.kind as u32,
        source: model::row(*source),
        destination: model::row(*destination),
        path,
        name: connection.name.to_string(),
        source_feature: source_feature.to_string(),
        destination_feature: destination_feature.to_string(),
    }
}

/// A diagnostic of the original with its four numbers.
pub fn diagnostic(numbers: [u32; 4], given: &InstanceDiagnostic) -> Diagnostic {
    Diagnostic {
        numbers,
        message: given.message.clone(),
        path: given.path.iter().map(|name| name.to_string()).collect(),
    }
}

/// The original does not number its diagnostics. Those of an X row depend on no
/// other X row, so a run with that row alone tells which ones are its own.
fn diagnostics(compute: Compute, sheet: &Sheet, given: &[InstanceDiagnostic]) -> Vec<Diagnostic> {
    let mut numbered = Vec::new();
    for connection in 0..sheet.connections.len() {
        let mut alone = model::instance_with_connection(sheet, connection);
        compute(&mut alone);
        for own in &alone.diagnostics {
            numbered.push(diagnostic(numbers(sheet, connection, &own.message), own));
        }
    }
    let messages = |list: &[Diagnostic]| -> Vec<String> {
        list.iter().map(|entry| entry.message.clone()).collect()
    };
    let unnumbered: Vec<Diagnostic> = given.iter().map(|own| diagnostic([0; 4], own)).collect();
    assert_eq!(messages(&numbered), messages(&unnumbered));
    numbered
}

/// The numbers of a diagnostic: code, connection, and what the message names.
fn numbers(sheet: &Sheet, connection: usize, message: &str) -> [u32; 4] {
    let fields = &sheet.connections[connection];
    let start = format!("connection '{}': ", sheet.name(fields[connection::NAME]));
    let said = message.strip_prefix(&start).expect("the connection's name");
    let row = connection as u32;
    if said == "missing endpoint" {
        return [1, row, 0, 0];
    }
    if said.starts_with("unresolved source subcomponent '") {
        let named = fields[connection::SOURCE].expect("a source subcomponent");
        return [2, row, named, 0];
    }
    if said.starts_with("unresolved destination subcomponent '") {
        let named = fields[connection::DESTINATION].expect("a destination subcomponent");
        return [3, row, named, 0];
    }
    let (source, destination) = said
        .strip_prefix("One_To_One pattern requires equal array sizes (source=")
        .and_then(|counts| counts.strip_suffix(')'))
        .and_then(|counts| counts.split_once(", destination="))
        .expect("one of the four messages of this listing");
    let count = |text: &str| text.parse().expect("a count");
    [4, row, count(source), count(destination)]
}

/// The steps of the longest chain that a row follows. Of the connections behind
/// the first of its path, those with a source subcomponent are steps towards
/// the source, and those with a destination subcomponent the others.
pub fn longest_chain(sheet: &Sheet, rows: &[Row]) -> u64 {
    let steps = |row: &Row, end: usize| {
        let steps = row.path[1..].iter();
        let ends = steps.map(|&step| sheet.connections[step as usize][end]);
        ends.flatten().count() as u64
    };
    let ends = [connection::SOURCE, connection::DESTINATION];
    let chains = rows.iter().flat_map(|row| ends.map(|end| steps(row, end)));
    chains.max().unwrap_or(0)
}

/// How many rows the original would give under a limit of so many steps, which
/// is its own, `STEPS`, or `NO_LIMIT` for the copy; `u64::MAX` for more than that.
///
/// The original collects all rows before it ends, and an accepted model can
/// have 4 to the 20th of them, so it is not started without this count. The
/// rules are restated here for nothing but the count.
pub fn row_count(sheet: &Sheet, limit: u64) -> u64 {
    let mut chains = Chains {
        sheet,
        limit,
        known: HashMap::new(),
    };
    let connections = sheet.connections.iter();
    saturating_sum(connections.map(|row| rows_of_connection(&mut chains, row)))
}

fn rows_of_connection(chains: &mut Chains, row: &[Field]) -> u64 {
    let [src, src_feature, dst, dst_feature] = ends(row);
    if src_feature.is_none() || dst_feature.is_none() {
        return 0;
    }
    let owner = row[connection::OWNER].expect("an owner");
    let component = &chains.sheet.components[owner as usize];
    let (parent, pattern) = (component[component::PARENT], component[component::PATTERN]);
    let limit = chains.limit;
    let mut of = |side, child, feature| chains.of_children(side, owner, child, feature, limit);
    match (src, dst) {
        (Some(_), Some(_)) => {
            let sources = of(Side::Source, src, src_feature);
            let destinations = of(Side::Destination, dst, dst_feature);
            if pattern.is_some_and(|_| is_one_to_one(chains.sheet.name(pattern))) {
                let pairs = sources.into_iter().zip(destinations);
                saturating_sum(
                    pairs.map(|(source, destination)| source.saturating_mul(destination)),
                )
            } else {
                saturating_sum(sources).saturating_mul(saturating_sum(destinations))
            }
        }
        (Some(_), None) if parent.is_none() => saturating_sum(of(Side::Source, src, src_feature)),
        (None, Some(_)) if parent.is_none() => {
            saturating_sum(of(Side::Destination, dst, dst_feature))
        }
        _ => 0,
    }
}

fn is_one_to_one(pattern: &str) -> bool {
    let bare = pattern.replace(['(', ')', ',', ' ', '\t'], "");
    bare.eq_ignore_ascii_case("one_to_one")
}

fn saturating_sum(counts: impl IntoIterator<Item = u64>) -> u64 {
    counts.into_iter().fold(0, u64::saturating_add)
}

#[derive(Clone, Copy, PartialEq, Eq, Hash)]
enum Side {
    Source,
    Destination,
}

/// Counts chains. `known` has what was counted before: side, component, feature
/// name, steps left.
struct Chains<'a> {
    sheet: &'a Sheet,
    limit: u64,
    known: HashMap<(Side, u32, &'a str, u64), u64>,
}

impl Chains<'_> {
    /// The chains from each child that is found.
    fn of_children(
        &mut self,
        side: Side,
        owner: u32,
        child: Field,
        feature: Field,
        steps: u64,
    ) -> Vec<u64> {
        let children = children_by_name(self.sheet, owner, self.sheet.name(child)).into_iter();
        children
            .map(|child| self.of(side, child, feature, steps))
            .collect()
    }

    fn of(&mut self, side: Side, component: u32, feature: Field, steps: u64) -> u64 {
        if steps == 0 {
            return 1;
        }
        let key = (side, component, self.sheet.name(feature), steps);
        if let Some(&count) = self.known.get(&key) {
            return count;
        }
        let mut count: u64 = 0;
        for row in &self.sheet.connections {
            let [src, src_feature, dst, dst_feature] = ends(row);
            let (inner, inner_feature, outer, outer_feature) = match side {
                Side::Source => (src, src_feature, dst, dst_feature),
                Side::Destination => (dst, dst_feature, src, src_feature),
            };
            let own = row[connection::OWNER] == Some(component);
            let leads_in = own && inner.is_some() && outer.is_none();
            if leads_in && outer_feature.is_some() && self.sheet.name(outer_feature) == key.2 {
                let deeper = self.of_children(side, component, inner, inner_feature, steps - 1);
                count = count.saturating_add(saturating_sum(deeper));
            }
        }
        let count = count.max(1);
        self.known.insert(key, count);
        count
    }
}

/// The original's private `find_children_by_name`, restated.
pub fn children_by_name(sheet: &Sheet, owner: u32, wanted: &str) -> Vec<u32> {
    let fields = |child: u32| &sheet.components[child as usize];
    let name = |child: u32| sheet.name(fields(child)[component::NAME]);
    let children = sheet.children(owner);
    let mut equal = children.clone();
    equal.retain(|&child| name(child) == wanted);
    if !equal.is_empty() || wanted.contains('[') {
        return equal;
    }
    let mut elements = children;
    elements.retain(|&child| {
        let base = name(child).split('[').next().unwrap_or(name(child));
        array_index(fields(child)).is_some() && base.eq_ignore_ascii_case(wanted)
    });
    elements
}
