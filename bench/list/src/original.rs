//! The original from sheet bytes to text bytes, in steps. Reading, building the model and printing are the oracle's; listing is the
//! original's own.
//!
//! Beside that, `oracle::conlist` counts beforehand what the original will take, and runs it once more for each connection to find the
//! numbers of its diagnostics, which the original does not have. Here nothing is counted, and the numbers are handed over.

use super::base::listing::{self, Diagnostic, Listing};
use super::base::model::{self, FeatureNames, Renames};
use super::base::sheet::Sheet;
use super::base::traced;
use super::spar::instance::{InstanceDiagnostic, SemanticConnection, SystemInstance};
use super::spar::resolver::GlobalScope;

/// The numbers of a diagnostic.
pub type Numbers = [u32; 4];

/// What the original lists, and what it looks names up in.
pub struct Model {
    instance: SystemInstance,
    scope: GlobalScope,
}

/// How many of the rows and diagnostics of an instance are of the traced listing; those of the group listing stand behind them.
#[derive(Clone, Copy)]
pub struct Traced {
    rows: usize,
    diagnostics: usize,
}

pub fn read(bytes: &[u8]) -> Sheet {
    Sheet::accepted(bytes).expect("an accepted sheet")
}

pub fn build(sheet: &Sheet) -> Model {
    Model {
        instance: model::instance(sheet),
        scope: model::scope(sheet, FeatureNames::OfTheSheet, Renames::Text),
    }
}

/// Both listings of the original; the group listing only where the traced one is not refused.
pub fn list(model: &mut Model) -> Traced {
    let instance = &mut model.instance;
    instance.compute_semantic_connections();
    let traced = Traced {
        rows: instance.semantic_connections.len(),
        diagnostics: instance.diagnostics.len(),
    };
    if traced.rows <= listing::ROWS && traced.diagnostics <= listing::DIAGNOSTICS {
        instance.expand_feature_group_connections(&model.scope);
    }
    traced
}

/// The text, or the line of a refusal. `numbers` has those of all diagnostics that are printed.
pub fn print(model: &Model, traced: Traced, numbers: &[Numbers]) -> String {
    let instance = &model.instance;
    let (rows, group_rows) = instance.semantic_connections.split_at(traced.rows);
    let (given, group_given) = instance.diagnostics.split_at(traced.diagnostics);
    let mut numbers = numbers.iter().copied();
    let traced = collected(rows, given, &mut numbers);
    let group = collected(group_rows, group_given, &mut numbers);
    let refusal = listing::traced_refusal(&traced).or_else(|| group_refusal(&group));
    if let Some(refusal) = refusal {
        return listing::refusal_line(refusal);
    }
    let text = listing::text(&traced, &group);
    if text.len() > listing::TEXT_BYTES {
        return listing::refusal_line(15);
    }
    text
}

fn collected(
    rows: &[SemanticConnection],
    given: &[InstanceDiagnostic],
    numbers: &mut impl Iterator<Item = Numbers>,
) -> Listing {
    let numbered = |given| -> Diagnostic {
        // Where a refusal is printed, no diagnostic is, and no numbers are handed over.
        traced::diagnostic(numbers.next().unwrap_or_default(), given)
    };
    Listing {
        rows: rows.iter().map(traced::row).collect(),
        diagnostics: given.iter().map(numbered).collect(),
    }
}

fn group_refusal(group: &Listing) -> Option<u32> {
    listing::group_refusal(
        group.rows.len(),
        listing::composed_bytes(group),
        group.diagnostics.len(),
    )
}

/// All steps: sheet bytes to text bytes.
pub fn list_sheet(bytes: &[u8], numbers: &[Numbers]) -> String {
    let sheet = read(bytes);
    let mut model = build(&sheet);
    let traced = list(&mut model);
    print(&model, traced, numbers)
}

/// Hands `call` the whole, and then step for step: reading, building, listing, printing, and giving back the memory.
pub fn each_step(bytes: &[u8], numbers: &[Numbers], call: fn(&mut dyn FnMut())) {
    // The first call asks the system for memory that later ones find.
    let mut text = list_sheet(bytes, numbers);
    call(&mut || text = list_sheet(bytes, numbers));
    let mut sheet = None;
    call(&mut || sheet = Some(read(bytes)));
    let sheet = sheet.expect("the call was made");
    let mut model = None;
    call(&mut || model = Some(build(&sheet)));
    let mut model = model.expect("the call was made");
    let mut traced = None;
    call(&mut || traced = Some(list(&mut model)));
    let traced = traced.expect("the call was made");
    let mut printed = String::new();
    call(&mut || printed = print(&model, traced, numbers));
    let mut built = Some((sheet, model));
    call(&mut || built = None);
    assert!(text == printed, "the steps print another text");
}
