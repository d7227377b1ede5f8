//! `differential [COUNT] [FIRST]`: compares the proved library with the original on the stored vectors and on COUNT generated
//! models, and holds it to refusals on tables that are spoilt. A fifth of the generated models has to be one that the original lists
//! otherwise where children come in the order of their rows, and a tenth one that the second entry answers otherwise than the ported one; a
//! tenth has to have modes, and of one in a hundred the selections of modes have to be cut.
//! `differential --modes [COUNT] [FIRST]`: compares nothing but selections of modes, on COUNT models that are generated for that. All of
//! them have to have modes, and a tenth has to be cut.
//! `differential --stream`: holds it to the texts of a stream of cases on standard input.
//! `differential --ignore-case`: holds the second entry, which ignores letter case, to the texts of a stream of cases on standard input, accepted
//! sheets each with the text of its lists by that entry.
//! `differential --limit LIMIT [--ignore-case]`: holds the ported entry, or the second one, under a limit on the steps of a chain to the texts of a
//! stream of cases on standard input, sheets each with the text of its lists by that entry under that limit, or of its refusal.
//! `differential --links`: holds its link tables to those of a stream of cases on standard input, accepted sheets each with a line of
//! two numbers for every component in place of a text; and to a scan by place on models that are larger than a sheet.
//!
//! Where no limit is named it is 20, the original's; the first run also compares other limits with each other, and the largest with the copy of
//! the original that has none. Each model is handed over as a sheet and as tables, with outputs that are exactly full, one number too short,
//! a little too long and far too long, full of rubbish before the call and with guards around them.

mod both;
mod damaged;
mod expansion;
mod group;
mod ignoring_case;
mod lent;
mod library;
mod limits;
mod link_table;
mod links;
mod listed;
mod lists;
mod modes;
mod printed;
mod records;
mod tables;
mod text;
mod traced;
mod unaccepted;

use std::io::Read;
use std::path::Path;
use std::process::ExitCode;

use generate::{Sort, case};
use oracle::Options;
use oracle::listing::{REFUSALS_OF_LINES, REFUSALS_OF_TABLES};
use oracle::model::Renames;
use oracle::places;
use oracle::sheet::Sheet;
use oracle::stream::{self, Case};
use oracle::traced::STEPS;

use both::Asked;
use library::Entry;

/// The numbers of a row and of a diagnostic in their outputs.
const ROW_NUMBERS: usize = 137;
const DIAGNOSTIC_NUMBERS: usize = 4;

/// More rows than this are not collected by the original.
const MOST_ROWS: u64 = 300_000;

/// The accepted sheets that are stored, and one on which the original would not end. The names of the wild ones need renames as pairs.
fn stored() -> Vec<(Case, Renames)> {
    let folder = Path::new(env!("CARGO_MANIFEST_DIR")).join("../vectors");
    let read = |name: &str| std::fs::read(folder.join(name)).expect(name);
    let cases = |name: &str, renames: Renames| {
        let cases = stream::read(&read(name)).expect("a stream");
        cases.into_iter().map(move |case| (case, renames))
    };
    let endless = Case {
        label: "endless chains".to_string(),
        sheet: read("differences/endless_chains.sheet"),
        text: Vec::new(),
    };
    cases("accepted.txt", Renames::Text)
        .chain(cases("wild.txt", Renames::Exact))
        .chain([(endless, Renames::Text)])
        .collect()
}

/// The sheets of docs/DIFFERENCES.md with the text that is ours.
fn differences() -> Vec<Case> {
    let folder = Path::new(env!("CARGO_MANIFEST_DIR")).join("../vectors/differences");
    let files = std::fs::read_dir(folder).expect("the differences");
    let sheets = files.map(|file| file.expect("a file").path());
    sheets
        .filter(|path| path.extension().is_some_and(|kind| kind == "sheet"))
        .map(|path| Case {
            label: path.display().to_string(),
            sheet: std::fs::read(&path).expect("a sheet"),
            text: std::fs::read(path.with_extension("ours")).expect("our text"),
        })
        .collect()
}

/// What was met on all models.
#[derive(Default)]
struct Met {
    models: usize,
    differing: usize,
    /// Generated models, and those of them that the original lists otherwise with children in the order of their rows.
    generated: usize,
    otherwise_by_row: usize,
    /// Those of them that the second entry answers otherwise than the ported one.
    otherwise_ignoring_case: usize,
    /// Generated models with modes, and those of them whose selections are cut.
    generated_modal: usize,
    generated_cut: usize,
    traced: traced::Met,
    expansion: expansion::Met,
    group: group::Met,
    both: both::Met,
    records: records::Met,
    ignoring_case: ignoring_case::Met,
    limits: limits::Met,
    modes: modes::Met,
    text: text::Met,
    unaccepted: unaccepted::Met,
}

impl Met {
    fn compare(&mut self, case: &Case, renames: Renames) {
        let Some(sheet) = Sheet::accepted(&case.sheet) else {
            println!("{}: not accepted", case.label);
            self.differing += 1;
            return;
        };
        self.models += 1;
        let found = traced::compare(&sheet, &mut self.traced)
            .and_then(|()| expansion::compare(&sheet, renames, &mut self.expansion))
            .and_then(|()| group::compare(&sheet, renames, &mut self.group))
            .and_then(|()| both::compare(&sheet, STEPS, &mut self.both))
            .and_then(|()| records::compare(&sheet, STEPS, &mut self.records))
            .and_then(|()| ignoring_case::compare(&sheet, renames, &mut self.ignoring_case))
            .and_then(|()| limits::compare(&sheet, renames, &mut self.limits))
            .and_then(|()| modes::compare(&sheet, &mut self.modes))
            .and_then(|()| damaged::read_again(&case.sheet, &sheet))
            .and_then(|()| {
                let options = Options {
                    renames,
                    ..Options::default()
                };
                let expected =
                    oracle::conlist(&case.sheet, options).map_err(|why| format!("{why:?}"))?;
                text::compare(&case.sheet, STEPS, expected.as_bytes(), &mut self.text)
            })
            .and_then(|()| unaccepted::compare(&sheet, self.models, &mut self.unaccepted));
        if let Err(what) = found {
            println!("DIFFERS {}: {what}", case.label);
            self.differing += 1;
        }
    }

    /// Compares a generated model, and counts whether it has modes, and whether the places of its children or letter case decide anything.
    fn compare_generated(&mut self, case: &Case) {
        let (before, before_case) = (self.modes, self.ignoring_case.answered_otherwise);
        self.compare(case, Renames::Text);
        self.generated += 1;
        self.generated_modal += self.modes.with_modes - before.with_modes;
        self.generated_cut += self.modes.cut - before.cut;
        self.otherwise_ignoring_case += self.ignoring_case.answered_otherwise - before_case;
        if let Some(sheet) = Sheet::accepted(&case.sheet) {
            let otherwise = places::decide(&sheet, Renames::Text);
            self.otherwise_by_row += usize::from(otherwise);
        }
    }

    fn print(&self) {
        let (traced, expansion) = (&self.traced, &self.expansion);
        let (group, text) = (&self.group, &self.text);
        println!(
            "{} models, {} differ; of {} generated ones the original lists {} otherwise with children by row, the second entry answers {} otherwise than the ported one, {} have modes, {} are cut",
            self.models,
            self.differing,
            self.generated,
            self.otherwise_by_row,
            self.otherwise_ignoring_case,
            self.generated_modal,
            self.generated_cut,
        );
        println!(
            "traced listing: {} rows, {} diagnostics; {} calls, {} refused 11, {} refused 12, {} refused 22, {} models without end for the original",
            traced.rows,
            traced.diagnostics,
            traced.calls,
            traced.refused_11,
            traced.refused_12,
            traced.refused_22,
            traced.endless,
        );
        println!(
            "expansions: {}, with {} features and {} visits; {} calls refused 11, {} refused 13",
            expansion.expansions,
            expansion.features,
            expansion.visits,
            expansion.refused_11,
            expansion.refused_13,
        );
        println!(
            "group listing: {} rows, {} diagnostics; {} calls, refused {:?}: {:?}; {} models that the original is too long at",
            group.rows,
            group.diagnostics,
            group.calls,
            group::REFUSALS,
            group.refused,
            group.slow,
        );
        println!(
            "both listings in one call: {} calls, {} refused, {} refused 22",
            self.both.calls, self.both.refused, self.both.refused_22,
        );
        println!(
            "diagnostics as records: {} calls, {} records, {} refused 12, {} refused 22",
            self.records.calls,
            self.records.records,
            self.records.refused_12,
            self.records.refused_22,
        );
        self.ignoring_case.print();
        self.limits.print();
        println!(
            "array indices: {} models in the traced and {} in the group listing with other bits as well; {} tables refused for their numbers",
            traced.other_indices, group.other_indices, self.unaccepted.indices,
        );
        self.modes.print();
        println!(
            "conlist: {} sheets, {} of them refused, {} bytes of text; {} calls",
            text.sheets, text.refused, text.bytes, text.calls,
        );
        println!(
            "tables not accepted: {}, refused {REFUSALS_OF_TABLES:?}: {:?}, {} of them for a mode; {} calls",
            self.unaccepted.tables,
            self.unaccepted.refused,
            self.unaccepted.modes,
            self.unaccepted.calls,
        );
    }

    /// Nothing differs, nothing was left out, places decide on a fifth of the generated models and letter case on a tenth, a tenth has modes,
    /// and one in a hundred is cut.
    fn passes(&self) -> bool {
        let (traced, expansion) = (&self.traced, &self.expansion);
        self.differing == 0
            && 5 * self.otherwise_by_row >= self.generated
            && 10 * self.otherwise_ignoring_case >= self.generated
            && 10 * self.generated_modal >= self.generated
            && 100 * self.generated_cut >= self.generated
            && traced.rows > 0
            && traced.diagnostics > 0
            && traced.endless > 0
            && traced.refused_22 > 0
            && expansion.features > 0
            && expansion.refused_13 > 0
            && self.group.rows > 0
            && self.group.refused.iter().all(|&calls| calls > 0)
            && traced.other_indices > 0
            && self.group.other_indices > 0
            && self.unaccepted.indices > 0
            && self.unaccepted.modes > 0
            && self.modes.is_whole()
            && self.records.records > 0
            && self.records.refused_12 > 0
            && self.records.refused_22 > 0
            && self.ignoring_case.is_whole()
            && self.limits.is_whole()
            && self.both.refused_22 > 0
            && self.text.refused > 0
    }
}

/// Compares the cases on standard input; how many there are, and how many differ.
fn compared(mut compare: impl FnMut(&Case) -> Result<(), String>) -> (usize, usize) {
    let mut bytes = Vec::new();
    std::io::stdin().read_to_end(&mut bytes).expect("a stream");
    let cases = stream::read(&bytes).expect("a stream");
    let differs = |case: &&Case| told(&case.label, compare(case));
    (cases.len(), cases.iter().filter(differs).count())
}

/// Whether what is named differs; then it is told.
fn told(name: &str, outcome: Result<(), String>) -> bool {
    if let Err(what) = &outcome {
        println!("DIFFERS {name}: {what}");
    }
    outcome.is_err()
}

/// The exit code of a run that is good or not.
fn code(good: bool) -> ExitCode {
    if good {
        ExitCode::SUCCESS
    } else {
        ExitCode::FAILURE
    }
}

/// The cases on standard input with their texts.
fn known_texts() -> ExitCode {
    let mut met = damaged::Met::default();
    let (cases, differing) = compared(|case| damaged::compare(case, &mut met));
    println!(
        "{cases} sheets with known texts, {differing} differ; refused {REFUSALS_OF_LINES:?}: {:?}, refused {REFUSALS_OF_TABLES:?}: {:?}, {} read and accepted; {} calls for text, {} on tables",
        met.refused, met.unaccepted.refused, met.read, met.text.calls, met.unaccepted.calls,
    );
    code(differing == 0 && cases > 0)
}

/// The cases on standard input with the texts of the second entry.
fn known_texts_ignoring_case() -> ExitCode {
    let mut met = ignoring_case::Met::default();
    let (_, differing) = compared(|case| ignoring_case::compare_text(case, &mut met));
    met.print();
    println!(
        "{} models ignoring case, {differing} differ",
        met.lists.models
    );
    code(differing == 0 && met.is_whole())
}

/// The cases on standard input with the texts of an entry under a limit.
fn known_texts_at(asked: Asked) -> ExitCode {
    let mut met = limits::TextsMet::default();
    let (cases, differing) = compared(|case| limits::compare_text(case, asked, &mut met));
    met.print();
    let Asked { entry, limit } = asked;
    println!("{cases} sheets under a limit of {limit}, {entry:?}, {differing} differ");
    code(differing == 0 && cases > 0)
}

/// The cases on standard input with their link tables.
fn known_links() -> ExitCode {
    let mut met = links::Met::default();
    let (_, mut differing) = compared(|case| links::compare(case, &mut met));
    differing += usize::from(told("large tables", links::compare_large(&mut met)));
    met.print();
    println!("{} models with links, {differing} differ", met.models);
    code(differing == 0 && met.is_whole())
}

/// Selections of modes alone.
fn modes_alone(count: u64, first: u64) -> ExitCode {
    let (mut met, mut differing) = (modes::Met::default(), 0);
    for seed in first..first + count {
        let case = case(Sort::Modal, seed);
        let sheet = Sheet::accepted(&case.sheet).expect("accepted");
        differing += usize::from(told(&case.label, modes::compare(&sheet, &mut met)));
    }
    let generated = met;
    differing += usize::from(told("large tables", modes::compare_large(&mut met)));
    met.print();
    println!("{} models, {differing} differ", met.models);
    let modal = generated.with_modes == generated.models && 10 * generated.cut >= generated.models;
    code(differing == 0 && modal && met.is_whole())
}

/// COUNT and FIRST, if these are all words that are left.
fn count_and_first(words: &[String]) -> Option<(u64, u64)> {
    let numbers: Option<Vec<u64>> = words.iter().map(|word| word.parse().ok()).collect();
    match numbers?[..] {
        [] => Some((1000, 1)),
        [count] => Some((count, 1)),
        [count, first] => Some((count, first)),
        _ => None,
    }
}

/// LIMIT and the entry, if these are all words that are left.
fn asked(words: &[String]) -> Option<Asked> {
    let (limit, entry) = match words {
        [limit] => (limit, Entry::Ported),
        [limit, option] if option == "--ignore-case" => (limit, Entry::IgnoringCase),
        _ => return None,
    };
    let limit = limit.parse().ok()?;
    Some(Asked { entry, limit })
}

fn main() -> ExitCode {
    let words: Vec<String> = std::env::args().skip(1).collect();
    let (run, rest) = match words.split_first() {
        Some((option, rest)) if option.starts_with("--") => (option.as_str(), rest),
        _ => ("", &words[..]),
    };
    match (run, count_and_first(rest), asked(rest)) {
        ("", Some((count, first)), _) => all(count, first),
        ("--modes", Some((count, first)), _) => modes_alone(count, first),
        ("--limit", _, Some(asked)) => known_texts_at(asked),
        ("--stream", ..) if rest.is_empty() => known_texts(),
        ("--ignore-case", ..) if rest.is_empty() => known_texts_ignoring_case(),
        ("--links", ..) if rest.is_empty() => known_links(),
        _ => {
            eprintln!(
                "usage: differential [--modes] [COUNT] [FIRST], or differential --stream|--ignore-case|--links|--limit LIMIT [--ignore-case] < CASES"
            );
            ExitCode::from(2)
        }
    }
}

/// Every call, on stored and on generated models.
fn all(count: u64, first: u64) -> ExitCode {
    let mut met = Met::default();
    for (case, renames) in stored() {
        met.compare(&case, renames);
    }
    for seed in first..first + count {
        met.compare_generated(&case(Sort::Accepted, seed));
    }
    let large = modes::compare_large(&mut met.modes);
    met.differing += usize::from(told("large tables", large));
    let long = limits::compare_large(&mut met.limits);
    met.differing += usize::from(told("long chains", long));
    let mut texts = damaged::Met::default();
    for case in differences() {
        let outcome = damaged::compare(&case, &mut texts);
        met.differing += usize::from(told(&case.label, outcome));
    }
    met.print();
    println!("differences: {} sheets", texts.text.sheets);
    code(met.passes())
}
