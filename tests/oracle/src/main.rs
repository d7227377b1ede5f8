//! `oracle [options] < sheet`: the original's answer for an accepted sheet, or with
//! `--lifted` that of a copy in which a chain can have any number of steps.

use std::io::{self, Read, Write};
use std::process::ExitCode;

use oracle::endpoint;
use oracle::listing::put_numbers;
use oracle::model::Renames;
use oracle::resolve::{self, Found};
use oracle::sheet::Sheet;
use oracle::{NoAnswer, Options, conlist};
use oracle::{modes, stream};

const USAGE: &str = "\
usage: oracle [--exact-renames] [--unlimited] [--lifted] [--visits | --expand | --resolve | --modes | --mode NUMBER] [--stream] < sheet

Without an option: what conlist is to print, by the original unchanged.
  --exact-renames  renames as pairs of names, not as the original's text Pkg::Type
  --unlimited      no sizes of outputs, so no refusals 11 to 15
  --lifted         chains followed to their last step, by a copy of the original's tracing
  --visits         V: X row, side (0 source, 1 destination), visits, features
  --expand         G: X row, side, E row, direction (3 none); then `. ` and the prefix
  --resolve        W: asking package, a space and the letter of the reference, its row,
                   its place (0 extends, 1 inverse_of, 2 classifier or component type),
                   found (0 nothing, 1 T, 2 Q, 3 U), the row found
  --modes          Z: how many selections of modes there are, and 1 where the list was cut
  --mode NUMBER    M: the rows of the selection with this number; then `= ` and the joined name
  --stream         reads a stream of cases and writes it with the texts; without one
                   where the sheet is not accepted

Exit: 0 answered, 2 usage, 3 sheet not accepted, 4 the original would not end.";

/// Counting stops here where no refusal asks for less.
const MOST_VISITS_SHOWN: u64 = 1_000_000;

#[derive(Clone, Copy)]
enum Output {
    Conlist,
    Visits,
    Expand,
    Resolve,
    Modes,
    Mode(u64),
}

struct Arguments {
    output: Output,
    options: Options,
    stream: bool,
}

fn main() -> ExitCode {
    let Some(arguments) = arguments() else {
        eprintln!("{USAGE}");
        return ExitCode::from(2);
    };
    let mut input = Vec::new();
    if let Err(error) = io::stdin().read_to_end(&mut input) {
        eprintln!("oracle: standard input: {error}");
        return ExitCode::from(2);
    }
    let answer = match arguments.stream {
        true => answered_stream(&arguments, &input),
        false => text(&arguments, &input).map(String::into_bytes),
    };
    match answer {
        Ok(text) => match io::stdout().write_all(&text) {
            Ok(()) => ExitCode::SUCCESS,
            Err(_) => ExitCode::FAILURE,
        },
        Err(NoAnswer::NotAccepted) => {
            eprintln!("oracle: the sheet is not accepted");
            ExitCode::from(3)
        }
        Err(NoAnswer::NotEnding) => {
            eprintln!("oracle: the original would not end on this model");
            ExitCode::from(4)
        }
    }
}

fn arguments() -> Option<Arguments> {
    let mut arguments = Arguments {
        output: Output::Conlist,
        options: Options::default(),
        stream: false,
    };
    let mut words = std::env::args().skip(1);
    while let Some(word) = words.next() {
        match word.as_str() {
            "--exact-renames" => arguments.options.renames = Renames::Exact,
            "--unlimited" => arguments.options.unlimited = true,
            "--lifted" => arguments.options.lifted = true,
            "--visits" => arguments.output = Output::Visits,
            "--expand" => arguments.output = Output::Expand,
            "--resolve" => arguments.output = Output::Resolve,
            "--modes" => arguments.output = Output::Modes,
            "--mode" => arguments.output = Output::Mode(words.next()?.parse().ok()?),
            "--stream" => arguments.stream = true,
            _ => return None,
        }
    }
    Some(arguments)
}

/// The answer for one sheet.
fn text(arguments: &Arguments, input: &[u8]) -> Result<String, NoAnswer> {
    let sheet = || Sheet::accepted(input).ok_or(NoAnswer::NotAccepted);
    let options = arguments.options;
    match arguments.output {
        Output::Conlist => conlist(input, options),
        Output::Visits => visits(&sheet()?, options.renames),
        Output::Expand => expansions(&sheet()?, options.renames),
        Output::Resolve => Ok(resolutions(&sheet()?, options.renames)),
        Output::Modes => Ok(modes::count_text(&sheet()?)),
        Output::Mode(number) => Ok(modes::selection_text(&sheet()?, number, options)),
    }
}

fn visits(sheet: &Sheet, renames: Renames) -> Result<String, NoAnswer> {
    let mut text = String::new();
    for count in endpoint::counts(sheet, renames, MOST_VISITS_SHOWN) {
        if count.visits > MOST_VISITS_SHOWN {
            return Err(NoAnswer::NotEnding);
        }
        text.push('V');
        put_numbers(&mut text, [count.connection as u64, count.side.into()]);
        put_numbers(&mut text, [count.visits, count.features]);
        text.push('\n');
    }
    Ok(text)
}

fn expansions(sheet: &Sheet, renames: Renames) -> Result<String, NoAnswer> {
    visits(sheet, renames)?;
    let mut text = String::new();
    for feature in endpoint::expansions(sheet, renames) {
        text.push('G');
        put_numbers(&mut text, [feature.connection, feature.side as usize]);
        put_numbers(&mut text, [feature.declared_feature]);
        put_numbers(&mut text, [feature.direction.unwrap_or(3)]);
        text.push_str(&format!("\n. {}\n", feature.prefix.unwrap_or_default()));
    }
    Ok(text)
}

fn resolutions(sheet: &Sheet, renames: Renames) -> String {
    let mut text = String::new();
    for resolution in resolve::resolutions(sheet, renames) {
        let (kind, row) = match resolution.found {
            Found::Nothing => (0, 0),
            Found::Type(row) => (1, row),
            Found::Implementation(row) => (2, row),
            Found::GroupType(row) => (3, row),
        };
        text.push('W');
        put_numbers(&mut text, [resolution.asking]);
        text.push_str(&format!(" {}", resolution.letter as char));
        put_numbers(&mut text, [resolution.row as u32, resolution.place]);
        put_numbers(&mut text, [kind, row]);
        text.push('\n');
    }
    text
}

fn answered_stream(arguments: &Arguments, input: &[u8]) -> Result<Vec<u8>, NoAnswer> {
    let cases = stream::read(input).map_err(|error| {
        eprintln!("oracle: {error}");
        NoAnswer::NotAccepted
    })?;
    let mut output = Vec::new();
    for mut case in cases {
        case.text = match text(arguments, &case.sheet) {
            Ok(text) => text.into_bytes(),
            Err(NoAnswer::NotAccepted) => Vec::new(),
            Err(NoAnswer::NotEnding) => return Err(NoAnswer::NotEnding),
        };
        output.extend(case.bytes());
    }
    Ok(output)
}
