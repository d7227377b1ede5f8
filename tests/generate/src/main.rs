//! `generate FIRST COUNT`: the sheets of so many seeds.

use std::io::{self, BufWriter, Write};
use std::path::{Path, PathBuf};
use std::process::ExitCode;

use generate::{Sort, case};

const USAGE: &str = "\
usage: generate FIRST COUNT [--damaged | --wild | --modal] [--stream | --out DIR]

The sheets of the seeds FIRST, FIRST + 1, ..., COUNT of them.
  --damaged  sheets that earn a refusal
  --wild     accepted sheets with names that the original's text form of a rename loses
  --modal    accepted sheets with modes and little else
  --stream   to standard output, as a stream of cases without texts (as without an option)
  --out DIR  each to a file of its own, DIR/SEED.sheet";

struct Arguments {
    first: u64,
    count: u64,
    sort: Sort,
    directory: Option<PathBuf>,
}

fn main() -> ExitCode {
    let Some(arguments) = arguments() else {
        eprintln!("{USAGE}");
        return ExitCode::from(2);
    };
    let written = match &arguments.directory {
        Some(directory) => write_files(&arguments, directory),
        None => write_stream(&arguments),
    };
    match written {
        Ok(()) => ExitCode::SUCCESS,
        Err(error) => {
            eprintln!("generate: {error}");
            ExitCode::FAILURE
        }
    }
}

fn arguments() -> Option<Arguments> {
    let mut words = std::env::args().skip(1);
    let mut arguments = Arguments {
        first: words.next()?.parse().ok()?,
        count: words.next()?.parse().ok()?,
        sort: Sort::Accepted,
        directory: None,
    };
    while let Some(word) = words.next() {
        match word.as_str() {
            "--damaged" => arguments.sort = Sort::Damaged,
            "--wild" => arguments.sort = Sort::Wild,
            "--modal" => arguments.sort = Sort::Modal,
            "--stream" => arguments.directory = None,
            "--out" => arguments.directory = Some(words.next()?.into()),
            _ => return None,
        }
    }
    Some(arguments)
}

fn write_stream(arguments: &Arguments) -> io::Result<()> {
    let mut output = BufWriter::new(io::stdout().lock());
    for seed in arguments.first..arguments.first + arguments.count {
        output.write_all(&case(arguments.sort, seed).bytes())?;
    }
    output.flush()
}

fn write_files(arguments: &Arguments, directory: &Path) -> io::Result<()> {
    std::fs::create_dir_all(directory)?;
    for seed in arguments.first..arguments.first + arguments.count {
        let path = directory.join(format!("{seed}.sheet"));
        std::fs::write(path, case(arguments.sort, seed).sheet)?;
    }
    Ok(())
}
