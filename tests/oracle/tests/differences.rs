//! The sheets of `docs/DIFFERENCES.md`.

use std::fs;
use std::path::{Path, PathBuf};

use oracle::model::Renames;
use oracle::{NoAnswer, Options, conlist};

/// The sheets, without their ending: with a text of the Rust or without one.
fn sheets(with_rust: bool) -> Vec<PathBuf> {
    let directory = Path::new(env!("CARGO_MANIFEST_DIR")).join("../vectors/differences");
    let mut sheets = Vec::new();
    for entry in fs::read_dir(directory).unwrap() {
        let path = entry.unwrap().path();
        let is_sheet = path.extension().is_some_and(|ending| ending == "sheet");
        if is_sheet && path.with_extension("rust").exists() == with_rust {
            sheets.push(path);
        }
    }
    assert!(!sheets.is_empty());
    sheets
}

fn text(path: &Path, ending: &str) -> String {
    fs::read_to_string(path.with_extension(ending)).unwrap()
}

fn answer(path: &Path, options: Options) -> Result<String, NoAnswer> {
    conlist(&fs::read(path).unwrap(), options)
}

#[test]
fn the_rust_gives_its_text_and_with_exact_renames_ours() {
    let exact = Options {
        renames: Renames::Exact,
        ..Options::default()
    };
    for path in sheets(true) {
        let rust = answer(&path, Options::default());
        assert_eq!(rust, Ok(text(&path, "rust")), "{}", path.display());
        let ours = answer(&path, exact);
        assert_eq!(ours, Ok(text(&path, "ours")), "{}", path.display());
    }
}

#[test]
fn where_the_rust_does_not_end_a_refusal_is_owed() {
    let unlimited = Options {
        unlimited: true,
        ..Options::default()
    };
    for path in sheets(false) {
        assert_eq!(answer(&path, unlimited), Err(NoAnswer::NotEnding));
        let owed = answer(&path, Options::default());
        assert_eq!(owed, Ok(text(&path, "ours")), "{}", path.display());
    }
}
