//! The lists beside the example sheets are the original's, and so is what is
//! shown of modes.

use std::fs;
use std::path::{Path, PathBuf};

use oracle::sheet::Sheet;
use oracle::{Options, conlist, modes};

fn directory() -> PathBuf {
    Path::new(env!("CARGO_MANIFEST_DIR")).join("../../examples")
}

#[test]
fn every_example_has_its_list() {
    let mut examples = 0;
    for entry in fs::read_dir(directory()).unwrap() {
        let path = entry.unwrap().path();
        if path.extension().is_some_and(|ending| ending == "sheet") {
            let list = fs::read_to_string(path.with_extension("list")).unwrap();
            let text = conlist(&fs::read(&path).unwrap(), Options::default());
            assert_eq!(text, Ok(list), "{}", path.display());
            examples += 1;
        }
    }
    assert!(examples >= 2);
}

/// The files with the selections of the pitch system, and README.md, which shows them below their commands.
#[test]
fn the_pitch_system_has_its_modes() {
    let file = |name: &str| fs::read_to_string(directory().join(name)).unwrap();
    let sheet = Sheet::accepted(file("pitch.sheet").as_bytes()).expect("accepted");
    let options = Options::default();
    for (words, kept, text) in [
        ("--modes", "pitch.modes", modes::count_text(&sheet)),
        (
            "--mode 5",
            "pitch.mode",
            modes::selection_text(&sheet, 5, options),
        ),
    ] {
        assert_eq!(file(kept), text, "{kept}");
        let lines: String = text.lines().map(|line| format!("    {line}\n")).collect();
        let shown = format!("\n    $ ./list {words} examples/pitch.sheet\n{lines}\n");
        assert!(file("README.md").contains(&shown), "README.md: {shown}");
    }
}
