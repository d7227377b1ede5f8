//! The oracle runs the original: the five files are the published ones, the
//! crate takes them from `docs/src`, and the instrumented copy and the one
//! without a limit differ from their originals in the marked lines only.

mod sha256;

use std::fs;
use std::path::{Path, PathBuf};

const CRATE: &str = "crates/spar-hir-def/src";
const FILES: [&str; 5] = [
    "feature_group.rs",
    "instance.rs",
    "item_tree/mod.rs",
    "name.rs",
    "resolver.rs",
];

fn here() -> &'static Path {
    Path::new(env!("CARGO_MANIFEST_DIR"))
}

fn originals() -> PathBuf {
    here().join("../../docs/src")
}

#[test]
fn sha256_of_the_standards_examples() {
    let empty = "e3b0c44298fc1c149afbf4c8996fb92427ae41e4649b934ca495991b7852b855";
    let abc = "ba7816bf8f01cfea414140de5dae2223b00361a396177a9cb410ff61f20015ad";
    assert_eq!(sha256::hex(b""), empty);
    assert_eq!(sha256::hex(b"abc"), abc);
}

#[test]
fn the_originals_have_their_checksums() {
    let list = fs::read_to_string(originals().join("ORIGINALS.sha256")).unwrap();
    let mut listed = Vec::new();
    for line in list.lines() {
        let (checksum, path) = line.split_once("  ").unwrap();
        let contents = fs::read(originals().join(path)).unwrap();
        assert_eq!(sha256::hex(&contents), checksum, "{path}");
        listed.push(path);
    }
    for file in FILES {
        assert!(listed.contains(&format!("{CRATE}/{file}").as_str()));
    }
}

#[test]
fn the_crate_takes_the_originals() {
    for file in FILES {
        let taken = fs::read(here().join("spar-hir-def/src").join(file)).unwrap();
        let original = fs::read(originals().join(CRATE).join(file)).unwrap();
        assert!(taken == original, "{file}");
    }
}

#[test]
fn the_copy_that_counts_is_the_original_but_for_the_marked_lines() {
    let body = |text: &str| -> Vec<String> {
        text.lines()
            .skip_while(|line| !line.starts_with("/// Expand a feature group type"))
            .filter(|line| !line.ends_with("// COUNT"))
            .map(str::to_string)
            .collect()
    };
    let original = body(&original("feature_group.rs"));
    let copy = body(include_str!("../src/visits.rs"));
    assert!(original.len() > 100);
    assert_eq!(original, copy);
}

/// The parts of `instance.rs` that trace: how each begins, and what stands behind it.
const TRACING: [[&str; 2]; 5] = [
    [
        "    /// Resolve the `Connection_Pattern` property",
        "    /// Total number of component instances.",
    ],
    [
        "    /// Compute semantic (end-to-end) connection instances",
        "    /// Expand feature group connections into",
    ],
    [
        "    /// Find child component instances matching",
        "    /// Return a multi-line summary of the instance model.",
    ],
    [
        "/// Connection pattern for array subcomponent connections",
        "/// Compute the number of array elements",
    ],
    [
        "/// Extract the base name from an array instance name.",
        "/// Collected members from walking",
    ],
];

/// The limit on the steps of a chain, and what the copy has in its place.
const LIMIT: &str = "        const MAX_TRACE_DEPTH: usize = 20;";
const NO_LIMIT: &str = "        const MAX_TRACE_DEPTH: usize = usize::MAX; // LIFTED";

#[test]
fn the_copy_without_a_limit_is_the_original_but_for_the_marked_lines() {
    let instance = original("instance.rs");
    let place = |start: &str| {
        let starts = |line: &&str| line.starts_with(start);
        assert_eq!(instance.lines().filter(starts).count(), 1, "{start}");
        instance.lines().position(|line| line.starts_with(start))
    };
    let mut original = Vec::new();
    for [first, behind] in TRACING {
        let (first, behind) = (place(first).unwrap(), place(behind).unwrap());
        original.extend(instance.lines().take(behind).skip(first));
    }
    original.retain(|line| !line.is_empty());
    let copy = include_str!("../src/lifted.rs");
    let copy: Vec<&str> = copy
        .lines()
        .skip_while(|line| !line.starts_with(TRACING[0][0]))
        .map(|line| if line == NO_LIMIT { LIMIT } else { line })
        .filter(|line| !line.is_empty() && !line.ends_with("// LIFTED"))
        .collect();
    assert!(original.len() > 400);
    assert_eq!(original.iter().filter(|&&line| line == LIMIT).count(), 1);
    assert_eq!(original, copy);
}

/// The text of one of the files.
fn original(file: &str) -> String {
    fs::read_to_string(originals().join(CRATE).join(file)).unwrap()
}
