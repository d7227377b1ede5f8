//! Links the archive of the proved library.

use std::path::Path;

fn main() {
    let folder = Path::new(env!("CARGO_MANIFEST_DIR")).join("../../crates/conlist_c/out");
    let archive = folder.join("libconlist_c.a");
    assert!(
        archive.exists(),
        "{} is missing: tests/libraries builds it",
        archive.display()
    );
    println!("cargo:rerun-if-changed={}", archive.display());
    println!("cargo:rustc-link-search=native={}", folder.display());
    println!("cargo:rustc-link-lib=static=conlist_c");
}
