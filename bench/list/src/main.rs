//! `bench_list FOLDER`: what the proved library and the original take for the same work, by time; `bench_list FOLDER --instructions`: by
//! instructions; `bench_list FOLDER --search`: how much of ours is for the search for children. FOLDER has the sheets of `groups.py`. The
//! second and the third start `bench_list --calls STREAM`, which makes the calls that are counted.

mod case;
mod figures;
mod instructions;
#[allow(dead_code)]
#[path = "../../../tests/differential/src/library.rs"]
mod library;
mod sheets;
mod subjects;
#[allow(dead_code)]
#[path = "../../../tests/differential/src/tables.rs"]
mod tables;
mod times;

/// The original over the stand-ins of `tests/oracle`.
#[path = "."]
mod plain {
    use ::oracle as base;
    use ::spar_hir_def as spar;
    #[allow(clippy::duplicate_mod)]
    pub mod original;
}

/// The original over maps and strings that work like those it was published with (`quick`).
#[path = "."]
mod quick {
    use ::quick_oracle as base;
    use ::quick_spar_hir_def as spar;
    #[allow(clippy::duplicate_mod, dead_code)]
    pub mod original;
}

use std::ffi::c_int;
use std::path::Path;

unsafe extern "C" {
    fn mallopt(parameter: c_int, value: c_int) -> c_int;
}

/// Has the C library keep the memory that the original gives back. Otherwise a call on a large model asks the system for it again, and
/// waits for that longer than it works.
fn keep_memory() {
    const TRIM_THRESHOLD: c_int = -1;
    const MMAP_THRESHOLD: c_int = -3;
    // The most that the second may be.
    const LARGEST: c_int = 32 << 20;
    // SAFETY: no other thread is there.
    let kept = unsafe { mallopt(TRIM_THRESHOLD, c_int::MAX) + mallopt(MMAP_THRESHOLD, LARGEST) };
    assert_eq!(kept, 2, "the C library takes both");
}

fn main() {
    keep_memory();
    let arguments: Vec<String> = std::env::args().skip(1).collect();
    let arguments: Vec<&str> = arguments.iter().map(String::as_str).collect();
    match arguments[..] {
        ["--calls", stream] => instructions::make_calls(Path::new(stream)),
        [folder] => {
            let groups = Path::new(folder);
            times::print(&subjects::classes(groups), &subjects::growing());
        }
        [folder, "--instructions"] => {
            let groups = Path::new(folder);
            let (classes, growing) = (subjects::classes(groups), subjects::growing());
            instructions::print(&classes, &growing, &groups.join("calls"));
        }
        [folder, "--search"] => {
            let groups = Path::new(folder);
            instructions::print_search(&subjects::classes(groups), &groups.join("calls"));
        }
        _ => {
            eprintln!(
                "usage: bench_list FOLDER [--instructions | --search], FOLDER filled by groups.py"
            );
            std::process::exit(2);
        }
    }
}
