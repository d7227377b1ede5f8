//! By instructions: how many a call takes, counted by callgrind. It runs this program again, which makes the calls in an order that both
//! know.

use std::collections::HashMap;
use std::fs;
use std::path::Path;
use std::process::Command;

use oracle::stream::{self, Case};

use crate::case::{Lent, numbers};
use crate::figures::{grouped, print_growth, ratio};
use crate::plain;
use crate::quick;
use crate::subjects::Subject;

/// The function that callgrind counts in. Whenever it is left, callgrind writes a file.
#[unsafe(no_mangle)]
#[inline(never)]
fn counted_call(call: &mut dyn FnMut()) {
    call();
}

/// In place of the C library's: the seed of the standard maps is then the same in every run, and so is every count.
#[unsafe(no_mangle)]
extern "C" fn getrandom(bytes: *mut u8, length: usize, _flags: u32) -> isize {
    // SAFETY: whoever asks for random bytes hands over room for them.
    unsafe { bytes.write_bytes(0, length) };
    length as isize
}

/// Has the C library set and copy memory by instructions that take some bytes each. The one that takes any number of bytes, with which it
/// sets and copies the longer parts, callgrind counts once for each byte.
const NO_LONG_INSTRUCTIONS: &str =
    "glibc.cpu.x86_rep_stosb_threshold=1000000000:glibc.cpu.x86_rep_movsb_threshold=1000000000";

/// How often the original is called for a count. The seed differs from map to map, and with it the order in which memory is given back,
/// which the next call finds, so its calls differ by some percent. The library's do not: it asks for no memory.
const REPEATS: usize = 9;

/// Makes every call for every case of a stream.
pub fn make_calls(stream: &Path) {
    let stream = fs::read(stream).expect("a file to read");
    for case in stream::read(&stream).expect("a stream of cases") {
        let mut lent = Lent::new(&case.sheet);
        counted_call(&mut || {
            lent.list_sheet(&case.sheet);
        });
        counted_call(&mut || {
            lent.list();
        });
        counted_call(&mut || {
            lent.check();
        });
        if !case.text.is_empty() {
            let numbers = numbers(&case.text);
            for _ in 0..REPEATS {
                plain::original::each_step(&case.sheet, &numbers, counted_call);
            }
            for _ in 0..REPEATS {
                quick::original::each_step(&case.sheet, &numbers, counted_call);
            }
        }
    }
}

/// The instructions of the library's calls.
#[derive(Clone, Copy, Default)]
struct Ours {
    whole: u64,
    list: u64,
    check: u64,
}

/// The instructions of the original's whole, and of each step.
#[derive(Clone, Copy, Default)]
struct Steps {
    whole: u64,
    read: u64,
    build: u64,
    list: u64,
    print: u64,
    give_back: u64,
}

/// The instructions of a subject. Those of the original, with the stand-ins of `tests/oracle` and with quick ones, are none where it is
/// not started.
struct Counts {
    ours: Ours,
    original: Option<(Steps, Steps)>,
}

impl Ours {
    /// Adds the calls of one case.
    fn add(&mut self, counts: &mut impl Iterator<Item = u64>) {
        let [whole, list, check] = medians(counts, 1);
        self.whole += whole;
        self.list += list;
        self.check += check;
    }
}

impl Steps {
    /// Adds the calls of one case.
    fn add(&mut self, counts: &mut impl Iterator<Item = u64>) {
        let [whole, read, build, list, print, give_back] = medians(counts, REPEATS);
        self.whole += whole;
        self.read += read;
        self.build += build;
        self.list += list;
        self.print += print;
        self.give_back += give_back;
    }
}

/// The medians of N calls that were made one after the other, as often as `repeats` says.
fn medians<const N: usize>(counts: &mut impl Iterator<Item = u64>, repeats: usize) -> [u64; N] {
    let counts: Vec<u64> = counts.take(N * repeats).collect();
    assert_eq!(counts.len(), N * repeats, "a count for each call");
    std::array::from_fn(|call| {
        let mut of_call: Vec<u64> = counts.iter().copied().skip(call).step_by(N).collect();
        of_call.sort_unstable();
        of_call[repeats / 2]
    })
}

impl Counts {
    /// The calls of a subject's cases, in the order in which they are made.
    fn of(subject: &Subject, counts: &mut impl Iterator<Item = u64>) -> Counts {
        let mut ours = Ours::default();
        let mut plain = Steps::default();
        let mut quick = Steps::default();
        for case in &subject.cases {
            ours.add(counts);
            if !case.text.is_empty() {
                plain.add(counts);
                quick.add(counts);
            }
        }
        Counts {
            ours,
            original: subject.has_original().then_some((plain, quick)),
        }
    }
}

/// Of every call for these cases what is read from the file that callgrind writes of it. `folder` is made for these files, and removed.
fn count<T>(cases: &[&Case], folder: &Path, read: impl Fn(&Path) -> T) -> Vec<T> {
    if folder.exists() {
        fs::remove_dir_all(folder).expect("a folder to remove");
    }
    fs::create_dir_all(folder).expect("a folder to make");
    let bytes: Vec<u8> = cases.iter().flat_map(|case| case.bytes()).collect();
    fs::write(folder.join("cases"), bytes).expect("a file to write");
    // Where memory lies depends on the environment and on the program's path, and how it is copied on where it lies.
    let program = std::env::current_exe().expect("the path of this program");
    fs::copy(program, folder.join("program")).expect("a program to copy");
    let status = Command::new("valgrind")
        .env_clear()
        .envs(std::env::var_os("PATH").map(|path| ("PATH", path)))
        .env("GLIBC_TUNABLES", NO_LONG_INSTRUCTIONS)
        .current_dir(folder)
        .args(["-q", "--tool=callgrind", "--callgrind-out-file=call"])
        .args(["--toggle-collect=counted_call", "--dump-after=counted_call"])
        .args(["./program", "--calls", "cases"])
        .status()
        .expect("valgrind starts");
    assert!(status.success(), "valgrind says {status}");
    let files = (1..).map(|number| folder.join(format!("call.{number}")));
    let files = files.take_while(|file| file.exists());
    let counts = files.map(|file| read(&file)).collect();
    fs::remove_dir_all(folder).expect("a folder to remove");
    counts
}

/// The instructions that a file of callgrind's is about.
fn total(file: &Path) -> u64 {
    let text = fs::read_to_string(file).expect("a file of callgrind's");
    let mut lines = text.lines();
    let total = lines.find_map(|line| line.strip_prefix("totals: "));
    total
        .and_then(|total| total.parse().ok())
        .expect("a line with the total")
}

/// The crates that look for children.
const SEARCH: [&str; 1] = ["children::"];

/// The instructions that a file of callgrind's is about, and those of them that are for a search: of a call of a function of these crates
/// by one of another, what is spent until it returns.
fn search(file: &Path) -> (u64, u64) {
    let text = fs::read_to_string(file).expect("a file of callgrind's");
    let (mut names, mut own, mut called, mut sum) = (HashMap::new(), false, false, 0);
    let mut lines = text.lines();
    while let Some(line) = lines.next() {
        let (what, value) = line.split_once('=').unwrap_or((line, ""));
        // A name stands behind its number where the number comes first.
        let (number, name) = value.split_once(' ').unwrap_or((value, ""));
        let mut searches = || {
            let known = names.entry(number.to_string());
            *known.or_insert_with(|| SEARCH.iter().any(|own| name.starts_with(own)))
        };
        match what {
            "fn" => own = searches(),
            "cfn" => called = searches(),
            "calls" => {
                let spent = lines.next().and_then(|line| line.split(' ').nth(1));
                let spent: u64 = spent.and_then(|spent| spent.parse().ok()).expect("a count");
                sum += if called && !own { spent } else { 0 };
            }
            _ => {}
        }
    }
    (total(file), sum)
}

/// How many of the library's instructions, sheet bytes to text bytes, are for the search for children.
pub fn print_search(classes: &[Subject], folder: &Path) {
    println!(
        "{:24} {:>14} {:>14} {:>8}",
        "sheet", "ours", "search", "percent"
    );
    for subject in classes {
        let ours = |case: &Case| Case {
            text: Vec::new(),
            ..case.clone()
        };
        let cases: Vec<Case> = subject.cases.iter().map(ours).collect();
        let counts = count(&cases.iter().collect::<Vec<_>>(), folder, search);
        // Of the three calls for a case the first is the whole.
        let whole = counts.iter().step_by(3);
        let (ours, search) = whole.fold((0, 0), |sum, own| (sum.0 + own.0, sum.1 + own.1));
        let percent = search as f64 * 100.0 / ours as f64;
        println!(
            "{:24} {:>14} {:>14} {percent:>8.1}",
            subject.name,
            grouped(ours),
            grouped(search)
        );
    }
}

fn times(ours: u64, original: u64) -> String {
    ratio(ours as f64, original as f64)
}

fn print_whole(rows: &[(&Subject, Counts)]) {
    println!("sheet bytes to text bytes");
    println!(
        "{:24} {:>7} {:>11} {:>14} {:>14} {:>12} {:>14} {:>12}",
        "sheet", "bytes", "rows", "ours", "Rust", "ours / Rust", "quick Rust", "ours / quick"
    );
    for (subject, counts) in rows {
        let ours = counts.ours.whole;
        print!(
            "{:24} {:>7} {:>11} {:>14} ",
            subject.name,
            subject.bytes(),
            subject.answer(),
            grouped(ours)
        );
        match counts.original {
            None => println!("{:>14} {:>12} {:>14} {:>12}", "-", "-", "-", "-"),
            Some((plain, quick)) => println!(
                "{:>14} {:>12} {:>14} {:>12}",
                grouped(plain.whole),
                times(ours, plain.whole),
                grouped(quick.whole),
                times(ours, quick.whole)
            ),
        }
    }
    println!();
}

fn print_listings(rows: &[(&Subject, Counts)]) {
    println!("the listings alone, on what is already built");
    println!(
        "{:24} {:>14} {:>14} {:>14} {:>12} {:>14} {:>12}",
        "sheet", "ours", "of it checks", "Rust", "ours / Rust", "quick Rust", "ours / quick"
    );
    for (subject, counts) in rows {
        let ours = counts.ours;
        print!(
            "{:24} {:>14} {:>14} ",
            subject.name,
            grouped(ours.list),
            grouped(ours.check)
        );
        match counts.original {
            None => println!("{:>14} {:>12} {:>14} {:>12}", "-", "-", "-", "-"),
            Some((plain, quick)) => println!(
                "{:>14} {:>12} {:>14} {:>12}",
                grouped(plain.list),
                times(ours.list, plain.list),
                grouped(quick.list),
                times(ours.list, quick.list)
            ),
        }
    }
    println!();
}

fn print_steps(rows: &[(&Subject, Counts)]) {
    println!(
        "what the Rust's instructions are for, and what quick stand-ins save of them, in percent"
    );
    println!(
        "{:24} {:>8} {:>9} {:>8} {:>9} {:>12} {:>10}",
        "sheet", "reading", "building", "listing", "printing", "giving back", "stand-ins"
    );
    for (subject, counts) in rows {
        let Some((plain, quick)) = counts.original else {
            continue;
        };
        let steps = plain.read + plain.build + plain.list + plain.print + plain.give_back;
        let percent = |part: u64| format!("{:.1}", part as f64 * 100.0 / steps as f64);
        let left = quick.whole as f64 / plain.whole as f64;
        println!(
            "{:24} {:>8} {:>9} {:>8} {:>9} {:>12} {:>10.1}",
            subject.name,
            percent(plain.read),
            percent(plain.build),
            percent(plain.list),
            percent(plain.print),
            percent(plain.give_back),
            (1.0 - left) * 100.0,
        );
    }
    println!();
}

pub fn print(classes: &[Subject], growing: &[Subject], folder: &Path) {
    let subjects = || classes.iter().chain(growing);
    let cases: Vec<&Case> = subjects().flat_map(|subject| &subject.cases).collect();
    let mut counts = count(&cases, folder, total).into_iter();
    let mut rows: Vec<(&Subject, Counts)> = subjects()
        .map(|subject| (subject, Counts::of(subject, &mut counts)))
        .collect();
    assert!(counts.next().is_none(), "a call for each count");
    let growth = rows.split_off(classes.len());
    println!("instructions of one call; - where the original does not end or not soon\n");
    print_whole(&rows);
    print_listings(&rows);
    print_steps(&rows);
    let growth: Vec<(&Subject, f64, f64)> = growth
        .iter()
        .map(|(subject, counts)| {
            let (plain, _) = counts.original.expect("the original ends");
            (*subject, counts.ours.whole as f64, plain.whole as f64)
        })
        .collect();
    print_growth(&growth, |count| grouped(count as u64));
}
