//! By time: medians in microseconds. Both sides are called in turns in one process, so what else the machine does hits both alike.

use std::hint::black_box;
use std::time::{Duration, Instant};

use crate::case::{Lent, numbers};
use crate::figures::{print_growth, ratio};
use crate::plain::original;
use crate::subjects::Subject;

/// The time that a row of a table may take, and how many rounds it has.
const BUDGET: Duration = Duration::from_millis(500);
const LEAST_ROUNDS: usize = 7;
const MOST_ROUNDS: usize = 20_000;

/// The times of one call on each side, of several sheets added; nothing of the original where it is not started.
#[derive(Clone, Copy, Default)]
struct Round {
    ours: Duration,
    original: Duration,
}

/// What a row of a table says of its rounds.
struct Times {
    ours: f64,
    original: Option<Beside>,
}

/// The original's median, and the first and third quartile of how many times as long ours takes, round by round.
struct Beside {
    median: f64,
    quartiles: (f64, f64),
}

/// The time of a call. What it gives is dropped outside the timed part.
fn time<R>(call: impl FnOnce() -> R) -> Duration {
    let start = Instant::now();
    let result = black_box(call());
    let time = start.elapsed();
    drop(result);
    time
}

/// Sheet bytes to text bytes.
fn time_whole(subject: &Subject) -> Times {
    let mut calls: Vec<_> = subject
        .cases
        .iter()
        .map(|case| (case, Lent::new(&case.sheet), numbers(&case.text)))
        .collect();
    measure(subject.has_original(), |round| {
        for (case, lent, numbers) in &mut calls {
            round.ours += time(|| lent.list_sheet(&case.sheet));
            if !case.text.is_empty() {
                round.original += time(|| original::list_sheet(&case.sheet, numbers));
            }
        }
    })
}

/// The listings alone, on tables and on a model that are already built.
fn time_listings(subject: &Subject) -> Times {
    let mut calls: Vec<_> = subject
        .cases
        .iter()
        .map(|case| (case, Lent::new(&case.sheet), original::read(&case.sheet)))
        .collect();
    measure(subject.has_original(), |round| {
        for (case, lent, sheet) in &mut calls {
            round.ours += time(|| lent.list());
            if !case.text.is_empty() {
                let mut model = original::build(sheet);
                round.original += time(|| original::list(&mut model));
            }
        }
    })
}

fn measure(has_original: bool, mut make: impl FnMut(&mut Round)) -> Times {
    let mut rounds: Vec<Round> = Vec::new();
    let start = Instant::now();
    while rounds.len() < LEAST_ROUNDS || (start.elapsed() < BUDGET && rounds.len() < MOST_ROUNDS) {
        let mut round = Round::default();
        make(&mut round);
        rounds.push(round);
    }
    let ours = sorted(&rounds, |round| round.ours.as_secs_f64() * 1e6);
    let ours = quartile(&ours, 2);
    if !has_original {
        return Times {
            ours,
            original: None,
        };
    }
    let original = sorted(&rounds, |round| round.original.as_secs_f64() * 1e6);
    let ratios = sorted(&rounds, |round| {
        round.ours.as_secs_f64() / round.original.as_secs_f64()
    });
    Times {
        ours,
        original: Some(Beside {
            median: quartile(&original, 2),
            quartiles: (quartile(&ratios, 1), quartile(&ratios, 3)),
        }),
    }
}

fn sorted(rounds: &[Round], figure: impl Fn(&Round) -> f64) -> Vec<f64> {
    let mut figures: Vec<f64> = rounds.iter().map(figure).collect();
    figures.sort_unstable_by(f64::total_cmp);
    figures
}

/// The first quartile, the second, which is the median, or the third.
fn quartile(figures: &[f64], which: usize) -> f64 {
    figures[figures.len() * which / 4]
}

fn print_table(title: &str, subjects: &[Subject], times: impl Fn(&Subject) -> Times) {
    println!("{title}");
    println!(
        "{:24} {:>7} {:>11} {:>12} {:>12} {:>12}   quartiles",
        "sheet", "bytes", "rows", "ours", "Rust", "ours / Rust"
    );
    for subject in subjects {
        let times = times(subject);
        print!(
            "{:24} {:>7} {:>11} {:>12.2} ",
            subject.name,
            subject.bytes(),
            subject.answer(),
            times.ours
        );
        match times.original {
            None => println!("{:>12} {:>12}   -", "-", "-"),
            Some(Beside {
                median,
                quartiles: (first, third),
            }) => println!(
                "{median:>12.2} {:>12}   {} to {}",
                ratio(times.ours, median),
                ratio(first, 1.0),
                ratio(third, 1.0)
            ),
        }
    }
    println!();
}

pub fn print(classes: &[Subject], growing: &[Subject]) {
    println!("microseconds, medians; - where the original does not end or not soon\n");
    print_table("sheet bytes to text bytes", classes, time_whole);
    print_table(
        "the listings alone, on what is already built",
        classes,
        time_listings,
    );
    let growth: Vec<(&Subject, f64, f64)> = growing
        .iter()
        .map(|subject| {
            let times = time_whole(subject);
            let original = times.original.expect("the original ends");
            (subject, times.ours, original.median)
        })
        .collect();
    print_growth(&growth, |time| format!("{time:.2}"));
}
