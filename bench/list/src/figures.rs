//! How figures are printed.

use crate::subjects::Subject;

/// A number with a comma before every three digits from the right.
pub fn grouped(number: u64) -> String {
    let digits = number.to_string();
    let mut text = String::new();
    for (place, digit) in digits.char_indices() {
        if place > 0 && (digits.len() - place).is_multiple_of(3) {
            text.push(',');
        }
        text.push(digit);
    }
    text
}

/// How many times the other the one is.
pub fn ratio(one: f64, other: f64) -> String {
    let ratio = one / other;
    if ratio < 100.0 {
        format!("{ratio:.2}")
    } else {
        grouped(ratio.round() as u64)
    }
}

/// The figures of both sides for one shape of sheet at several sizes, and the factor from each size to the next.
pub fn print_growth(rows: &[(&Subject, f64, f64)], show: impl Fn(f64) -> String) {
    println!("sheet bytes to text bytes against size: n connections between n pairs of children");
    println!(
        "{:>4} {:>7} {:>14} {:>8} {:>14} {:>8}",
        "n", "bytes", "ours", "factor", "Rust", "factor"
    );
    for (place, &(subject, ours, original)) in rows.iter().enumerate() {
        let before = place.checked_sub(1).map(|before| rows[before]);
        let factor = |now: f64, then: Option<f64>| match then {
            None => "-".to_string(),
            Some(then) => ratio(now, then),
        };
        println!(
            "{:>4} {:>7} {:>14} {:>8} {:>14} {:>8}",
            subject.name,
            subject.bytes(),
            show(ours),
            factor(ours, before.map(|(_, ours, _)| ours)),
            show(original),
            factor(original, before.map(|(_, _, original)| original)),
        );
    }
}
