//! The array indices of components: small ones, as elements are counted, and
//! serial numbers of up to 64 bits, most of them where a narrower number ends
//! or would be taken for a missing one.

use oracle::letters::{array_index, put_array_index};

use crate::draft::Draft;
use crate::random::Random;

/// The largest number of six digits.
const SIX_DIGITS: u64 = 999_999;

/// All low 32 bits, the largest number that they hold.
const LOW_BITS: u64 = u32::MAX as u64;

/// The smallest number of twenty digits.
const TWENTY_DIGITS: u64 = 10_u64.pow(19);

impl Draft {
    /// Gives the array elements indices of every length. In one sheet of five they keep those that they have.
    pub fn index_components(&mut self) {
        let Draft { random, sheet, .. } = self;
        if random.chance(20) {
            return;
        }
        for row in &mut sheet.components {
            if array_index(row).is_some() {
                put_array_index(row, Some(index(random)));
            }
        }
    }
}

/// An index of some kind, each kind as often as the others.
fn index(random: &mut Random) -> u64 {
    let some = random.bits();
    match random.below(12) {
        0 => some % 5,
        1 => about(random, SIX_DIGITS),
        2 => SIX_DIGITS + 1 + some % (LOW_BITS - SIX_DIGITS),
        3 => about(random, LOW_BITS),
        4 => LOW_BITS,
        // High bits alone, with all low bits, and with a few.
        5 => (1 + some % LOW_BITS) << 32,
        6 => some | LOW_BITS,
        7 => (1 + some % 9) << 32 | random.below(9) as u64,
        8 => TWENTY_DIGITS + some % (u64::MAX - TWENTY_DIGITS),
        9 => u64::MAX,
        // All lengths, then mostly the longest.
        10 => some >> random.below(64),
        _ => some,
    }
}

/// The number, the one before it or the one behind it.
fn about(random: &mut Random, number: u64) -> u64 {
    number - 1 + random.below(3) as u64
}
