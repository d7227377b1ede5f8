//! An output that is lent: full of rubbish before the call, and with guards around it.

use crate::library::Diagnostic;

const GUARDS: usize = 16;

/// What an output holds.
pub trait Cell: Copy + PartialEq {
    const RUBBISH: Self;
    const GUARD: Self;
    const ZERO: Self;
}

impl Cell for u32 {
    const RUBBISH: u32 = 0xA5A5_A5A5;
    const GUARD: u32 = 0x5A5A_5A5A;
    const ZERO: u32 = 0;
}

impl Cell for u8 {
    const RUBBISH: u8 = 0xA5;
    const GUARD: u8 = 0x5A;
    const ZERO: u8 = 0;
}

impl Cell for Diagnostic {
    const RUBBISH: Diagnostic = all(u32::RUBBISH);
    const GUARD: Diagnostic = all(u32::GUARD);
    const ZERO: Diagnostic = all(u32::ZERO);
}

const fn all(number: u32) -> Diagnostic {
    Diagnostic {
        code: number,
        connection: number,
        first: number,
        second: number,
    }
}

pub struct Lent<T> {
    cells: Vec<T>,
}

impl<T: Cell> Lent<T> {
    pub fn of_length(length: usize) -> Lent<T> {
        let mut cells = vec![T::GUARD; length + 2 * GUARDS];
        cells[GUARDS..GUARDS + length].fill(T::RUBBISH);
        Lent { cells }
    }

    fn length(&self) -> usize {
        self.cells.len() - 2 * GUARDS
    }

    pub fn lend(&mut self) -> &mut [T] {
        let length = self.length();
        &mut self.cells[GUARDS..GUARDS + length]
    }

    /// What the call left, if the guards stand.
    pub fn contents(&self) -> Result<&[T], String> {
        let (front, rest) = self.cells.split_at(GUARDS);
        let (inside, back) = rest.split_at(self.length());
        if front.iter().chain(back).all(|&cell| cell == T::GUARD) {
            Ok(inside)
        } else {
            Err("it wrote outside an output".to_string())
        }
    }

    /// What the call left in the first `used` places, if zeros stand in all others.
    pub fn used(&self, used: usize) -> Result<&[T], String> {
        let (front, unused) = self.contents()?.split_at(used);
        if unused.iter().all(|&cell| cell == T::ZERO) {
            Ok(front)
        } else {
            Err("an unused place is not zero".to_string())
        }
    }
}
