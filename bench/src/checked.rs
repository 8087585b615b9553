//! The plans that are checked: seven settings, eight posts, one setting set again and again, false and true in turns, and
//! a stop. The goal is settled at every stop, and the first settings, that one among them, are known throughout.

use crate::asked::{all_true, book_of, N};

/// As many bytes as a plan may have.
pub const BYTES: usize = 32_640;
/// The setting that is set, and the post that sets it.
const SETTING: usize = 0;
const POST: usize = 0;
/// The byte of a set to false; that of a set to true is as much more as a kind has bytes.
const SET_FALSE: u8 = (1 + SETTING * 8 + POST) as u8;
const KIND: u8 = 7 * 8;

pub struct Checked {
    pub book: Vec<u8>,
    pub team: u8,
    pub known: u8,
    pub values: u8,
    pub make: [u8; 16],
    pub plan: Vec<u8>,
}

/// Every rule is open.
pub fn open(known: usize) -> Checked {
    checked(known, book_of(N, |_, _, _| u128::MAX))
}

/// Every rule asks for the values of all known settings but the one that is set: each is true.
pub fn of_known(known: usize) -> Checked {
    checked(known, book_of(N, |_, _, _| all_true(SETTING + 1..known)))
}

fn checked(known: usize, book: Vec<u8>) -> Checked {
    let known = u8::MAX >> (8 - known);
    let mut plan: Vec<u8> = (0..BYTES).map(|at| SET_FALSE + if at % 2 == 1 { KIND } else { 0 }).collect();
    plan[BYTES - 1] = 0;
    Checked { book, team: 1 << POST, known, values: known, make: u128::MAX.to_le_bytes(), plan }
}

/// How many settings are known, from one to all.
pub fn counts() -> std::ops::RangeInclusive<usize> {
    1..=N
}
