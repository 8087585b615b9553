//! Random tables of rules, of the kinds that people write and of all others.

use crate::formula::{self, Table};
use crate::grow::{sentence, SHAPES};
use crate::rng::Rng;

/// A table of n settings from bits for all 128 valuations; bits past 2^n are dropped.
pub fn table(n: usize, bits: u128) -> Table {
    (bits & all(n)).to_le_bytes()
}

/// The bits of all valuations of n settings.
pub fn all(n: usize) -> u128 {
    u128::MAX >> (128 - (1u32 << n))
}

/// Where setting i is true.
pub fn letter(i: usize) -> u128 {
    const LETTERS: [u128; 7] = letters();
    LETTERS[i]
}

const fn letters() -> [u128; 7] {
    let mut letters = [0; 7];
    let mut v = 0;
    while v < 128 {
        let mut i = 0;
        while i < 7 {
            letters[i] |= (v >> i & 1) << v;
            i += 1;
        }
        v += 1;
    }
    letters
}

pub fn any_table(rng: &mut Rng, n: usize) -> Table {
    let bits = match rng.below(10) {
        0 => 0,
        1 | 2 => u128::MAX,
        3..=5 => conjunction(rng, n, 40),
        6 => !conjunction(rng, n, 40),
        7 => any_bits(rng),
        8 => any_bits(rng) & any_bits(rng) & any_bits(rng),
        _ => return any_formula(rng, n),
    };
    table(n, bits)
}

/// Where some settings, each of them drawn with this chance, have drawn values.
pub fn conjunction(rng: &mut Rng, n: usize, percent: u32) -> u128 {
    let mut bits = u128::MAX;
    for i in 0..n {
        if rng.chance(percent) {
            bits &= if rng.chance(50) { letter(i) } else { !letter(i) };
        }
    }
    bits
}

fn any_bits(rng: &mut Rng) -> u128 {
    u128::from(rng.number()) << 64 | u128::from(rng.number())
}

fn any_formula(rng: &mut Rng, n: usize) -> Table {
    let shape = rng.one_of(SHAPES);
    let length = rng.between(1, 40);
    let text = sentence(rng, shape, n, length);
    formula::read(n as u64, &text).unwrap_or_else(|refusal| panic!("a sentence was {refusal}"))
}

/// The n × 256 table bytes of a book of m posts, from the rule for a setting and a post, to look or else to set. Tables
/// of posts that don't exist are zero.
pub fn rights(n: usize, m: usize, mut rule: impl FnMut(usize, usize, bool) -> Table) -> Vec<u8> {
    let mut rights = Vec::with_capacity(n * 256);
    for setting in 0..n {
        for post in 0..8 {
            for look in [true, false] {
                rights.extend(if post < m { rule(setting, post, look) } else { [0; 16] });
            }
        }
    }
    rights
}

pub fn any_rights(rng: &mut Rng, n: usize, m: usize) -> Vec<u8> {
    rights(n, m, |_, _, _| any_table(rng, n))
}
