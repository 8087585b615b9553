//! The shifts that are timed: a million records without a fault, seven settings, eight posts. Each act is drawn from
//! those that the book allows at the valuation that the acts before it leave.

use crate::asked::{book_of, conjunction, M, N};
use crate::rng::Rng;

pub const RECORDS: usize = 1_000_000;

pub struct Recorded {
    pub book: Vec<u8>,
    pub start: u64,
    pub shift: Vec<u8>,
}

/// Every rule is open.
pub fn open(rng: &mut Rng) -> Recorded {
    recorded(rng, book_of(N, |_, _, _| u128::MAX))
}

/// Each rule asks for the values of several settings, or is closed; some looks are open.
pub fn of_several(rng: &mut Rng) -> Recorded {
    let book = book_of(N, |_, _, look| match rng.below(10) {
        0 if look => u128::MAX,
        0 => 0,
        _ => conjunction(rng, N, 50),
    });
    recorded(rng, book)
}

fn recorded(rng: &mut Rng, book: Vec<u8>) -> Recorded {
    let allowed: Vec<Vec<usize>> = (0..1 << N).map(|valuation| acts_at(&book, valuation)).collect();
    let start = rng.below(1 << N);
    let mut valuation = start;
    let mut shift = Vec::with_capacity(2 * RECORDS);
    for _ in 0..RECORDS {
        let acts = &allowed[valuation];
        assert!(!acts.is_empty(), "nothing is allowed at {valuation}");
        let act = rng.one_of(acts);
        let bit = 1 << (act / 8 % 7);
        let seen = match act / 56 {
            0 => {
                valuation &= !bit;
                false
            }
            1 => {
                valuation |= bit;
                false
            }
            _ => valuation & bit != 0,
        };
        shift.extend([1 + act as u8, u8::from(seen)]);
    }
    Recorded { book, start: start as u64, shift }
}

/// The acts that are allowed at a valuation, each a byte of a plan less one: (kind × 7 + setting) × 8 + post.
fn acts_at(book: &[u8], valuation: usize) -> Vec<usize> {
    let allowed = |act: &usize| {
        let (kind, setting, post) = (act / 56, act / 8 % 7, act % 8);
        let table = 512 * (1 + setting) + 32 * post + if kind == 2 { 0 } else { 16 };
        book[table + valuation / 8] >> (valuation % 8) & 1 == 1
    };
    (0..3 * N * M).filter(allowed).collect()
}
