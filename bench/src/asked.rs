//! The questions that are timed: seven settings where no other number is given, eight posts.

use crate::book;
use crate::rng::Rng;

pub const N: usize = 7;
pub const M: usize = 8;

pub struct Asked {
    pub book: Vec<u8>,
    pub team: u8,
    pub make: [u8; 16],
}

impl Asked {
    /// The same question as text: what is to be made is a conjunction, so a setting stands in it where it has one value
    /// at all valuations that are to be made.
    pub fn text(&self) -> String {
        let make = u128::from_le_bytes(self.make);
        let mut literals = Vec::new();
        for (i, name) in ('a'..='g').enumerate() {
            if make & letter(i) == make {
                literals.push(name.to_string());
            } else if make & !letter(i) == make {
                literals.push(format!("~{name}"));
            }
        }
        if literals.is_empty() {
            literals.push("1".to_string());
        }
        let posts: String = (0..M).filter(|q| self.team >> q & 1 == 1).map(|q| format!(" {}", q + 1)).collect();
        format!("team{posts}\nknown\nmake {}\n", literals.join("&"))
    }
}

/// Where setting i is true.
fn letter(i: usize) -> u128 {
    (0..128).filter(|v| v >> i & 1 == 1).fold(0, |bits, v| bits | 1 << v)
}

/// Where all these settings are true.
pub fn all_true(settings: std::ops::Range<usize>) -> u128 {
    settings.fold(u128::MAX, |bits, i| bits & letter(i))
}

/// Where some of n settings, each of them drawn with this chance, have drawn values.
pub fn conjunction(rng: &mut Rng, n: usize, percent: u32) -> u128 {
    let mut bits = u128::MAX;
    for i in 0..n {
        if rng.chance(percent) {
            bits &= if rng.chance(50) { letter(i) } else { !letter(i) };
        }
    }
    bits
}

/// The valuations of n settings.
fn valuations(n: usize) -> u128 {
    u128::MAX >> (128 - (1 << n))
}

/// A book of these rules, for a setting and a post, to look or else to set.
pub fn book_of(n: usize, mut rule: impl FnMut(usize, usize, bool) -> u128) -> Vec<u8> {
    let mut rights = Vec::with_capacity(n * 256);
    for setting in 0..n {
        for post in 0..M {
            for look in [true, false] {
                rights.extend((rule(setting, post, look) & valuations(n)).to_le_bytes());
            }
        }
    }
    book::write(n as u64, M as u64, &rights, usize::MAX).unwrap_or_else(|_| panic!("rights of a sound book"))
}

/// A team of the first posts; this percentage of the rules is closed, the others ask for the values of many settings,
/// and some looks are open; the goal is a few values.
pub fn random(rng: &mut Rng, n: usize, posts: usize, closed: u32) -> Asked {
    let book = book_of(n, |_, _, look| match rng.below(10) {
        _ if rng.chance(closed) => 0,
        0..=2 if look => u128::MAX,
        _ => conjunction(rng, n, 60),
    });
    Asked { book, team: u8::MAX >> (M - posts), make: (conjunction(rng, n, 50) & valuations(n)).to_le_bytes() }
}

/// Every rule is open, and the goal can't be made.
#[cfg(linked)]
pub fn open_in_vain(n: usize) -> Asked {
    Asked { book: book_of(n, |_, _, _| u128::MAX), team: u8::MAX, make: [0; 16] }
}

/// The book of the greatest rank, 2^(n+1) − 2: setting j may be looked at where all settings before it are true; it may be set
/// where the settings before j − 1 are true, j − 1 is false, and not all from j on are true. Post j has the rules of j.
pub fn hard(n: usize) -> Asked {
    let book = book_of(n, |j, post, look| match (post == j, look, j) {
        (false, _, _) => 0,
        (true, true, _) => all_true(0..j),
        (true, false, 0) => !all_true(0..n),
        (true, false, _) => all_true(0..j - 1) & !letter(j - 1) & !all_true(j..n),
    });
    Asked { book, team: u8::MAX, make: (all_true(0..n) & valuations(n)).to_le_bytes() }
}
