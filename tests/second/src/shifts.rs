//! Random shifts: faultless ones, made by doing what a book allows, and records at fault.
//!
//! What a book allows at each valuation is drawn up beforehand, act by act, and valuations are numbers here: a second
//! account beside that of `replay.rs`.

use crate::book::Book;
use crate::books::written;
use crate::knowledge::{Act, Kind, KINDS};
use crate::question::bits;
use crate::rng::Rng;
use crate::tables::{any_rights, rights, table};

/// A book, and what it allows.
pub struct Station {
    pub bytes: Vec<u8>,
    pub book: Book,
    /// For each valuation, the acts of the book that are allowed there and those that are not.
    allowed: Vec<Vec<Act>>,
    closed: Vec<Vec<Act>>,
}

/// A faultless shift, with the valuation before each of its records and the one after the last.
pub struct Played {
    pub shift: Vec<u8>,
    pub valuations: Vec<u64>,
}

impl Played {
    pub fn end(&self) -> u64 {
        self.valuations[self.valuations.len() - 1]
    }

    pub fn records(&self) -> usize {
        self.valuations.len() - 1
    }
}

/// Which of a book's tables is the rule of an act.
fn rule(act: Act) -> usize {
    16 * act.setting + 2 * act.post + usize::from(act.kind != Kind::Look)
}

/// A table's bit at a valuation is made this one.
fn turn(rights: &mut [u8], table: usize, valuation: usize, bit: bool) {
    let byte = &mut rights[16 * table + valuation / 8];
    *byte = *byte & !(1 << (valuation % 8)) | u8::from(bit) << (valuation % 8);
}

impl Station {
    pub fn of(n: usize, m: usize, rights: Vec<u8>) -> Station {
        let acts: Vec<Act> = (1..=168).filter_map(Act::of_byte).filter(|act| act.setting < n && act.post < m).collect();
        let rules: Vec<u128> = rights.chunks(16).map(bits).collect();
        let those = |valuation: u32, wanted: bool| -> Vec<Act> {
            acts.iter().copied().filter(|&act| (rules[rule(act)] >> valuation & 1 == 1) == wanted).collect()
        };
        let allowed = (0..1 << n).map(|valuation| those(valuation, true)).collect();
        let closed = (0..1 << n).map(|valuation| those(valuation, false)).collect();
        Station { bytes: written(n, m, &rights), book: Book { n, m, rights }, allowed, closed }
    }

    pub fn any(rng: &mut Rng, n: usize, m: usize) -> Station {
        Station::of(n, m, any_rights(rng, n, m))
    }

    pub fn open(n: usize, m: usize) -> Station {
        Station::of(n, m, rights(n, m, |_, _, _| table(n, u128::MAX)))
    }

    /// Any rules, but at each valuation some look is allowed and some act is not: a shift never has to end, and each
    /// fault can be at each record.
    pub fn lively(rng: &mut Rng, n: usize, m: usize) -> Station {
        let mut rights = any_rights(rng, n, m);
        for valuation in 0..1 << n {
            let act = |kind, rng: &mut Rng| rule(Act { kind, setting: rng.below(n), post: rng.below(m) });
            let look = act(Kind::Look, rng);
            let mut other = look;
            while other == look {
                let kind = rng.one_of(&KINDS);
                other = act(kind, rng);
            }
            turn(&mut rights, look, valuation, true);
            turn(&mut rights, other, valuation, false);
        }
        Station::of(n, m, rights)
    }

    pub fn any_start(&self, rng: &mut Rng) -> u64 {
        rng.below(1 << self.book.n) as u64
    }

    /// So many acts that are allowed, one after the other; fewer where none is allowed any more.
    pub fn faultless(&self, rng: &mut Rng, start: u64, records: usize) -> Played {
        let mut played = Played { shift: Vec::with_capacity(2 * records), valuations: vec![start] };
        for _ in 0..records {
            let now = played.end();
            let allowed = &self.allowed[now as usize];
            if allowed.is_empty() {
                break;
            }
            let act = rng.one_of(allowed);
            let (seen, next) = match act.kind {
                Kind::Set(false) => (0, now & !(1 << act.setting)),
                Kind::Set(true) => (0, now | 1 << act.setting),
                Kind::Look => ((now >> act.setting) as u8 & 1, now),
            };
            played.shift.extend([act.byte(), seen]);
            played.valuations.push(next);
        }
        played
    }

    /// A record with this fault at this valuation, where there is one: 27, 28 or 29.
    pub fn fault(&self, rng: &mut Rng, valuation: u64, number: u32) -> Option<[u8; 2]> {
        match number {
            27 => Some(self.no_record(rng)),
            28 => {
                let closed = &self.closed[valuation as usize];
                let act = (!closed.is_empty()).then(|| rng.one_of(closed))?;
                Some([act.byte(), if act.kind == Kind::Look { rng.below(2) as u8 } else { 0 }])
            }
            29 => {
                let looks: Vec<Act> = self.looks(valuation, true);
                let act = (!looks.is_empty()).then(|| rng.one_of(&looks))?;
                Some([act.byte(), 1 - (valuation >> act.setting & 1) as u8])
            }
            _ => panic!("{number} is no fault of a record"),
        }
    }

    /// The looks that are allowed at a valuation, or those that are not.
    pub fn looks(&self, valuation: u64, allowed: bool) -> Vec<Act> {
        let acts = if allowed { &self.allowed } else { &self.closed };
        acts[valuation as usize].iter().copied().filter(|act| act.kind == Kind::Look).collect()
    }

    /// The acts that are not allowed at a valuation.
    pub fn closed(&self, valuation: u64) -> &[Act] {
        &self.closed[valuation as usize]
    }

    pub fn any_act(&self, rng: &mut Rng) -> Act {
        Act { kind: rng.one_of(&KINDS), setting: rng.below(self.book.n), post: rng.below(self.book.m) }
    }

    /// Two bytes that are no record of the book, for one of the six causes.
    fn no_record(&self, rng: &mut Rng) -> [u8; 2] {
        let Book { n, m, .. } = self.book;
        let act = self.any_act(rng);
        let seen = rng.below(2) as u8;
        loop {
            return match rng.below(6) {
                0 => [0, seen],
                1 => [rng.between(169, 255) as u8, seen],
                2 if n < 7 => [Act { setting: rng.between(n, 6), ..act }.byte(), 0],
                3 if m < 8 => [Act { post: rng.between(m, 7), ..act }.byte(), 0],
                4 => [Act { kind: Kind::Look, ..act }.byte(), rng.between(2, 255) as u8],
                5 => [Act { kind: Kind::Set(seen == 1), ..act }.byte(), rng.between(1, 255) as u8],
                _ => continue,
            };
        }
    }
}
