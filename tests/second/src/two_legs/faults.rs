//! The faults that two legs can have, in the order in which they are told, and ways to put each into sound legs.

use crate::book::{BLOCK, CHECKED};
use crate::books::repaired;
use crate::legs::Legs;
use crate::question::Question;
use crate::refusal::Refusal;
use crate::rng::Rng;

use super::{ranks_of, Rooms};

#[derive(Clone, Copy, PartialEq, Eq)]
pub enum Fault {
    BookLength,
    Check,
    Head,
    StrayBit,
    Team,
    Known,
    Held,
    Goal,
    Team2,
    Goal2,
    RankRoom,
    RankRoom2,
    PlanRoom,
}

use Fault::*;

/// In the order in which they are told.
pub const FAULTS: [Fault; 13] =
    [BookLength, Check, Head, StrayBit, Team, Known, Held, Goal, Team2, Goal2, RankRoom, RankRoom2, PlanRoom];

/// In an order in which none hides another: checks are made right after a stray bit, and a book is cut at last.
pub const MADE: [Fault; 13] =
    [StrayBit, Head, Check, BookLength, Team, Known, Held, Goal, Team2, Goal2, RankRoom, RankRoom2, PlanRoom];

impl Fault {
    fn number(self) -> u32 {
        match self {
            BookLength => 6,
            Check => 7,
            Head => 8,
            StrayBit => 9,
            Team | Team2 => 10,
            Known => 11,
            Held => 31,
            Goal | Goal2 => 12,
            RankRoom | RankRoom2 => 13,
            PlanRoom => 14,
        }
    }
}

/// Legs of n settings and m posts, sound at first, and the rooms that are lent with them; `plan` is the plan's length.
pub struct Spoilt {
    pub legs: Legs,
    pub rooms: Rooms,
    pub n: usize,
    pub m: usize,
    pub plan: usize,
}

impl Spoilt {
    /// Puts the fault in, and gives the refusal that is due to it.
    pub fn by(&mut self, rng: &mut Rng, fault: Fault) -> Refusal {
        let (n, m, Legs { first, team, make, learn }) = (self.n, self.m, &mut self.legs);
        let mut place = 0;
        match fault {
            BookLength | Check | Head | StrayBit => place = spoil_book(rng, (n, m), fault, &mut first.book),
            Team => spoil_team(rng, m, &mut first.team),
            Known => spoil_known(rng, n, first),
            Held => first.held |= 1 << rng.between(n, 7),
            Goal => spoil_goal(rng, n, &mut first.make, &mut first.learn),
            Team2 => spoil_team(rng, m, team),
            Goal2 => spoil_goal(rng, n, make, learn),
            RankRoom => (self.rooms.ranks, place) = (shorter(rng, ranks_of(n)), 1),
            RankRoom2 => (self.rooms.ranks2, place) = (shorter(rng, ranks_of(n)), 2),
            PlanRoom => self.rooms.plan = self.plan.saturating_sub(1),
        }
        Refusal::at(fault.number(), place)
    }
}

fn shorter(rng: &mut Rng, length: usize) -> usize {
    rng.one_of(&[length - 1, length - 1, length / 2, 0])
}

/// Gives the block that the refusal names.
fn spoil_book(rng: &mut Rng, (n, m): (usize, usize), fault: Fault, book: &mut Vec<u8>) -> u32 {
    let block = rng.between(usize::from(fault == StrayBit), n);
    match fault {
        BookLength => {
            let length = rng.one_of(&[0, 1, BLOCK, book.len() - 1, book.len() + 1, 9 * BLOCK]);
            book.resize(length, 0);
            return 0;
        }
        Check => book[block * BLOCK + rng.between(CHECKED, BLOCK - 1)] ^= 1 << rng.below(8),
        Head => {
            let (place, byte) = rng.one_of(&[(0, 0), (0, n as u8 + 1), (1, 0), (1, 9), (1, 255), (2, 1), (507, 128)]);
            book[place] = byte;
            *book = repaired(book);
            return 0;
        }
        _ => {
            book[block * BLOCK + rng.between(32 * m, CHECKED - 1)] = rng.between(1, 255) as u8;
            *book = repaired(book);
        }
    }
    block as u32
}

fn spoil_team(rng: &mut Rng, m: usize, team: &mut u8) {
    match rng.below(2) {
        0 if m < 8 => *team |= 1 << rng.between(m, 7),
        _ => *team = 0,
    }
}

fn spoil_known(rng: &mut Rng, n: usize, first: &mut Question) {
    match rng.below(3) {
        0 => first.known |= 1 << rng.between(n, 7),
        1 => first.values |= !first.known,
        _ => first.values |= 128,
    }
}

/// A length that is wrong, or a bit past 2^n.
fn spoil_goal(rng: &mut Rng, n: usize, make: &mut Vec<u8>, learn: &mut Vec<u8>) {
    match rng.below(4) {
        0 => make.resize(rng.one_of(&[0, 15, 17, 32]), 0),
        1 => learn.resize(rng.one_of(&[1, 15, 17, 65, 80]), 0),
        2 if n < 7 => turn_past(rng, n, make),
        3 if n < 7 => {
            learn.resize(16 * rng.between(1, 4), 0);
            let last = learn.len() - 16;
            turn_past(rng, n, &mut learn[last..]);
        }
        _ => make.clear(),
    }
}

fn turn_past(rng: &mut Rng, n: usize, table: &mut [u8]) {
    let past = rng.between(1 << n, 127);
    table[past / 8] |= 1 << (past % 8);
}
