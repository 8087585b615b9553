//! A recorded shift run against a book, from the words of request R-1 and of issue 19's points 4 and 5 alone.
//!
//! The true settings are kept one by one, and a rule is asked about the valuation that they spell.

use crate::book::{self, Book, TABLES};
use crate::knowledge::{Act, Kind};
use crate::refusal::{refusal, Refusal};

/// Bytes of a record: the act byte and what was seen.
pub const RECORD: usize = 2;

/// The count of acts done, and the valuation they leave.
#[derive(Clone, Copy, PartialEq, Eq)]
pub struct Reached {
    pub count: u64,
    pub valuation: u64,
}

#[derive(Clone, Copy, PartialEq, Eq)]
pub struct Replayed {
    pub outcome: Result<(), Refusal>,
    /// With 6 to 9 and 26 no count and no valuation are given.
    pub reached: Option<Reached>,
}

/// The book's refusals, then 26, then by record 27, 28, 29.
pub fn replay(book: &[u8], start: u64, shift: &[u8]) -> Replayed {
    match book::read(book, usize::MAX) {
        Ok(book) => play(&book, start, shift),
        Err(refusal) => Replayed { outcome: Err(refusal), reached: None },
    }
}

/// The same of a book that nothing is refused of.
pub fn play(book: &Book, start: u64, shift: &[u8]) -> Replayed {
    if shift.len() % RECORD != 0 || start >= 1 << book.n {
        return Replayed { outcome: refusal(26, 0), reached: None };
    }
    let mut settings: Vec<bool> = (0..book.n).map(|i| start >> i & 1 == 1).collect();
    let mut outcome = Ok(());
    let mut count = 0;
    for record in shift.chunks(RECORD) {
        match judged(book, &settings, record[0], record[1]) {
            Ok(Act { kind: Kind::Set(value), setting, .. }) => settings[setting] = value,
            Ok(Act { kind: Kind::Look, .. }) => {}
            Err(number) => {
                outcome = refusal(number, count);
                break;
            }
        }
        count += 1;
    }
    Replayed { outcome, reached: Some(Reached { count: count as u64, valuation: spelt(&settings) as u64 }) }
}

/// The act of a record, or the number of its fault: 27 no act of this book or a second byte that is not 0 or 1 (not 0
/// for a set), 28 not permitted, 29 a look that disagrees.
fn judged(book: &Book, settings: &[bool], byte: u8, seen: u8) -> Result<Act, u32> {
    let act = Act::of_byte(byte).filter(|act| act.setting < book.n && act.post < book.m).ok_or(27u32)?;
    let could_be_seen: &[u8] = if act.kind == Kind::Look { &[0, 1] } else { &[0] };
    if !could_be_seen.contains(&seen) {
        return Err(27);
    }
    if !permitted(book, spelt(settings), act) {
        return Err(28);
    }
    if act.kind == Kind::Look && settings[act.setting] != (seen == 1) {
        return Err(29);
    }
    Ok(act)
}

/// Bit i of a valuation is setting i.
fn spelt(settings: &[bool]) -> usize {
    settings.iter().rev().fold(0, |valuation, &value| 2 * valuation + usize::from(value))
}

/// The table for post index q begins at byte 32 × q of its setting (look) and 16 later (set); bit v mod 8 of its byte
/// v / 8 tells its truth at v.
fn permitted(book: &Book, valuation: usize, act: Act) -> bool {
    let table = TABLES * act.setting + 32 * act.post + if act.kind == Kind::Look { 0 } else { 16 };
    book.rights[table + valuation / 8] >> (valuation % 8) & 1 == 1
}
