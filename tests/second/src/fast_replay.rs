//! A plain replay, to measure the proved one by: the same design, in ordinary Rust. bench/ takes this file and
//! `fast.rs`, whose look at the book it shares; `fast_check.rs` has its acts from here. The cases here only compare it
//! with `replay.rs`.
//!
//! One pass over the shift, and one running record. Each record's byte is taken apart where it is met, and its rule is
//! looked up in the book's own bytes.

use crate::fast::{refused, sound_book, BLOCK};

#[derive(Clone, Copy)]
pub enum Kind {
    Set(bool),
    Look,
}

#[derive(Clone, Copy)]
pub struct Act {
    pub kind: Kind,
    pub setting: u8,
    pub post: u8,
}

impl Act {
    pub fn of_byte(byte: u8) -> Option<Act> {
        let place = byte.checked_sub(1)?;
        let kind = match place / 56 {
            0 => Kind::Set(false),
            1 => Kind::Set(true),
            2 => Kind::Look,
            _ => return None,
        };
        Some(Act { kind, setting: place / 8 % 7, post: place % 8 })
    }
}

struct Station<'a> {
    n: u8,
    m: u8,
    book: &'a [u8],
}

impl Station<'_> {
    /// The act of a record, where it is allowed at these settings and shows what was recorded; or 27, 28, 29.
    fn judge(&self, present: u8, byte: u8, seen: u8) -> Result<Act, u64> {
        let act = Act::of_byte(byte).filter(|act| act.setting < self.n && act.post < self.m).ok_or(27u64)?;
        let look = matches!(act.kind, Kind::Look);
        if seen > u8::from(look) {
            return Err(27);
        }
        let table = BLOCK * (1 + usize::from(act.setting)) + 32 * usize::from(act.post) + if look { 0 } else { 16 };
        if self.book[table + usize::from(present / 8)] >> (present % 8) & 1 == 0 {
            return Err(28);
        }
        if look && present >> act.setting & 1 != seen {
            return Err(29);
        }
        Ok(act)
    }
}

/// The running record.
struct Running {
    present: u8,
    count: usize,
}

impl Running {
    fn step(&mut self, act: Act) {
        match act.kind {
            Kind::Set(true) => self.present |= 1 << act.setting,
            Kind::Set(false) => self.present &= !(1 << act.setting),
            Kind::Look => {}
        }
        self.count += 1;
    }
}

/// The same arguments and the same word as the library's `pj_replay`.
pub fn replay(book: &[u8], start: u64, shift: &[u8], reached: &mut [u64; 2]) -> u64 {
    let (n, m) = match sound_book(book) {
        Ok(size) => size,
        Err(word) => return word,
    };
    if shift.len() % 2 != 0 || start >> n != 0 {
        return refused(26, 0);
    }
    let station = Station { n: n as u8, m: m as u8, book };
    let mut running = Running { present: start as u8, count: 0 };
    let mut word = 0;
    for record in shift.chunks_exact(2) {
        match station.judge(running.present, record[0], record[1]) {
            Ok(act) => running.step(act),
            Err(number) => {
                word = refused(number, running.count & 0xffff_ffff);
                break;
            }
        }
    }
    *reached = [running.count as u64, u64::from(running.present)];
    word
}
