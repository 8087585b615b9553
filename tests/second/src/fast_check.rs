//! A plain plan check, to measure the proved one by: the same design, in ordinary Rust. bench/ takes this file, `fast.rs`,
//! whose look at the question it shares, and `fast_replay.rs`, which takes act bytes apart. The cases here only compare
//! it with `plan.rs`.
//!
//! One pass over the plan's bytes. A state is a knowledge number, taken apart into its digits at each byte; the true
//! outcomes of open looks wait in a small stack. A table is judged by two masks of a side, over the values of the unknown
//! settings alone.

use crate::fast::{refused, sound, BLOCK};
use crate::fast_replay::{Act, Kind};

const MOST: usize = 7;
const PLAN_MOST: usize = 32_640;
const TABLE: usize = 16;

const POWERS: [u32; MOST] = [1, 7, 49, 343, 2_401, 16_807, 117_649];
/// By digit: the digit after a set to false, and to true.
const SET: [[u8; 2]; MOST] = [[1, 2], [1, 2], [1, 2], [3, 4], [3, 4], [5, 6], [5, 6]];
/// The digit after a look that saw false, and true.
const SEEN: [u8; 2] = [3, 6];

/// Refusal 18's second number.
const KNOWN_SETTING: u64 = 0;
const SURELY_FALSE: u64 = 1;
const NOT_KNOWN: u64 = 2;
const HELD_SETTING: u64 = 3;

#[derive(Clone, Copy)]
enum Side {
    Start,
    Now,
}

impl Side {
    /// What a digit tells of the value on this side.
    fn told(self, digit: u8) -> Option<bool> {
        match (self, digit) {
            (Side::Start, 0..=2) | (Side::Now, 0) => None,
            (Side::Start, 3 | 4) | (Side::Now, 1 | 3 | 5) => Some(false),
            _ => Some(true),
        }
    }
}

enum Judgement {
    TrueAtAll,
    FalseAtAll,
    Neither,
}

/// A digit for each setting.
#[derive(Clone, Copy)]
struct Knowledge {
    digits: [u8; MOST],
}

impl Knowledge {
    fn at_start(known: u8, values: u8) -> Knowledge {
        let digit = |i| if known >> i & 1 == 1 { SEEN[usize::from(values >> i & 1)] } else { 0 };
        Knowledge { digits: std::array::from_fn(digit) }
    }

    fn of_number(number: u32) -> Knowledge {
        let mut digits = [0; MOST];
        let mut rest = number;
        for digit in &mut digits {
            *digit = (rest % 7) as u8;
            rest /= 7;
        }
        Knowledge { digits }
    }

    fn number(self) -> u32 {
        self.digits.iter().zip(POWERS).map(|(&digit, power)| u32::from(digit) * power).sum()
    }

    fn digit(self, setting: u8) -> u8 {
        self.digits[usize::from(setting)]
    }

    fn with_digit(mut self, setting: u8, digit: u8) -> Knowledge {
        self.digits[usize::from(setting)] = digit;
        self
    }

    fn after_set(self, setting: u8, value: bool) -> Knowledge {
        self.with_digit(setting, SET[usize::from(self.digit(setting))][usize::from(value)])
    }

    fn after_look(self, setting: u8, value: bool) -> Knowledge {
        self.with_digit(setting, SEEN[usize::from(value)])
    }

    /// What the valuations that fit a side say of a table.
    fn judge(self, n: u8, side: Side, table: &[u8]) -> Judgement {
        let (mut unknown, mut values) = (0, 0);
        for (i, &digit) in self.digits[..usize::from(n)].iter().enumerate() {
            match side.told(digit) {
                None => unknown |= 1 << i,
                Some(value) => values |= u8::from(value) << i,
            }
        }
        if always(table, true, unknown, values) {
            Judgement::TrueAtAll
        } else if always(table, false, unknown, values) {
            Judgement::FalseAtAll
        } else {
            Judgement::Neither
        }
    }
}

/// Whether the table has the value at these values, whichever of the unknown settings are true.
fn always(table: &[u8], value: bool, unknown: u8, values: u8) -> bool {
    let mut v = values;
    loop {
        if (table[usize::from(v / 8)] >> (v % 8) & 1 == 1) != value {
            return false;
        }
        if v & unknown == unknown {
            return true;
        }
        v = ((v | !unknown) + 1) & unknown | values;
    }
}

/// What a byte without a fault does.
enum Reading {
    Stops,
    Goes(u32),
    Parts(u32, u32),
}

struct Asked<'a> {
    n: u8,
    team: u8,
    held: u8,
    book: &'a [u8],
    make: &'a [u8],
    learn: &'a [u8],
}

impl Asked<'_> {
    fn settled(&self, state: Knowledge) -> bool {
        matches!(state.judge(self.n, Side::Now, self.make), Judgement::TrueAtAll)
            && self
                .learn
                .chunks_exact(TABLE)
                .all(|table| !matches!(state.judge(self.n, Side::Start, table), Judgement::Neither))
    }

    /// Why the act is not permitted, if it is not.
    fn denied(&self, state: Knowledge, act: Act) -> Option<u64> {
        let look = matches!(act.kind, Kind::Look);
        if !look && self.held >> act.setting & 1 == 1 {
            return Some(HELD_SETTING);
        }
        if look && state.digit(act.setting) != 0 {
            return Some(KNOWN_SETTING);
        }
        let at = BLOCK * (1 + usize::from(act.setting)) + 32 * usize::from(act.post) + if look { 0 } else { TABLE };
        match state.judge(self.n, Side::Now, &self.book[at..at + TABLE]) {
            Judgement::TrueAtAll => None,
            Judgement::FalseAtAll => Some(SURELY_FALSE),
            Judgement::Neither => Some(NOT_KNOWN),
        }
    }

    /// The byte with index `at`, or its refusal: 19, or 17 before 18 and 32 after it.
    fn read(&self, number: u32, at: usize, byte: u8) -> Result<Reading, u64> {
        let state = Knowledge::of_number(number);
        if byte == 0 {
            return if self.settled(state) { Ok(Reading::Stops) } else { Err(refused(19, at)) };
        }
        let named = Act::of_byte(byte).filter(|act| act.setting < self.n && self.team >> act.post & 1 == 1);
        let act = named.ok_or_else(|| refused(17, at))?;
        if let Some(why) = self.denied(state, act) {
            return Err((1 + why) << 40 | refused(18, at));
        }
        if let Kind::Set(value) = act.kind {
            if Side::Now.told(state.digit(act.setting)) == Some(value) {
                return Err(refused(32, at));
            }
        }
        let seen = |value| state.after_look(act.setting, value).number();
        Ok(match act.kind {
            Kind::Set(value) => Reading::Goes(state.after_set(act.setting, value).number()),
            Kind::Look => Reading::Parts(seen(false), seen(true)),
        })
    }

    /// The first fault in reading order, 17 to 21 and 32. A look makes one more setting known, so at most n states wait.
    fn walk(&self, start: u32, plan: &[u8]) -> Result<(), u64> {
        let mut here = Some(start);
        let mut waiting = [0; MOST];
        let mut count = 0;
        for (at, &byte) in plan.iter().enumerate() {
            let number = here.ok_or_else(|| refused(21, at))?;
            here = match self.read(number, at, byte)? {
                Reading::Stops if count == 0 => None,
                Reading::Stops => {
                    count -= 1;
                    Some(waiting[count])
                }
                Reading::Goes(next) => Some(next),
                Reading::Parts(no, yes) => {
                    waiting[count] = yes;
                    count += 1;
                    Some(no)
                }
            };
        }
        match here {
            None => Ok(()),
            Some(_) => Err(refused(20, plan.len())),
        }
    }
}

/// The same arguments and the same word as the library's `pj_plan_check`; the masks are team, known, values and held.
pub fn check(book: &[u8], masks: [u8; 4], make: &[u8], learn: &[u8], plan: &[u8]) -> u64 {
    let [team, known, values, held] = masks;
    match sound(book, masks, make, learn) {
        Err(word) => word,
        Ok(_) if plan.len() > PLAN_MOST => refused(16, 0),
        Ok(n) => {
            let asked = Asked { n: n as u8, team, held, book, make, learn };
            asked.walk(Knowledge::at_start(known, values).number(), plan).err().unwrap_or(0)
        }
    }
}
