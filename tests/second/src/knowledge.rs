//! Knowledge and acts, from paper 01's section on them alone.
//!
//! A setting's knowledge is kept as the paper's table has it: a start and a present value, each of them perhaps
//! unknown. A digit is a row of that table, and what a set or a look does is done to the pair.

use crate::tables::{all, letter};

pub const SETTINGS_MOST: usize = 7;

/// What the team knows of one setting.
#[derive(Clone, Copy, PartialEq, Eq, Debug)]
pub struct Known {
    pub start: Option<bool>,
    pub now: Option<bool>,
}

const fn row(start: Option<bool>, now: Option<bool>) -> Known {
    Known { start, now }
}

/// The paper's table of digits, row by row.
pub const DIGITS: [Known; 7] = [
    row(None, None),
    row(None, Some(false)),
    row(None, Some(true)),
    row(Some(false), Some(false)),
    row(Some(false), Some(true)),
    row(Some(true), Some(false)),
    row(Some(true), Some(true)),
];

/// What the team knows of all n settings.
#[derive(Clone, Copy, PartialEq, Eq)]
pub struct Knowledge {
    pub n: usize,
    settings: [Known; SETTINGS_MOST],
}

impl Knowledge {
    /// At the start each digit is 0, 3 or 6.
    pub fn at_start(n: usize, known: u8, values: u8) -> Knowledge {
        let mut settings = [DIGITS[0]; SETTINGS_MOST];
        for (i, setting) in settings.iter_mut().enumerate() {
            if known >> i & 1 == 1 {
                let value = Some(values >> i & 1 == 1);
                *setting = Known { start: value, now: value };
            }
        }
        Knowledge { n, settings }
    }

    pub fn of_digits(digits: &[usize]) -> Knowledge {
        let mut settings = [DIGITS[0]; SETTINGS_MOST];
        for (setting, &digit) in settings.iter_mut().zip(digits) {
            *setting = DIGITS[digit];
        }
        Knowledge { n: digits.len(), settings }
    }

    pub fn of_number(n: usize, number: usize) -> Knowledge {
        let digits: Vec<usize> = (0..n).map(|i| number / 7usize.pow(i as u32) % 7).collect();
        Knowledge::of_digits(&digits)
    }

    /// The sum of digit × 7^i.
    pub fn number(&self) -> usize {
        let digit = |known| DIGITS.iter().position(|row| row == known).expect("a start value that is no longer known");
        self.settings[..self.n].iter().rev().fold(0, |number, known| number * 7 + digit(known))
    }

    pub fn of_setting(&self, i: usize) -> Known {
        self.settings[i]
    }

    /// What is known of a setting's start stays known.
    fn set(mut self, i: usize, value: bool) -> Knowledge {
        self.settings[i].now = Some(value);
        self
    }

    /// Nobody has set what is looked at, so what is seen is the start value too.
    fn seen(mut self, i: usize, value: bool) -> Knowledge {
        self.settings[i] = Known { start: Some(value), now: Some(value) };
        self
    }

    /// All fitting present valuations, a bit for each.
    pub fn presents(&self) -> u128 {
        self.fitting(|known| known.now)
    }

    /// All fitting start valuations, a bit for each.
    pub fn starts(&self) -> u128 {
        self.fitting(|known| known.start)
    }

    fn fitting(&self, value: impl Fn(Known) -> Option<bool>) -> u128 {
        (0..self.n).fold(all(self.n), |bits, i| match value(self.settings[i]) {
            None => bits,
            Some(false) => bits & !letter(i),
            Some(true) => bits & letter(i),
        })
    }
}

/// What the fitting valuations say of a table, by request R-3.
#[derive(Clone, Copy, PartialEq, Eq, PartialOrd, Ord, Debug)]
pub enum Judgement {
    TrueAtAll,
    FalseAtAll,
    Neither,
}

/// Some valuation always fits, so no table is true at all and false at all.
pub fn judgement(table: u128, fitting: u128) -> Judgement {
    assert_ne!(fitting, 0, "no valuation fits");
    match (fitting & table, fitting & !table) {
        (_, 0) => Judgement::TrueAtAll,
        (0, _) => Judgement::FalseAtAll,
        _ => Judgement::Neither,
    }
}

/// A rule is known to hold if it is true at every fitting present valuation.
pub fn known_to_hold(rule: u128, presents: u128) -> bool {
    judgement(rule, presents) == Judgement::TrueAtAll
}

/// A learn formula is settled if it has one same value at all fitting start valuations.
pub fn learnt(formula: u128, starts: u128) -> bool {
    judgement(formula, starts) != Judgement::Neither
}

#[derive(Clone, Copy, PartialEq, Eq, PartialOrd, Ord, Debug)]
pub enum Kind {
    Set(bool),
    Look,
}

pub const KINDS: [Kind; 3] = [Kind::Set(false), Kind::Set(true), Kind::Look];

#[derive(Clone, Copy, PartialEq, Eq, Debug)]
pub struct Act {
    pub kind: Kind,
    pub setting: usize,
    pub post: usize,
}

impl Act {
    /// 1 + (kind × 7 + setting) × 8 + post index; 168 is the largest. 0 is a stop.
    pub fn byte(self) -> u8 {
        let kind = KINDS.iter().position(|&kind| kind == self.kind).unwrap();
        (1 + (kind * 7 + self.setting) * 8 + self.post) as u8
    }

    pub fn of_byte(byte: u8) -> Option<Act> {
        let place = usize::from(byte).checked_sub(1)?;
        let kind = *KINDS.get(place / 8 / 7)?;
        Some(Act { kind, setting: place / 8 % 7, post: place % 8 })
    }

    /// The knowledge after it: one state after a set, two after a look, the false outcome's first.
    pub fn outcomes(self, knowledge: &Knowledge) -> Vec<Knowledge> {
        match self.kind {
            Kind::Set(value) => vec![knowledge.set(self.setting, value)],
            Kind::Look => [false, true].map(|value| knowledge.seen(self.setting, value)).to_vec(),
        }
    }
}
