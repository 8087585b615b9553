//! A question: a book, a team, what it knows, what is held, and a goal; from paper 01's refusals 6 to 12 alone, and from
//! requests why an act is not permitted, and refusal 31; from request R-9 that a set which changes nothing is
//! no act.

use crate::book;
use crate::knowledge::{judgement, known_to_hold, learnt, Act, Judgement, Kind, Knowledge, DIGITS};
use crate::refusal::{refusal, Refusal};
use crate::tables::all;

/// As it is handed over: bytes of any length and content. Bit q of the team is post index q; bit i of `known`, `values`
/// and `held` is setting i. The learn tables stand one after the other.
#[derive(Clone)]
pub struct Question {
    pub book: Vec<u8>,
    pub team: u8,
    pub known: u8,
    pub values: u8,
    pub held: u8,
    pub make: Vec<u8>,
    pub learn: Vec<u8>,
}

/// A question that nothing is refused of.
pub struct Asked {
    pub n: usize,
    team: u8,
    held: u8,
    rules: Vec<u128>,
    pub start: Knowledge,
    make: u128,
    learn: Vec<u128>,
    /// Whether a set that changes nothing is an act, as it was before request R-9.
    idle_sets: bool,
}

/// Why an act of the book and team is not permitted.
#[derive(Clone, Copy, PartialEq, Eq, Debug)]
pub enum NotPermitted {
    /// A look at a setting of which a value is known, whatever the look rule says.
    KnownSetting,
    SurelyFalse,
    NotKnown,
    /// A set of a held setting, whatever the set rule says: judged first.
    HeldSetting,
}

impl NotPermitted {
    /// Refusal 18's second number.
    pub fn second(self) -> u32 {
        match self {
            NotPermitted::KnownSetting => 0,
            NotPermitted::SurelyFalse => 1,
            NotPermitted::NotKnown => 2,
            NotPermitted::HeldSetting => 3,
        }
    }
}

impl Question {
    /// The book's 6 to 9, then 10, 11, 31, 12.
    pub fn read(&self) -> Result<Asked, Refusal> {
        let book = book::read(&self.book, usize::MAX)?;
        let n = book.n;
        if self.team == 0 || u32::from(self.team) >= 1 << book.m {
            return refusal(10, 0);
        }
        if u32::from(self.known) >= 1 << n || self.values & !self.known != 0 {
            return refusal(11, 0);
        }
        if u32::from(self.held) >= 1 << n {
            return refusal(31, 0);
        }
        if self.make.len() != 16 || !matches!(self.learn.len(), 0 | 16 | 32 | 48 | 64) {
            return refusal(12, 0);
        }
        let make = bits(&self.make);
        let learn: Vec<u128> = self.learn.chunks(16).map(bits).collect();
        if make & !all(n) != 0 || learn.iter().any(|table| table & !all(n) != 0) {
            return refusal(12, 0);
        }
        let start = Knowledge::at_start(n, self.known, self.values);
        let rules = book.rights.chunks(16).map(bits).collect();
        Ok(Asked { n, team: self.team, held: self.held, rules, start, make, learn, idle_sets: false })
    }
}

/// Bit v of the number is bit v mod 8 of byte v / 8.
pub fn bits(table: &[u8]) -> u128 {
    u128::from_le_bytes(table.try_into().unwrap())
}

impl Asked {
    /// Whether the act is one of this book and team.
    pub fn names(&self, act: Act) -> bool {
        act.setting < self.n && self.team >> act.post & 1 == 1
    }

    /// The look table for post index q is at byte 32 × q of its setting's 256, the set table 16 later.
    pub fn rule(&self, act: Act) -> u128 {
        self.rules[act.setting * 16 + act.post * 2 + usize::from(act.kind != Kind::Look)]
    }

    /// Of an act of this book and team: set where the setting is not held and the set rule is known to hold; look where
    /// the look rule is, and the digit is 0. `presents` are all fitting present valuations.
    pub fn not_permitted(&self, knowledge: &Knowledge, presents: u128, act: Act) -> Option<NotPermitted> {
        if act.kind != Kind::Look && self.held >> act.setting & 1 == 1 {
            return Some(NotPermitted::HeldSetting);
        }
        if act.kind == Kind::Look && knowledge.of_setting(act.setting) != DIGITS[0] {
            return Some(NotPermitted::KnownSetting);
        }
        match judgement(self.rule(act), presents) {
            Judgement::TrueAtAll => None,
            Judgement::FalseAtAll => Some(NotPermitted::SurelyFalse),
            Judgement::Neither => Some(NotPermitted::NotKnown),
        }
    }

    /// "Where the team knows the present value, setting that same value is no longer an act."
    pub fn changes_nothing(&self, knowledge: &Knowledge, act: Act) -> bool {
        match act.kind {
            Kind::Set(value) => !self.idle_sets && knowledge.of_setting(act.setting).now == Some(value),
            Kind::Look => false,
        }
    }

    /// The same question under the rule before request R-9: such a set is an act like any other.
    pub fn with_idle_sets(self) -> Asked {
        Asked { idle_sets: true, ..self }
    }

    pub fn permits(&self, knowledge: &Knowledge, act: Act) -> bool {
        self.permits_where(knowledge, knowledge.presents(), act)
    }

    /// The same for one who asks of many acts and has all fitting present valuations at hand.
    pub fn permits_where(&self, knowledge: &Knowledge, presents: u128, act: Act) -> bool {
        self.names(act)
            && self.not_permitted(knowledge, presents, act).is_none()
            && !self.changes_nothing(knowledge, act)
    }

    /// All acts there are, by their bytes.
    pub fn acts(&self) -> Vec<Act> {
        (1..=168).filter_map(Act::of_byte).filter(|&act| self.names(act)).collect()
    }

    /// The make formula is true at every fitting present valuation, and each learn formula has one same value at all
    /// fitting start valuations.
    pub fn settled(&self, knowledge: &Knowledge) -> bool {
        known_to_hold(self.make, knowledge.presents())
            && self.learn.iter().all(|&formula| learnt(formula, knowledge.starts()))
    }
}
