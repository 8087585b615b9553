//! Paper 01's numbered refusals, and the one word by which the library tells a result.

use std::fmt;

/// A refusal gives a number and a place; the place is 0 unless named. By request R-3 an 18 carries a second number.
#[derive(Clone, Copy, PartialEq, Eq)]
pub struct Refusal {
    pub number: u32,
    pub place: u32,
    pub second: Option<u32>,
}

pub fn refusal<T>(number: u32, place: usize) -> Result<T, Refusal> {
    Err(Refusal::at(number, place as u32))
}

impl Refusal {
    /// One without a second number.
    pub fn at(number: u32, place: u32) -> Refusal {
        Refusal { number, place, second: None }
    }

    pub fn with_second(self, second: u32) -> Refusal {
        Refusal { second: Some(second), ..self }
    }

    /// Bits 0 to 31 hold the place, 32 to 39 the number, and 40 to 47 one more than the second number, or 0 where there
    /// is none. A success has nothing from bit 32 on.
    pub fn word(self) -> u64 {
        let second = self.second.map_or(0, |second| 1 + u64::from(second));
        second << 40 | u64::from(self.number) << 32 | u64::from(self.place)
    }

    /// The refusal whose word it is, if there is one.
    pub fn of_word(word: u64) -> Option<Refusal> {
        let byte = |shift: u32| (word >> shift) as u32 & 0xff;
        let refusal = Refusal { number: byte(32), place: word as u32, second: byte(40).checked_sub(1) };
        (refusal.number != 0 && refusal.word() == word).then_some(refusal)
    }
}

impl fmt::Display for Refusal {
    fn fmt(&self, f: &mut fmt::Formatter) -> fmt::Result {
        write!(f, "refused {} {}", self.number, self.place)?;
        self.second.map_or(Ok(()), |second| write!(f, " {second}"))
    }
}

/// A word of the library, as people read it.
pub fn told(word: u64) -> String {
    match Refusal::of_word(word) {
        Some(refusal) => refusal.to_string(),
        None if word >> 32 == 0 => format!("success {word}"),
        None => format!("{word:#x}, which is neither a success nor a refusal"),
    }
}
