//! Formulas, from paper 01's section on them and its refusals 1 to 5 alone.
//!
//! The text is cut rather than read from left to right: a sum at the `|` that stand in no bracket, each product at
//! such `&`, and so on down to single bytes. What comes out is a tree, asked for its truth one valuation at a time.

use crate::refusal::{refusal, Refusal};

pub const LENGTH_MOST: usize = 255;
pub const BYTES: &[u8] = b"abcdefg01~&|()";

pub type Table = [u8; 16];

/// The formula's table, or the first refusal in the paper's order: 5, 1, the lowest place of 2 or 3, then 4.
pub fn read(n: u64, text: &[u8]) -> Result<Table, Refusal> {
    if !(1..=7).contains(&n) {
        return refusal(5, 0);
    }
    if text.is_empty() || text.len() > LENGTH_MOST {
        return refusal(1, 0);
    }
    for (place, byte) in text.iter().enumerate() {
        if !BYTES.contains(byte) {
            return refusal(2, place);
        }
        if (b'a'..=b'g').contains(byte) && u64::from(byte - b'a') >= n {
            return refusal(3, place);
        }
    }
    match sum(text) {
        Some(formula) => Ok(table(&formula, n as u32)),
        None => refusal(4, first_beyond_repair(text)),
    }
}

enum Formula {
    Sum(Vec<Formula>),
    Product(Vec<Formula>),
    Not(Box<Formula>),
    Letter(u32),
    Constant(bool),
}

/// A sum is one or more products joined by `|`.
fn sum(text: &[u8]) -> Option<Formula> {
    let products: Option<Vec<_>> = cut(text, b'|').into_iter().map(product).collect();
    products.map(Formula::Sum)
}

/// A product is one or more units joined by `&`.
fn product(text: &[u8]) -> Option<Formula> {
    let units: Option<Vec<_>> = cut(text, b'&').into_iter().map(unit).collect();
    units.map(Formula::Product)
}

/// A unit is `~` and a unit, or a sum in round brackets, or a letter, or `0` or `1`.
fn unit(text: &[u8]) -> Option<Formula> {
    match text {
        [b'~', rest @ ..] => unit(rest).map(|negated| Formula::Not(Box::new(negated))),
        [b'(', inside @ .., b')'] => sum(inside),
        [letter @ b'a'..=b'g'] => Some(Formula::Letter(u32::from(letter - b'a'))),
        [b'0'] => Some(Formula::Constant(false)),
        [b'1'] => Some(Formula::Constant(true)),
        _ => None,
    }
}

/// The pieces of the text between those bytes `joint` before which as many brackets close as open.
fn cut(text: &[u8], joint: u8) -> Vec<&[u8]> {
    let mut pieces = Vec::new();
    let mut open = 0;
    let mut start = 0;
    for (i, &byte) in text.iter().enumerate() {
        match byte {
            b'(' => open += 1,
            b')' => open -= 1,
            _ if byte == joint && open == 0 => {
                pieces.push(&text[start..i]);
                start = i + 1;
            }
            _ => {}
        }
    }
    pieces.push(&text[start..]);
    pieces
}

pub fn is_sentence(text: &[u8]) -> bool {
    sum(text).is_some()
}

/// Whether some sentence, however long, starts with this text. If one does, then so does one of these two: in it,
/// the text stops either after a whole unit or where a unit is due, which `0` is; all that was begun further out
/// may then end at once, but for its closing brackets, and their count is what the text leaves open.
pub fn begins_a_sentence(text: &[u8]) -> bool {
    let count = |bracket| text.iter().filter(|&&byte| byte == bracket).count();
    let Some(open) = count(b'(').checked_sub(count(b')')) else { return false };
    let closing = vec![b')'; open];
    is_sentence(&[text, &closing].concat()) || is_sentence(&[text, b"0", &closing].concat())
}

/// The least i where the first i + 1 bytes begin no sentence, else the length. Whatever begins a sentence does so
/// with all its beginnings, so the places may be halved.
fn first_beyond_repair(text: &[u8]) -> usize {
    let places: Vec<usize> = (0..text.len()).collect();
    places.partition_point(|&i| begins_a_sentence(&text[..=i]))
}

/// Bit v mod 8 of byte v / 8 tells the truth at v; bits for v at or above 2^n are 0.
fn table(formula: &Formula, n: u32) -> Table {
    let mut table = [0; 16];
    for v in 0..1u32 << n {
        if formula.holds_at(v) {
            table[v as usize / 8] |= 1 << (v % 8);
        }
    }
    table
}

impl Formula {
    /// Bit i of the valuation v is setting i (a is bit 0).
    fn holds_at(&self, v: u32) -> bool {
        match self {
            Formula::Sum(products) => products.iter().any(|product| product.holds_at(v)),
            Formula::Product(units) => units.iter().all(|unit| unit.holds_at(v)),
            Formula::Not(unit) => !unit.holds_at(v),
            Formula::Letter(i) => v >> i & 1 == 1,
            Formula::Constant(truth) => *truth,
        }
    }
}
