//! The sheet program, bytes in and bytes out, from paper 01's section on it and its refusals 22 to 25 alone.

use crate::finder::{self, Found};
use crate::knowledge::{Act, Kind};
use crate::lines::{self, Text};
use crate::question::Question;
use crate::refusal::{refusal, Refusal};

pub const SHEET_MOST: usize = 32_768;

/// What is printed.
pub fn answer(sheet: &[u8]) -> String {
    printed(&read(sheet).and_then(|question| finder::find(&question)).map(|solution| solution.found))
}

/// An answer as it is printed, or a refusal.
pub fn printed(found: &Result<Found, Refusal>) -> String {
    match found {
        Ok(Found::Reach { height, plan }) => format!("reach {height}\n{}", plan_lines(plan)),
        Ok(Found::Cannot) => "cannot\n".to_string(),
        Err(refusal) => format!("{refusal}\n"),
    }
}

/// A line per plan byte: the count of acts before it on its branch, then what it is.
pub fn plan_lines(plan: &[u8]) -> String {
    let mut lines = String::new();
    let mut depths = vec![0];
    for &byte in plan {
        let depth = depths.pop().expect("bytes after a whole plan");
        lines += &match Act::of_byte(byte) {
            None => format!("{depth} stop\n"),
            Some(Act { kind, setting, post }) => {
                let (letter, digit) = ((b'a' + setting as u8) as char, post + 1);
                depths.push(depth + 1);
                match kind {
                    Kind::Look => {
                        depths.push(depth + 1);
                        format!("{depth} look {letter} {digit}\n")
                    }
                    Kind::Set(value) => format!("{depth} set {letter} {digit} {}\n", u8::from(value)),
                }
            }
        };
    }
    lines
}

/// First 24; then line by line.
pub fn read(sheet: &[u8]) -> Result<Question, Refusal> {
    if sheet.len() > SHEET_MOST {
        return refusal(24, 0);
    }
    Ok(lines::read(Text::Sheet, sheet)?.question())
}
