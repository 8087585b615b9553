//! Plan text to plan bytes, and its check, from issue 18's point 2 alone.

use crate::knowledge::{Act, Kind};
use crate::plan;
use crate::refusal::{refusal, Refusal};
use crate::text;

pub const PLAN_TEXT_MOST: usize = 524_288;

/// The line `reach H`, then a line a plan byte. Any other line is 22, as are a last line without byte 10 and a first one
/// that is not there. Numbers have one digit or more, and their values are not judged.
pub fn read(text: &[u8]) -> Result<Vec<u8>, Refusal> {
    if text.len() > PLAN_TEXT_MOST {
        return refusal(24, 0);
    }
    let mut lines: Vec<&[u8]> = text.split(|&byte| byte == b'\n').collect();
    let rest = lines.pop().unwrap_or_default();
    let mut plan = Vec::new();
    for (i, line) in lines.iter().enumerate() {
        match (i, byte(line)) {
            (0, _) if is_reach(line) => {}
            (1.., Some(byte)) => plan.push(byte),
            _ => return refusal(22, i + 1),
        }
    }
    if lines.is_empty() || !rest.is_empty() {
        return refusal(22, lines.len() + 1);
    }
    Ok(plan)
}

/// The book's refusals, the question's, the plan text's, then the plan check's; else a bare yes.
pub fn check(book: &[u8], question: &[u8], plan: &[u8]) -> Result<(), Refusal> {
    let question = text::question(book, question)?;
    plan::check(&question, &read(plan)?)
}

fn is_reach(line: &[u8]) -> bool {
    line.strip_prefix(b"reach ").is_some_and(is_number)
}

fn is_number(word: &[u8]) -> bool {
    !word.is_empty() && word.iter().all(u8::is_ascii_digit)
}

/// A depth, then `stop`, `look P G` or `set P G V`. P and G may be of any book and team: they are the check's to judge.
fn byte(line: &[u8]) -> Option<u8> {
    let words: Vec<&[u8]> = line.split(|&byte| byte == b' ').collect();
    let (depth, act) = words.split_first()?;
    if !is_number(depth) {
        return None;
    }
    let act_byte = |kind: Kind, setting: &[u8], post: &[u8]| match (setting, post) {
        (&[setting @ b'a'..=b'g'], &[post @ b'1'..=b'8']) => {
            let (setting, post) = (usize::from(setting - b'a'), usize::from(post - b'1'));
            Some(Act { kind, setting, post }.byte())
        }
        _ => None,
    };
    match act {
        [b"stop"] => Some(0),
        [b"look", setting, post] => act_byte(Kind::Look, setting, post),
        [b"set", setting, post, b"0"] => act_byte(Kind::Set(false), setting, post),
        [b"set", setting, post, b"1"] => act_byte(Kind::Set(true), setting, post),
        _ => None,
    }
}
