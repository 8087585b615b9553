//! Rules text to a book, and question text put to a book, from issue 18's points 1, 2 and 7 alone.

use crate::book;
use crate::finder::{self, Found, Solution};
use crate::lines::{self, Text};
use crate::question::Question;
use crate::refusal::{refusal, Refusal};

pub const TEXT_MOST: usize = 65_536;

/// The book of rules text: 24, the lines, 15. 25 is never given here.
pub fn book(rules: &[u8], room: usize) -> Result<Vec<u8>, Refusal> {
    if rules.len() > TEXT_MOST {
        return refusal(24, 0);
    }
    let book = lines::read(Text::Rules, rules)?.book();
    if room < book.len() {
        return refusal(15, 0);
    }
    Ok(book)
}

/// What a question text asks of a book: the book's 6 to 9, 24, then the lines, judged by the book's size.
pub fn question(book: &[u8], text: &[u8]) -> Result<Question, Refusal> {
    let sound = book::read(book, usize::MAX)?;
    if text.len() > TEXT_MOST {
        return refusal(24, 0);
    }
    Ok(lines::read(Text::Question { n: sound.n, m: sound.m }, text)?.question_to(book.to_vec()))
}

pub fn solution(book: &[u8], text: &[u8]) -> Result<Solution, Refusal> {
    question(book, text).and_then(|question| finder::find(&question))
}

/// What is found with a rank table of this length: after all other refusals 13. The plan has room of its own.
pub fn found(solution: &Result<Solution, Refusal>, rank_room: usize) -> Result<Found, Refusal> {
    match solution {
        Ok(solution) => solution.in_rooms(rank_room, usize::MAX).cloned(),
        Err(refusal) => Err(*refusal),
    }
}
