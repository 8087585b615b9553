//! The two proved finders, the proved answer to a question text, the proved replay and the proved plan check, through the C
//! interface. Nothing checks these declarations against the library's source.

use crate::asked::Asked;
use crate::checked::Checked;

extern "C" {
    fn pj_find(
        book: *const u8,
        book_len: u64,
        team: u8,
        known: u8,
        values: u8,
        held: u8,
        make: *const u8,
        make_len: u64,
        learn: *const u8,
        learn_len: u64,
        ranks: *mut u8,
        ranks_len: u64,
        plan: *mut u8,
        plan_len: u64,
    ) -> u64;
    fn pj_find_plain(
        book: *const u8,
        book_len: u64,
        team: u8,
        known: u8,
        values: u8,
        held: u8,
        make: *const u8,
        make_len: u64,
        learn: *const u8,
        learn_len: u64,
    ) -> u64;
    fn pj_ask(
        book: *const u8,
        book_len: u64,
        question: *const u8,
        question_len: u64,
        ranks: *mut u8,
        ranks_len: u64,
        out: *mut u8,
        out_len: u64,
    ) -> u64;
    fn pj_replay(
        book: *const u8,
        book_len: u64,
        start: u64,
        shift: *const u8,
        shift_len: u64,
        reached: *mut u64,
    ) -> u64;
    fn pj_plan_check(
        book: *const u8,
        book_len: u64,
        team: u8,
        known: u8,
        values: u8,
        held: u8,
        make: *const u8,
        make_len: u64,
        learn: *const u8,
        learn_len: u64,
        plan: *const u8,
        plan_len: u64,
    ) -> u64;
}

pub fn find(asked: &Asked, ranks: &mut [u8], plan: &mut [u8]) -> u64 {
    let Asked { book, team, make } = asked;
    let learn: [u8; 0] = [];
    unsafe {
        pj_find(
            book.as_ptr(),
            book.len() as u64,
            *team,
            0,
            0,
            0,
            make.as_ptr(),
            make.len() as u64,
            learn.as_ptr(),
            0,
            ranks.as_mut_ptr(),
            ranks.len() as u64,
            plan.as_mut_ptr(),
            plan.len() as u64,
        )
    }
}

/// The least height and one, or 0.
pub fn find_plain(asked: &Asked) -> u64 {
    let Asked { book, team, make } = asked;
    let (make_len, learn): (u64, [u8; 0]) = (make.len() as u64, []);
    unsafe {
        pj_find_plain(book.as_ptr(), book.len() as u64, *team, 0, 0, 0, make.as_ptr(), make_len, learn.as_ptr(), 0)
    }
}

pub fn ask(book: &[u8], question: &[u8], ranks: &mut [u8], out: &mut [u8]) -> u64 {
    unsafe {
        pj_ask(
            book.as_ptr(),
            book.len() as u64,
            question.as_ptr(),
            question.len() as u64,
            ranks.as_mut_ptr(),
            ranks.len() as u64,
            out.as_mut_ptr(),
            out.len() as u64,
        )
    }
}

pub fn replay(book: &[u8], start: u64, shift: &[u8], reached: &mut [u64; 2]) -> u64 {
    unsafe {
        pj_replay(book.as_ptr(), book.len() as u64, start, shift.as_ptr(), shift.len() as u64, reached.as_mut_ptr())
    }
}

pub fn check(checked: &Checked) -> u64 {
    let Checked { book, team, known, values, make, plan } = checked;
    let learn: [u8; 0] = [];
    unsafe {
        pj_plan_check(
            book.as_ptr(),
            book.len() as u64,
            *team,
            *known,
            *values,
            0,
            make.as_ptr(),
            make.len() as u64,
            learn.as_ptr(),
            0,
            plan.as_ptr(),
            plan.len() as u64,
        )
    }
}
