//! The route on x86-64: the archive is linked into this program. Nothing checks these declarations against the
//! library's source, so they are few and of numbers and bytes alone.

use crate::ffi::TwoLegs;
use crate::room::{Room, Words, GUARD, GUARD_WORDS};

extern "C" {
    fn pj_formula_read(n: u64, text: *const u8, len: u64, table: *mut u8) -> u64;
    fn pj_book_read(book: *const u8, len: u64, rights: *mut u8, rights_len: u64) -> u64;
    fn pj_book_write(n: u64, m: u64, rights: *const u8, len: u64, book: *mut u8, book_len: u64) -> u64;
    fn pj_book_salvage(book: *const u8, len: u64, room: *mut u8, room_len: u64) -> u64;
    fn pj_find(
        book: *const u8,
        book_len: u64,
        team: u8,
        known: u8,
        values: u8,
        held: u8,
        make: *const u8,
        make_len: u64,
        learn: *const u8,
        learn_len: u64,
        ranks: *mut u8,
        ranks_len: u64,
        plan: *mut u8,
        plan_len: u64,
    ) -> u64;
    fn pj_find_two(
        book: *const u8,
        book_len: u64,
        team: u8,
        known: u8,
        values: u8,
        held: u8,
        make: *const u8,
        make_len: u64,
        learn: *const u8,
        learn_len: u64,
        team2: u8,
        make2: *const u8,
        make2_len: u64,
        learn2: *const u8,
        learn2_len: u64,
        ranks: *mut u8,
        ranks_len: u64,
        ranks2: *mut u8,
        ranks2_len: u64,
        plan: *mut u8,
        plan_len: u64,
    ) -> u64;
    fn pj_find_plain(
        book: *const u8,
        book_len: u64,
        team: u8,
        known: u8,
        values: u8,
        held: u8,
        make: *const u8,
        make_len: u64,
        learn: *const u8,
        learn_len: u64,
    ) -> u64;
    fn pj_plan_check(
        book: *const u8,
        book_len: u64,
        team: u8,
        known: u8,
        values: u8,
        held: u8,
        make: *const u8,
        make_len: u64,
        learn: *const u8,
        learn_len: u64,
        plan: *const u8,
        plan_len: u64,
    ) -> u64;
    fn pj_sheet(sheet: *const u8, len: u64, out: *mut u8, out_len: u64) -> u64;
    fn pj_rules(rules: *const u8, len: u64, book: *mut u8, book_len: u64) -> u64;
    fn pj_ask(
        book: *const u8,
        book_len: u64,
        question: *const u8,
        question_len: u64,
        ranks: *mut u8,
        ranks_len: u64,
        out: *mut u8,
        out_len: u64,
    ) -> u64;
    fn pj_replay(
        book: *const u8,
        book_len: u64,
        start: u64,
        shift: *const u8,
        shift_len: u64,
        reached: *mut u64,
    ) -> u64;
}

/// The pointer may be used over the whole room, guards too, so a stray store is found and is not undefined.
fn start(room: &mut Room) -> *mut u8 {
    unsafe { room.whole_mut().as_mut_ptr().add(GUARD) }
}

fn size(room: &Room) -> u64 {
    room.lent().len() as u64
}

pub fn formula_read(n: u64, text: &mut Room, table: &mut Room) -> u64 {
    unsafe { pj_formula_read(n, start(text), size(text), start(table)) }
}

pub fn book_read(book: &mut Room, rights: &mut Room) -> u64 {
    unsafe { pj_book_read(start(book), size(book), start(rights), size(rights)) }
}

pub fn book_write(n: u64, m: u64, rights: &mut Room, book: &mut Room) -> u64 {
    unsafe { pj_book_write(n, m, start(rights), size(rights), start(book), size(book)) }
}

pub fn book_salvage(book: &mut Room, room: &mut Room) -> u64 {
    unsafe { pj_book_salvage(start(book), size(book), start(room), size(room)) }
}

pub fn find(
    book: &mut Room,
    [team, known, values, held]: [u8; 4],
    make: &mut Room,
    learn: &mut Room,
    ranks: &mut Room,
    plan: &mut Room,
) -> u64 {
    unsafe {
        pj_find(
            start(book),
            size(book),
            team,
            known,
            values,
            held,
            start(make),
            size(make),
            start(learn),
            size(learn),
            start(ranks),
            size(ranks),
            start(plan),
            size(plan),
        )
    }
}

pub fn find_two(legs: &mut TwoLegs, ranks: &mut Room, ranks2: &mut Room, plan: &mut Room) -> u64 {
    let TwoLegs { book, masks: [team, known, values, held], make, learn, team2, make2, learn2 } = legs;
    unsafe {
        pj_find_two(
            start(book),
            size(book),
            *team,
            *known,
            *values,
            *held,
            start(make),
            size(make),
            start(learn),
            size(learn),
            *team2,
            start(make2),
            size(make2),
            start(learn2),
            size(learn2),
            start(ranks),
            size(ranks),
            start(ranks2),
            size(ranks2),
            start(plan),
            size(plan),
        )
    }
}

pub fn find_plain(book: &mut Room, [team, known, values, held]: [u8; 4], make: &mut Room, learn: &mut Room) -> u64 {
    unsafe {
        pj_find_plain(
            start(book),
            size(book),
            team,
            known,
            values,
            held,
            start(make),
            size(make),
            start(learn),
            size(learn),
        )
    }
}

pub fn plan_check(
    book: &mut Room,
    [team, known, values, held]: [u8; 4],
    make: &mut Room,
    learn: &mut Room,
    plan: &mut Room,
) -> u64 {
    unsafe {
        pj_plan_check(
            start(book),
            size(book),
            team,
            known,
            values,
            held,
            start(make),
            size(make),
            start(learn),
            size(learn),
            start(plan),
            size(plan),
        )
    }
}

pub fn sheet(sheet: &mut Room, out: &mut Room) -> u64 {
    unsafe { pj_sheet(start(sheet), size(sheet), start(out), size(out)) }
}

pub fn rules(rules: &mut Room, book: &mut Room) -> u64 {
    unsafe { pj_rules(start(rules), size(rules), start(book), size(book)) }
}

pub fn ask(book: &mut Room, question: &mut Room, ranks: &mut Room, out: &mut Room) -> u64 {
    unsafe {
        pj_ask(
            start(book),
            size(book),
            start(question),
            size(question),
            start(ranks),
            size(ranks),
            start(out),
            size(out),
        )
    }
}

pub fn replay(book: &mut Room, first: u64, shift: &mut Room, reached: &mut Words) -> u64 {
    unsafe {
        let words = reached.whole_mut().as_mut_ptr().add(GUARD_WORDS);
        pj_replay(start(book), size(book), first, start(shift), size(shift), words)
    }
}
