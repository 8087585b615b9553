//! The library under test, as safe functions on rooms. What each result means is said in include/parjolenc.h: a
//! refusal is a word that is not 0 from bit 32 on (`refusal.rs`).

#[cfg(hosted)]
#[path = "ffi/hosted.rs"]
mod route;
#[cfg(not(hosted))]
#[path = "ffi/linked.rs"]
mod route;

use crate::room::{Room, Words};

pub const TABLE: usize = 16;
/// Words that a replay leaves: the count of acts done, and the valuation.
pub const REACHED: usize = 2;

/// Reads a formula of n settings and leaves its table in `table`, a room for 16 bytes. Success is 0.
pub fn formula_read(n: u64, text: &mut Room, table: &mut Room) -> u64 {
    assert_eq!(table.lent().len(), TABLE);
    route::formula_read(n, text, table)
}

/// Reads a book and leaves its rights in `rights`. Success is n × 256 + m.
pub fn book_read(book: &mut Room, rights: &mut Room) -> u64 {
    route::book_read(book, rights)
}

/// Writes a book from rights and leaves it in `book`. Success is 0.
pub fn book_write(n: u64, m: u64, rights: &mut Room, book: &mut Room) -> u64 {
    route::book_write(n, m, rights, book)
}

/// Salvages a damaged book into `room`. Success is the count of the blocks that were replaced × 256 + a mark for each.
pub fn book_salvage(book: &mut Room, room: &mut Room) -> u64 {
    route::book_salvage(book, room)
}

/// Answers a question (its masks are team, known, values and held) and leaves the ranks in `ranks` and the plan in `plan`.
/// "Reach" is the height in bits 16 to 31 and the plan's length below them; "cannot" is 0.
pub fn find(
    book: &mut Room,
    masks: [u8; 4],
    make: &mut Room,
    learn: &mut Room,
    ranks: &mut Room,
    plan: &mut Room,
) -> u64 {
    route::find(book, masks, make, learn, ranks, plan)
}

/// A question of two legs, as it is lent: the masks are the first leg's team, known, values and held.
pub struct TwoLegs {
    pub book: Room,
    pub masks: [u8; 4],
    pub make: Room,
    pub learn: Room,
    pub team2: u8,
    pub make2: Room,
    pub learn2: Room,
}

/// Answers a question of two legs and leaves the ranks of the legs in `ranks` and `ranks2`, and the first leg's plan in
/// `plan`. The result is packed as that of `find`.
pub fn find_two(legs: &mut TwoLegs, ranks: &mut Room, ranks2: &mut Room, plan: &mut Room) -> u64 {
    route::find_two(legs, ranks, ranks2, plan)
}

/// Answers a question without a rank table, and writes nothing. "Reach" is the height and one; "cannot" is 0.
pub fn find_plain(book: &mut Room, masks: [u8; 4], make: &mut Room, learn: &mut Room) -> u64 {
    route::find_plain(book, masks, make, learn)
}

/// Checks a plan's bytes. Yes is 0.
pub fn plan_check(book: &mut Room, masks: [u8; 4], make: &mut Room, learn: &mut Room, plan: &mut Room) -> u64 {
    route::plan_check(book, masks, make, learn, plan)
}

/// Answers a sheet, and leaves as much of what is printed in `out` as fits. The result is the whole answer's length.
pub fn sheet(sheet: &mut Room, out: &mut Room) -> u64 {
    route::sheet(sheet, out)
}

/// Makes a book of rules text and leaves it in `book`. Success is the book's length.
pub fn rules(rules: &mut Room, book: &mut Room) -> u64 {
    route::rules(rules, book)
}

/// Puts a question text to a book, leaves the ranks in `ranks`, and as much of what is printed in `out` as fits. The
/// result is the whole answer's length.
pub fn ask(book: &mut Room, question: &mut Room, ranks: &mut Room, out: &mut Room) -> u64 {
    route::ask(book, question, ranks, out)
}

/// Runs a recorded shift against a book from a true starting valuation and leaves the count of acts done and the
/// valuation in `reached`, two words. A shift without a fault is 0.
pub fn replay(book: &mut Room, start: u64, shift: &mut Room, reached: &mut Words) -> u64 {
    assert_eq!(reached.lent().len(), REACHED);
    route::replay(book, start, shift, reached)
}
