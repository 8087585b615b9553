//! Sheets cut in two at the end of a line: the library's answers to the rules and to the question are put together, and
//! compared with its answer to the sheet. The parts have no `#` lines and no empty ones, and the sheet at most five
//! settings.

use crate::book::BLOCK;
use crate::ffi;
use crate::refusal::{told, Refusal};
use crate::report::{shown, Group, Subject};
use crate::rng::Rng;
use crate::room::Room;
use crate::sheet::{answer, read, SHEET_MOST};
use crate::sheets::made::{any_sheet, climb, longest_sheet, small_sheet};
use crate::spoilt::{cut_short, every_byte, joined, moved_lines, odd_lines, two_bytes, Lines, Texts};

const BOOK_MOST: usize = 6 * BLOCK;

pub fn test(subject: &mut Subject) {
    for (n, count) in [(1, 300), (2, 300), (3, 200), (4, 50), (5, 10)] {
        subject.group(&format!("random sheets, n = {n}"), |group| {
            for _ in group.times(count) {
                let lines = any_sheet(&mut group.rng, n);
                compare(group, &joined(&lines));
            }
        });
    }
    subject.group("the longest sheets and the longest answers", longest);
    subject.group("odd lines at every place", |group| odd_lines::<Sheets>(group, 4));
    subject.group("lines lost, doubled and in another order", |group| moved_lines::<Sheets>(group, 40));
    subject.group("damaged at every byte", |group| every_byte::<Sheets>(group, 3));
    subject.group("damaged at two bytes", |group| two_bytes::<Sheets>(group, 5_000));
    subject.group("cut short at every byte", |group| cut_short::<Sheets>(group, 20));
    for number in [1, 2, 3, 4, 23] {
        subject.must_reach(number, 3..=5);
    }
    subject.must_reach(22, 1..=10);
}

struct Sheets;

impl Texts for Sheets {
    type To = ();

    fn any(rng: &mut Rng) -> ((), Lines) {
        let n = rng.between(1, 3);
        ((), any_sheet(rng, n))
    }

    fn small(rng: &mut Rng) -> ((), Lines) {
        ((), small_sheet(rng))
    }

    fn compare(group: &mut Group, (): &(), sheet: &[u8]) {
        compare(group, sheet);
    }
}

fn longest(group: &mut Group) {
    for n in 1..=5 {
        let sheet = longest_sheet(&mut group.rng, n, 8);
        compare(group, &sheet);
        compare(group, &sheet[..sheet.len() - 1]);
        compare(group, climb(n).as_bytes());
    }
}

/// Each way to cut the sheet is a case.
fn compare(group: &mut Group, sheet: &[u8]) {
    let own = read(sheet);
    if sheet.len() > SHEET_MOST || own.as_ref().is_err_and(|refusal| refusal.number == 25) {
        return;
    }
    let room = answer(sheet).len() + 1;
    let whole = sheet_answer(group, sheet, room);
    let lines: Vec<&[u8]> = sheet.split_inclusive(|&byte| byte == b'\n').collect();
    for cut in cuts(&lines) {
        let (rules, question) = (lines[..cut].concat(), lines[cut..].concat());
        let parts = parts_answer(group, &rules, &question, room);
        group.case(whole == parts, || {
            format!("{}\n        cut before line {}: {parts:?}\n        whole: {whole:?}", shown(sheet), cut + 1)
        });
    }
    group.came_to(own);
}

/// Counts of lines that can be the rules: what follows the size names no team, and what follows them states no right.
fn cuts(lines: &[&[u8]]) -> Vec<usize> {
    if lines.iter().any(|line| matches!(line[0], b'\n' | b'#')) {
        return vec![];
    }
    let is_right = |line: &&&[u8]| line.starts_with(b"read") || line.starts_with(b"write");
    let most = lines.iter().skip(1).position(|line| line.starts_with(b"team")).map_or(lines.len(), |team| 1 + team);
    (lines.len().min(1)..=most).filter(|&cut| lines.get(cut).filter(is_right).is_none()).collect()
}

fn sheet_answer(group: &mut Group, sheet: &[u8], room: usize) -> String {
    let mut text = Room::holding(sheet, b"\n1a ", &mut group.rng);
    let mut out = Room::of(room, &mut group.rng);
    let length = ffi::sheet(&mut text, &mut out);
    printed(&out, length)
}

/// What `ask` prints of the book that `book` makes. Where a part is refused it is with the line of the sheet, so the
/// question's lines are counted on from the rules'.
fn parts_answer(group: &mut Group, rules: &[u8], question: &[u8], room: usize) -> String {
    let mut text = Room::holding(rules, b"\n1a ", &mut group.rng);
    let mut book = Room::of(BOOK_MOST, &mut group.rng);
    let word = ffi::rules(&mut text, &mut book);
    if let Some(refusal) = Refusal::of_word(word) {
        return format!("{refusal}\n");
    }
    let Some(book) = book.lent().get(..word as usize) else { return told(word) };
    let mut text = Room::holding(question, b"\n1a ", &mut group.rng);
    let mut ranks = Room::of(7usize.pow(u32::from(book[0].min(5))), &mut group.rng);
    let mut book = Room::holding(book, &[0, 1, 255], &mut group.rng);
    let mut out = Room::of(room, &mut group.rng);
    let length = ffi::ask(&mut book, &mut text, &mut ranks, &mut out);
    let printed = printed(&out, length);
    let numbers: Vec<u32> = printed.split_whitespace().skip(1).filter_map(|word| word.parse().ok()).collect();
    match (printed.starts_with("refused "), &numbers[..]) {
        (true, &[number, line]) => {
            let before = rules.iter().filter(|&&byte| byte == b'\n').count() as u32;
            format!("{}\n", Refusal::at(number, before + line))
        }
        _ => printed,
    }
}

fn printed(out: &Room, length: u64) -> String {
    let fits = out.lent().len().min(length as usize);
    format!("{}{}", String::from_utf8_lossy(&out.lent()[..fits]), if fits < length as usize { " .." } else { "" })
}
