//! The cases for the sheet program: what is printed, in rooms of any length, is compared with `sheet.rs`.

mod by_hand;
mod faulty;
pub mod made;
mod unstated;

use std::fs;
use std::path::Path;

use crate::damage::{deleted, inserted};
use crate::ffi;
use crate::report::{shown, Group, Subject};
use crate::rng::Rng;
use crate::room::Room;
use crate::sheet::{answer, read, SHEET_MOST};
use crate::spoilt::{cut_short, every_byte, joined, moved_lines, odd_lines, two_bytes, Lines, Texts};
use by_hand::{by_hand, P6};
use faulty::{every_line, formula_lengths, lengths, rubbish, sizes, twice};
use made::{any_sheet, climb, longest_sheet, small_sheet};
use unstated::{any_mixture, every_mixture, every_post};

/// Lines of the longest sheet: a size, 2 × 5 × 8 rights, a team, what is known, what is held, a make and four asks.
const LINES_MOST: u32 = 89;
const TEAM_LINE: u32 = 82;
const KNOWN_LINE: u32 = 83;
const HELD_LINE: u32 = 84;
const MAKE_LINE: u32 = 85;

pub fn test(subject: &mut Subject) {
    subject.group("the sheet of paper 01, P6 to P9, P11 and P12, and points settled by hand", by_hand);
    if sheets_folder().exists() {
        subject.group("this program's own answers to the sheets of sheets/", stored);
    }
    for (n, count) in [(1, 300), (2, 500), (3, 300), (4, 60), (5, 15)] {
        subject.group(&format!("random sheets, n = {n}"), |group| random(group, n, count));
    }
    subject.group("rights not stated, every mixture with one setting and three posts", every_mixture);
    subject.group("rights not stated, of every post in the team and out of it", every_post);
    subject.group("rights not stated, random mixtures", any_mixture);
    subject.group("the longest sheets that are answered", longest_sheets);
    subject.group("the longest answers", longest_answers);
    subject.group("every room up to the answer's length and past it", rooms);
    subject.group("odd lines at every place of a sheet", |group| odd_lines::<Sheets>(group, 6));
    subject.group("lines lost, doubled and in another order", |group| moved_lines::<Sheets>(group, 60));
    subject.group("damaged at every byte", |group| every_byte::<Sheets>(group, 5));
    subject.group("damaged at two bytes", |group| two_bytes::<Sheets>(group, 6_000));
    subject.group("cut short at every byte", |group| cut_short::<Sheets>(group, 20));
    subject.group("every size that a first line can name", sizes);
    subject.group("rights, posts and settings named twice", twice);
    subject.group("each fault in each line of the longest sheet", every_line);
    subject.group("formulas of every length near the limit", formula_lengths);
    subject.group("empty sheets, empty lines, and lengths around 32,768", lengths);
    subject.group("random bytes and random lines", rubbish);
    for number in [1, 2, 3, 4] {
        subject.must_reach(number, 2..=LINES_MOST);
    }
    subject.must_reach(22, 1..=LINES_MOST + 1);
    subject.must_reach(23, 2..=HELD_LINE);
    subject.must_reach(24, 0..=0);
    subject.must_reach(25, 1..=1);
}

struct Sheets;

impl Texts for Sheets {
    type To = ();

    fn any(rng: &mut Rng) -> ((), Lines) {
        let n = rng.between(1, 3);
        ((), any_sheet(rng, n))
    }

    fn small(rng: &mut Rng) -> ((), Lines) {
        ((), small_sheet(rng))
    }

    fn compare(group: &mut Group, (): &(), sheet: &[u8]) {
        compare(group, sheet);
    }
}

/// One case: the library and this program on the same sheet, in a room that is long enough or, now and then, not.
fn compare(group: &mut Group, sheet: &[u8]) {
    let printed = answer(sheet);
    let room = match group.rng.below(4) {
        0 => group.rng.below(printed.len()),
        _ => printed.len() + group.rng.one_of(&[0, 1, 50]),
    };
    expect(group, sheet, room, &printed);
}

/// The length given is the whole answer's; the room holds as much of it as fits, and nothing else is touched.
fn expect(group: &mut Group, sheet: &[u8], room: usize, printed: &str) {
    let mut lent_sheet = Room::holding(sheet, b"\n1a ", &mut group.rng);
    let mut out = Room::of(room, &mut group.rng);
    let length = ffi::sheet(&mut lent_sheet, &mut out);

    let mut left = out.lent_before().to_vec();
    let fits = room.min(printed.len());
    left[..fits].copy_from_slice(&printed.as_bytes()[..fits]);
    let right = length == printed.len() as u64 && out.holds(&left) && lent_sheet.untouched();
    group.case(right, || {
        let more = if out.holds(out.lent()) && lent_sheet.untouched() { "" } else { ", and more was written" };
        format!(
            "{}\n        in a room of {room}\n        expected {}, {printed:?}\n        got      {length}, {}{more}",
            shown(sheet),
            printed.len(),
            shown(out.lent())
        )
    });
    group.came_to(read(sheet));
}

fn sheets_folder() -> &'static Path {
    Path::new(concat!(env!("CARGO_MANIFEST_DIR"), "/../../sheets"))
}

fn stored(group: &mut Group) {
    let files = fs::read_dir(sheets_folder()).unwrap_or_else(|error| panic!("sheets/: {error}"));
    let mut sheets: Vec<_> = files.filter_map(|file| file.ok()).map(|file| file.path()).collect();
    sheets.retain(|path| path.extension().is_some_and(|extension| extension == "sheet"));
    sheets.sort();
    for path in sheets {
        let read = |path: &Path| fs::read(path).unwrap_or_else(|error| panic!("{}: {error}", path.display()));
        let (sheet, expected) = (read(&path), read(&path.with_extension("expected")));
        let printed = answer(&sheet);
        group.case(printed.as_bytes() == expected, || format!("{}: {printed:?}", path.display()));
        expect(group, &sheet, printed.len(), &printed);
    }
}

fn random(group: &mut Group, n: usize, count: usize) {
    for _ in group.times(count) {
        let lines = any_sheet(&mut group.rng, n);
        compare(group, &joined(&lines));
    }
}

fn longest_sheets(group: &mut Group) {
    for n in 1..=5 {
        for _ in group.times(3) {
            let sheet = longest_sheet(&mut group.rng, n, 8);
            let answered = read(&sheet).is_ok();
            group.case(answered && (n < 5 || sheet.len() == 22_607), || format!("n {n}, {} bytes", sheet.len()));
            compare(group, &sheet);
        }
    }
    let sheet = longest_sheet(&mut group.rng, 5, 8);
    for end in (0..sheet.len()).filter(|&place| sheet[place] == b'\n') {
        compare(group, &inserted(&sheet, end, b'~'));
        compare(group, &deleted(&sheet, end));
    }
}

fn longest_answers(group: &mut Group) {
    for (n, first) in [(1, "reach 2\n"), (2, "reach 6\n"), (3, "reach 14\n"), (4, "reach 30\n"), (5, "reach 62\n")] {
        let sheet = climb(n).into_bytes();
        let printed = answer(&sheet);
        group.case(printed.starts_with(first), || format!("n {n}: {printed:.40}"));
        for room in [0, 1, 7, 100, printed.len() - 1, printed.len(), printed.len() + 1, 20_000] {
            expect(group, &sheet, room, &printed);
        }
    }
}

fn rooms(group: &mut Group) {
    let random: Vec<Lines> = (0..4).map(|_| any_sheet(&mut group.rng, 2)).collect();
    let sheets = [P6.to_string(), P6.replace("team 1 2", "team 1"), "size 6 6\n".to_string(), climb(2), climb(3)];
    for sheet in sheets.into_iter().map(String::into_bytes).chain(random.iter().map(|lines| joined(lines))) {
        let printed = answer(&sheet);
        for room in 0..=printed.len() + 3 {
            expect(group, &sheet, room, &printed);
        }
    }
    let too_long = vec![b'a'; SHEET_MOST + 1];
    for room in 0..=20 {
        expect(group, &too_long, room, "refused 24 0\n");
    }
}
