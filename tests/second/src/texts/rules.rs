//! The cases for rules texts: the word, and every byte of the room for the book, are compared with `text.rs`.

use crate::book::BLOCK;
use crate::books::repaired;
use crate::ffi;
use crate::formula::{self, LENGTH_MOST};
use crate::grow::{sentence, SHAPES};
use crate::refusal::{refusal, told, Refusal};
use crate::report::{shown, Group, Subject};
use crate::rng::Rng;
use crate::room::Room;
use crate::sheets::made::any_rules_of;
use crate::spoilt::{
    cut_short, every_byte, joined, line_faults, moved_lines, odd_lines, two_bytes, with_passed_over, Lines, Texts,
    ODD_LINES,
};
use crate::text::{book, TEXT_MOST};

/// Lines of the longest rules: a size and 2 × 7 × 8 rights.
const LINES_MOST: u32 = 113;
/// The same of six settings, the most that have a letter past the size.
const LINES_OF_SIX: u32 = 97;
const BOOK_MOST: usize = 8 * BLOCK;

pub fn test(subject: &mut Subject) {
    subject.group("points settled by hand", points);
    for (n, count) in [(1, 200), (2, 200), (3, 200), (4, 150), (5, 100), (6, 100), (7, 100)] {
        subject.group(&format!("random rules, n = {n}"), |group| random(group, n, count));
    }
    subject.group("rights not stated, for every size, and one right stated at each place", one_stated);
    subject.group("rights not stated, every mixture of eight rights", every_mixture);
    subject.group("the longest rules", longest);
    subject.group("rooms of every length around the book's", rooms);
    subject.group("odd lines at every place", |group| odd_lines::<Rules>(group, 6));
    subject.group("lines lost, doubled and in another order", |group| moved_lines::<Rules>(group, 60));
    subject.group("damaged at every byte", |group| every_byte::<Rules>(group, 6));
    subject.group("damaged at two bytes", |group| two_bytes::<Rules>(group, 6_000));
    subject.group("cut short at every byte", |group| cut_short::<Rules>(group, 20));
    subject.group("every size that a line can name", sizes);
    subject.group("rights stated twice", twice);
    subject.group("each fault in each line of the longest rules", every_line);
    subject.group("formulas of every length near the limit", formula_lengths);
    subject.group("lengths around 65,536", lengths);
    subject.group("random bytes and random lines", rubbish);
    for number in [1, 2, 4] {
        subject.must_reach(number, 2..=LINES_MOST);
    }
    subject.must_reach(3, 2..=LINES_OF_SIX);
    subject.must_reach(22, 1..=LINES_MOST + 1);
    subject.must_reach(23, 3..=LINES_MOST + 1);
    subject.must_reach(22, TEXT_MOST as u32..=TEXT_MOST as u32 + 1);
    subject.must_reach(24, 0..=0);
    subject.must_reach(15, 0..=0);
}

struct Rules;

impl Texts for Rules {
    type To = ();

    fn any(rng: &mut Rng) -> ((), Lines) {
        let (n, m) = (rng.between(1, 7), rng.between(1, 3));
        let lines = any_rules_of(rng, n, m, 30);
        ((), with_passed_over(rng, &lines))
    }

    fn small(rng: &mut Rng) -> ((), Lines) {
        loop {
            let (n, m) = (rng.between(1, 7), rng.between(1, 8));
            let percent = rng.one_of(&[5, 20, 40]);
            let lines = any_rules_of(rng, n, m, percent);
            let lines = with_passed_over(rng, &lines);
            if joined(&lines).len() < 90 {
                return ((), lines);
            }
        }
    }

    fn compare(group: &mut Group, (): &(), rules: &[u8]) {
        compare(group, rules);
    }
}

/// One case: the library and this program on the same rules, in a room that is long enough or, now and then, not.
fn compare(group: &mut Group, rules: &[u8]) {
    let length = book(rules, usize::MAX).map_or(2 * BLOCK, |book| book.len());
    let room = match group.rng.below(5) {
        0 => group.rng.below(length),
        _ => length + group.rng.one_of(&[0, 1, 50]),
    };
    expect(group, rules, room, book(rules, room));
}

/// The book's length, and the book at the start of its room; or the refusal, which leaves the room as it was.
fn expect(group: &mut Group, rules: &[u8], room: usize, expected: Result<Vec<u8>, Refusal>) {
    let mut text = Room::holding(rules, b"\n#1a ", &mut group.rng);
    let mut out = Room::of(room, &mut group.rng);
    let word = ffi::rules(&mut text, &mut out);

    let mut left = out.lent_before().to_vec();
    let expected_word = match &expected {
        Ok(book) => {
            left[..book.len()].copy_from_slice(book);
            book.len() as u64
        }
        Err(refusal) => refusal.word(),
    };
    group.case(word == expected_word && out.holds(&left) && text.untouched(), || {
        let more = match (0..room).find(|&i| out.lent()[i] != left[i]) {
            Some(i) => format!(", byte {i} of the room is {} and not {}", out.lent()[i], left[i]),
            None if out.holds(&left) && text.untouched() => String::new(),
            None => ", and more was written".to_string(),
        };
        format!(
            "{}\n        in a room of {room}\n        expected {}\n        got      {}{more}",
            shown(rules),
            told(expected_word),
            told(word)
        )
    });
    group.came_to(expected);
}

/// Rules that are refused, with the number and the line.
const REFUSED: &[(&str, u32, usize)] = &[
    ("", 22, 1),
    ("\n", 22, 2),
    ("\n\n\n", 22, 4),
    ("#", 22, 1),
    ("#\n", 22, 2),
    ("#\n#", 22, 2),
    ("# a note\n\n# another\n", 22, 4),
    (" ", 22, 1),
    (" \n", 22, 1),
    ("\r\n", 22, 1),
    ("\nsize 1 1", 22, 2),
    ("size 1 1", 22, 1),
    ("size 7 8", 22, 1),
    ("size 1 1\r\n", 22, 1),
    ("\u{feff}size 1 1\n", 22, 1),
    (" size 1 1\n", 22, 1),
    (" # a note\nsize 1 1\n", 22, 1),
    ("size 1 1 \n", 22, 1),
    ("size 1 1 #\n", 22, 1),
    ("size 1\n", 22, 1),
    ("size 8 1\n", 22, 1),
    ("size 0 1\n", 22, 1),
    ("size 7 9\n", 22, 1),
    ("size 7 0\n", 22, 1),
    ("size 07 1\n", 22, 1),
    ("\n#\n\nsize 9 1\n", 22, 4),
    ("read a 1 1\nsize 1 1\n", 22, 1),
    ("team 1\n", 22, 1),
    ("size 1 1\nsize 1 1\n", 22, 2),
    ("size 1 1\n#\nsize 1 1\n", 22, 3),
    ("size 1 1\n#", 22, 2),
    ("size 1 1\n# a note", 22, 2),
    ("size 1 1\n\n#", 22, 3),
    ("size 1 1\n ", 22, 2),
    ("size 1 1\n \n", 22, 2),
    ("size 1 1\n\r\n", 22, 2),
    ("size 1 1\n\t\n", 22, 2),
    ("size 1 1\n\0\n", 22, 2),
    ("size 1 1\n #\n", 22, 2),
    ("size 1 1\n\n\nteam 1\n", 22, 4),
    ("size 1 1\nteam 1\nknown\nmake a\n", 22, 2),
    ("size 1 1\nknown\n", 22, 2),
    ("size 1 1\nmake a\n", 22, 2),
    ("size 1 1\nask a\n", 22, 2),
    ("size 1 1\nread a 1 1", 22, 2),
    ("size 1 1\nread a 1 (", 22, 2),
    ("size 1 1\nread b 1 1\n", 22, 2),
    ("size 1 1\nread a 2 1\n", 22, 2),
    ("size 7 7\nread g 7 g\nwrite g 8 g\n", 22, 3),
    ("size 7 8\nread h 8 g\n", 22, 2),
    ("size 6 8\nread g 8 a\n", 22, 2),
    ("size 1 1\nread a 1\n", 22, 2),
    ("size 1 1\nread a 1 \n", 1, 2),
    ("size 1 1\nread a 1 #\n", 2, 2),
    ("size 1 1\nread a 1 a # a note\n", 2, 2),
    ("size 1 1\nread a 1 a\r\n", 2, 2),
    ("size 1 1\n\n#\nread a 1 b\n", 3, 4),
    ("size 6 1\nread a 1 g\n", 3, 2),
    ("size 7 1\nread a 1 h\n", 2, 2),
    ("size 1 1\nread a 1 a&\n", 4, 2),
    ("size 1 1\nread a 1 (\nrubbish", 4, 2),
    ("size 1 1\nread a 1 1\nread a 1 1\n", 23, 3),
    ("size 1 1\nread a 1 1\n\n# again\nread a 1 1\n", 23, 5),
    ("size 1 1\nread a 1 1\nread a 1 (\n", 23, 3),
    ("size 1 1\nread a 1 1\nread a 1 \n", 23, 3),
    ("size 1 1\nread a 1 1\nread a 1\n", 22, 3),
    ("size 1 1\nread a 1 1\nread a 1 1", 22, 3),
    ("size 1 1\nread a 1 (\nread a 1 1\n", 4, 2),
];

/// Rules that are taken, with their n and m and the rights that they state.
const TAKEN: &[(&str, usize, usize, &[&str])] = &[
    ("size 1 1\n", 1, 1, &[]),
    ("size 7 8\n", 7, 8, &[]),
    ("size 6 2\n", 6, 2, &[]),
    ("\n\n# a note\n\nsize 7 1\n\n", 7, 1, &[]),
    ("#\nsize 2 2\n#\nread a 1 b\n\nwrite b 2 ~a\n#\n", 2, 2, &["read a 1 b", "write b 2 ~a"]),
    ("size 7 8\nread g 8 a&g\nwrite a 1 ~(f|g)\n", 7, 8, &["read g 8 a&g", "write a 1 ~(f|g)"]),
    ("size 6 8\n#read a 1 1\nread a 1 0\n", 6, 8, &["read a 1 0"]),
    ("size 6 8\n#read a 1 0\nwrite a 1 0\n", 6, 8, &[]),
    ("size 1 1\n#read a 1 1\nread a 1 1\n", 1, 1, &["read a 1 1"]),
    ("size 2 1\nwrite a 1 b|~b\nread a 1 1\nread b 1 1\n", 2, 1, &["write a 1 1", "read a 1 1", "read b 1 1"]),
    ("size 1 1\n#\0\r\t \u{e9}\nread a 1 a\n", 1, 1, &["read a 1 a"]),
];

/// The book of n settings and m posts, byte by byte: each look of posts 1 to m is `1` and each set `0`, but for the
/// rights that are stated. Tables of posts past m are zero.
fn book_of(n: usize, m: usize, stated: &[&str]) -> Vec<u8> {
    let mut book = vec![0; (1 + n) * BLOCK];
    (book[0], book[1]) = (n as u8, m as u8);
    for setting in 1..=n {
        for post in 0..m {
            for v in 0..1 << n {
                book[setting * BLOCK + 32 * post + v / 8] |= 1 << (v % 8);
            }
        }
    }
    for right in stated {
        let words: Vec<&[u8]> = right.as_bytes().split(|&byte| byte == b' ').collect();
        let (setting, post) = (usize::from(words[1][0] - b'a'), usize::from(words[2][0] - b'1'));
        let table = formula::read(n as u64, words[3]).unwrap_or_else(|refusal| panic!("{right}: {refusal}"));
        let place = (1 + setting) * BLOCK + 32 * post + if words[0] == b"read" { 0 } else { 16 };
        book[place..place + 16].copy_from_slice(&table);
    }
    repaired(&book)
}

/// This program's own answer and the library's, both against the book by hand.
fn stated_alone(group: &mut Group, n: usize, m: usize, stated: &[&str]) {
    let lines: String = stated.iter().map(|right| format!("{right}\n")).collect();
    let rules = format!("size {n} {m}\n{lines}").into_bytes();
    let expected = book_of(n, m, stated);
    let own = book(&rules, usize::MAX);
    group.case(own.as_ref() == Ok(&expected), || format!("this program's own answer to {}", shown(&rules)));
    expect(group, &rules, expected.len() + 9, Ok(expected));
}

fn one_stated(group: &mut Group) {
    for n in 1..=7 {
        for m in 1..=8 {
            stated_alone(group, n, m, &[]);
            for setting in 0..n {
                for post in 1..=m {
                    for verb in ["read", "write"] {
                        let formula = group.rng.one_of(&["0", "1", "a", "~a", "a|~a", "a&~a"]);
                        let letter = (b'a' + setting as u8) as char;
                        stated_alone(group, n, m, &[&format!("{verb} {letter} {post} {formula}")]);
                    }
                }
            }
        }
    }
}

/// Each of eight rights is `0`, `1` or not stated: two settings with two posts, and one setting with four.
fn every_mixture(group: &mut Group) {
    for (n, m) in [(2, 2), (1, 4)] {
        for mixture in 0..3usize.pow(8) {
            let mut stated = Vec::new();
            for right in 0..8 {
                let (letter, post) = ((b'a' + (right / 2 / m) as u8) as char, right / 2 % m + 1);
                let verb = if right % 2 == 0 { "read" } else { "write" };
                match mixture / 3usize.pow(right as u32) % 3 {
                    0 => {}
                    said => stated.push(format!("{verb} {letter} {post} {}", said - 1)),
                }
            }
            stated_alone(group, n, m, &stated.iter().map(String::as_str).collect::<Vec<_>>());
        }
    }
}

fn points(group: &mut Group) {
    for &(rules, number, line) in REFUSED {
        let own = book(rules.as_bytes(), usize::MAX);
        let expected = refusal(number, line);
        group.case(own == expected, || format!("this program's own answer to {rules:?}"));
        for room in [0, 2 * BLOCK, BOOK_MOST] {
            expect(group, rules.as_bytes(), room, expected.clone());
        }
    }
    for &(rules, n, m, stated) in TAKEN {
        let expected = book_of(n, m, stated);
        let own = book(rules.as_bytes(), usize::MAX);
        group.case(own.as_ref() == Ok(&expected), || format!("this program's own answer to {rules:?}"));
        expect(group, rules.as_bytes(), expected.len(), Ok(expected.clone()));
        expect(group, rules.as_bytes(), expected.len() - 1, refusal(15, 0));
        expect(group, rules.as_bytes(), BOOK_MOST + 9, Ok(expected));
    }
}

fn random(group: &mut Group, n: usize, count: usize) {
    for _ in group.times(count) {
        let m = group.rng.between(1, 8);
        let percent = group.rng.one_of(&[10, 30, 70, 100]);
        let lines = any_rules_of(&mut group.rng, n, m, percent);
        compare(group, &joined(&lines));
        let lines = with_passed_over(&mut group.rng, &lines);
        compare(group, &joined(&lines));
    }
}

/// Every right, each formula of 255 bytes: 29,689 bytes for seven settings and eight posts.
fn longest_rules(rng: &mut Rng, n: usize, m: usize) -> Lines {
    let mut lines = any_rules_of(rng, n, m, 100);
    for line in &mut lines[1..] {
        let before = line.splitn(4, |&byte| byte == b' ').take(3).collect::<Vec<_>>().join(&b' ');
        let shape = rng.one_of(SHAPES);
        *line = [&before[..], b" ", &sentence(rng, shape, n, LENGTH_MOST)].concat();
    }
    lines
}

fn longest(group: &mut Group) {
    for n in 1..=7 {
        for _ in group.times(2) {
            let lines = longest_rules(&mut group.rng, n, 8);
            let taken = book(&joined(&lines), usize::MAX).is_ok();
            group.case(taken, || format!("n {n}: this program's own answer to {} lines", lines.len()));
            compare(group, &joined(&lines));
            let lines = with_passed_over(&mut group.rng, &lines);
            compare(group, &joined(&lines));
        }
    }
}

/// 15 comes after the lines.
fn rooms(group: &mut Group) {
    for n in 1..=7 {
        let m = group.rng.between(1, 8);
        let lines = any_rules_of(&mut group.rng, n, m, 30);
        let lines = with_passed_over(&mut group.rng, &lines);
        let (rules, length) = (joined(&lines), (1 + n) * BLOCK);
        for room in (0..=20).chain(length - 40..=length + 40).chain((1..=9).map(|blocks| blocks * BLOCK)) {
            expect(group, &rules, room, book(&rules, room));
            let faulty = [&rules[..], b"read a 1\n"].concat();
            expect(group, &faulty, room, refusal(22, lines.len() + 1));
        }
    }
    for room in 0..=20 {
        expect(group, &vec![b'\n'; TEXT_MOST + 1], room, refusal(24, 0));
    }
}

fn sizes(group: &mut Group) {
    for n in 0..=255u8 {
        for m in [b'1', b'8', b'9', b'0'] {
            compare(group, &[b"size ", &[n][..], b" ", &[m], b"\n"].concat());
            compare(group, &[b"#\nsize ", &[m][..], b" ", &[n], b"\nread a 1 a\n"].concat());
        }
    }
    for n in 0..=9 {
        for m in 0..=9 {
            for rest in ["", "\n", "rubbish", "read g 8 g\n", "write a 1 f\n", "team 1\n", "#"] {
                compare(group, format!("size {n} {m}\n{rest}").as_bytes());
                compare(group, format!("\n# a note\nsize {n} {m}\n{rest}").as_bytes());
            }
            compare(group, format!("size {n} {m}").as_bytes());
            compare(group, format!("size {n}{m}\n").as_bytes());
        }
    }
    for n in 1..=7 {
        for m in 1..=8 {
            for byte in 0..=255u8 {
                let right: &[u8] = if group.rng.chance(50) { b"read " } else { b"write " };
                let size = format!("size {n} {m}\n").into_bytes();
                compare(group, &[&size, right, &[byte][..], b" 1 1\n"].concat());
                compare(group, &[&size, right, b"a ", &[byte], b" 1\n"].concat());
                compare(group, &[&size, right, b"a 1 ", &[byte], b"\n"].concat());
                compare(group, &[&size, &[byte][..], b"\n"].concat());
            }
        }
    }
}

fn twice(group: &mut Group) {
    for _ in group.times(30) {
        let n = group.rng.between(1, 7);
        let m = group.rng.between(1, 2);
        let lines = any_rules_of(&mut group.rng, n, m, 60);
        for first in 1..lines.len() {
            let words = lines[first].splitn(4, |&byte| byte == b' ').take(3).collect::<Vec<_>>().join(&b' ');
            let again = group.rng.between(first + 1, lines.len());
            for formula in [&b" 1"[..], b" ", b"", b" (", b" g", b" a b"] {
                let mut lines = lines.clone();
                lines.insert(again, [&words[..], formula].concat());
                let lines = with_passed_over(&mut group.rng, &lines);
                compare(group, &joined(&lines));
            }
        }
    }
}

fn every_line(group: &mut Group) {
    for (n, past) in [(7, None), (6, Some(b'g'))] {
        let lines = any_rules_of(&mut group.rng, n, 8, 100);
        assert_eq!(lines.len() as u32, if n == 7 { LINES_MOST } else { LINES_OF_SIX });
        for line in 0..lines.len() {
            let mut faults = line_faults(&lines[line], past);
            if line > 1 {
                faults.push((lines[group.rng.between(1, line - 1)].clone(), 23));
            }
            let rights =
                [&b"team 1"[..], b"known", b"make a", b"ask a", b"size 7 8", b"read h 1 1", b"read a 9 1", b" "];
            let first = [&b"team 1"[..], b"read a 1 1", b"size 8 1", b"size 1 9", b"size 0 1", b"size 1 1 ", b"\r"];
            let malformed = if line == 0 { &first[..] } else { &rights };
            faults.extend(malformed.iter().map(|line| (line.to_vec(), 22)));
            for (new, number) in faults {
                let mut lines = lines.clone();
                lines[line] = new;
                expect(group, &joined(&lines), BOOK_MOST, refusal(number, line + 1));
            }
            for (more, place) in [("", line + 1), ("\n#", line + 2), ("\n \n", line + 2), ("\n\n\r", line + 3)] {
                let text = [&joined(&lines[..line])[..], &lines[line], more.as_bytes()].concat();
                expect(group, &text, BOOK_MOST, refusal(22, place));
            }
            compare(group, &joined(&lines[..line]));
        }
        for more in ["team 1\n", "known\n", "size 7 8\n", "read a 1 1", "#", " ", "\r\n"] {
            let text = [&joined(&lines)[..], more.as_bytes()].concat();
            expect(group, &text, BOOK_MOST, refusal(22, lines.len() + 1));
        }
        let text = [&joined(&lines)[..], &lines[1], b"\n"].concat();
        expect(group, &text, BOOK_MOST, refusal(23, lines.len() + 1));
    }
}

fn formula_lengths(group: &mut Group) {
    for length in [1, 2, 200, 253, 254, 255, 256, 257, 511, 512, 1_000, 30_000, 60_000] {
        let n = group.rng.between(1, 7);
        let row = |letter: u8| -> Vec<u8> { (0..length).map(|i| if i % 2 == 0 { letter } else { b'&' }).collect() };
        for formula in [vec![b'~'; length], row(b'a'), row(b' '), [&vec![b'~'; length - 1][..], b"a"].concat()] {
            for (before, after) in [("read a 1 ", "\n"), ("#", "\nread a 1 1\n"), ("read a ", " 1\n"), ("", "\n")] {
                let start = format!("size {n} 1\n{before}");
                compare(group, &[start.as_bytes(), &formula, after.as_bytes()].concat());
            }
        }
    }
}

/// Notes and empty lines make rules of any length that are taken.
fn lengths(group: &mut Group) {
    let starts =
        [&b"size 7 8\n"[..], b"", b"size 2 2\nread a 1 1\nread a 1 1\n", b"size 9 9\n", b"size 3 3\nread a 1 "];
    for length in [TEXT_MOST - 1, TEXT_MOST, TEXT_MOST + 1, TEXT_MOST + 2, 98_304, 131_072, 131_072 + 9] {
        for start in starts {
            for byte in [b'\n', b'#', b' ', b'a', 255] {
                let mut rules = start.to_vec();
                rules.resize(length, byte);
                compare(group, &rules);
                rules[length - 1] = b'\n';
                compare(group, &rules);
                rules[start.len()] = b'#';
                compare(group, &rules);
            }
        }
        for n in 1..=7 {
            let lines = longest_rules(&mut group.rng, n, 8);
            let rules = joined(&lines);
            let room = (1 + n) * BLOCK;
            let note = [b"#", &vec![b'a'; length - rules.len() - 2][..], b"\n"].concat();
            for rules in [[&rules[..], &note].concat(), [&note[..], &rules].concat()] {
                let expected = book(&rules, room);
                group.case(expected.is_ok() == (length <= TEXT_MOST), || format!("n {n}, {length} bytes"));
                expect(group, &rules, room, expected);
            }
        }
    }
    for (lines, end, place) in [(TEXT_MOST, "", TEXT_MOST + 1), (TEXT_MOST - 1, " ", TEXT_MOST)] {
        expect(group, &[&vec![b'\n'; lines][..], end.as_bytes()].concat(), 0, refusal(22, place));
    }
    let size = "size 7 8\n";
    let late = [&vec![b'\n'; TEXT_MOST - size.len()][..], size.as_bytes()].concat();
    expect(group, &late, BOOK_MOST, Ok(book_of(7, 8, &[])));
}

fn rubbish(group: &mut Group) {
    for _ in group.times(1_500) {
        let length = group.rng.between(1, 200);
        let bytes = group.rng.bytes(length);
        compare(group, &bytes);
        let bytes = group.rng.bytes_of(b"sizereadwrite#123abc~&|() \n\n", length);
        compare(group, &bytes);
        compare(group, &[b"size 7 3\n", &bytes[..]].concat());
        let count = group.rng.between(1, 8);
        let lines: Lines = (0..count).map(|_| group.rng.one_of(ODD_LINES).to_vec()).collect();
        compare(group, &[b"size 2 2\n", &joined(&lines)[..]].concat());
    }
}
