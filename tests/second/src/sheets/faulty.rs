//! Sheets with faults of their own kind: things named twice, each fault in each line, and lengths around the limits.

use super::by_hand::P6;
use super::made::{any_sheet, any_sheet_of};
use super::{compare, expect, HELD_LINE, KNOWN_LINE, LINES_MOST, MAKE_LINE, TEAM_LINE};
use crate::refusal::Refusal;
use crate::report::Group;
use crate::rng::Rng;
use crate::sheet::SHEET_MOST;
use crate::spoilt::{joined, line_faults, Lines, ODD_LINES};

pub fn sizes(group: &mut Group) {
    let rest = "team 1\nknown\nmake 1\n";
    for n in 0..=255u8 {
        for m in [b'1', b'8', b'9', b'0'] {
            compare(group, &[b"size ", &[n][..], b" ", &[m], b"\n", rest.as_bytes()].concat());
            compare(group, &[b"size ", &[m][..], b" ", &[n], b"\n", rest.as_bytes()].concat());
        }
    }
    for n in 1..=9 {
        for m in 0..=9 {
            for rest in [rest, "", "rubbish", "\n", "read g 8 g\nteam 8\nknown g\nmake g\n"] {
                compare(group, format!("size {n} {m}\n{rest}").as_bytes());
            }
            compare(group, format!("size {n} {m}").as_bytes());
            compare(group, format!("size {n} {m} \n{rest}").as_bytes());
            compare(group, format!("size {n}{m}\n{rest}").as_bytes());
        }
    }
}

pub fn twice(group: &mut Group) {
    for _ in group.times(40) {
        let n = group.rng.between(1, 3);
        let lines = any_sheet(&mut group.rng, n);
        for first in 1..lines.len() {
            if !(lines[first].starts_with(b"read") || lines[first].starts_with(b"write")) {
                continue;
            }
            let words = lines[first].splitn(4, |&byte| byte == b' ').take(3).collect::<Vec<_>>().join(&b' ');
            let again = group.rng.between(first + 1, lines.len());
            for formula in [&b" 1"[..], b" ", b"", b" (", b" g", b" a b"] {
                let mut lines = lines.clone();
                lines.insert(again, [&words[..], formula].concat());
                compare(group, &joined(&lines));
            }
        }
    }
    for m in 1..=8 {
        for _ in group.times(20) {
            let count = group.rng.between(1, 5);
            let posts = (0..count).map(|_| format!(" {}", group.rng.between(1, m + 1))).collect::<String>();
            compare(group, format!("size 1 {m}\nteam{posts}\nknown\nmake 1\n").as_bytes());
        }
    }
    for n in 1..=5 {
        for _ in group.times(30) {
            let count = group.rng.between(1, 4);
            let word = |rng: &mut Rng| {
                let turned = rng.one_of(&["", "", "~"]);
                format!(" {turned}{}", (b'a' + rng.below(n + 1) as u8) as char)
            };
            let known = (0..count).map(|_| word(&mut group.rng)).collect::<String>();
            compare(group, format!("size {n} 1\nteam 1\nknown{known}\nmake 1\nask a\n").as_bytes());
            compare(group, format!("size {n} 1\nteam 1\nknown\nheld{known}\nmake 1\nask a\n").as_bytes());
        }
    }
}

pub fn every_line(group: &mut Group) {
    let mut lines = any_sheet_of(&mut group.rng, 5, 8, 100);
    lines.truncate(TEAM_LINE as usize - 1);
    for line in
        [&b"team 1 2 3 4 5 6 7 8"[..], b"known a ~b", b"held c a", b"make c", b"ask a", b"ask b", b"ask c", b"ask d"]
    {
        lines.push(line.to_vec());
    }
    assert_eq!(lines.len() as u32, LINES_MOST);
    let expect_at = |group: &mut Group, line: usize, new: Vec<u8>, number: u32| {
        let mut lines = lines.clone();
        lines[line] = new;
        let refused = Refusal::at(number, line as u32 + 1);
        expect(group, &joined(&lines), 20, &format!("{refused}\n"));
    };
    for line in 0..lines.len() {
        for (new, number) in line_faults(&lines[line], Some(b'f')) {
            expect_at(group, line, new, number);
        }
        if (2..TEAM_LINE as usize - 1).contains(&line) {
            let earlier = group.rng.between(1, line - 1);
            expect_at(group, line, lines[earlier].clone(), 23);
        }
    }
    for fewer in 1..=3 {
        for (formula, number) in [("", 1), ("a b", 2), ("f", 3), ("~", 4)] {
            let mut lines = lines[fewer..MAKE_LINE as usize].to_vec();
            lines[0] = b"size 5 8".to_vec();
            *lines.last_mut().unwrap() = format!("make {formula}").into_bytes();
            let refused = Refusal::at(number, lines.len() as u32);
            expect(group, &joined(&lines), 20, &format!("{refused}\n"));
        }
    }
    expect_at(group, TEAM_LINE as usize - 1, b"team 1 8 1".to_vec(), 23);
    expect_at(group, KNOWN_LINE as usize - 1, b"known e ~e".to_vec(), 23);
    expect_at(group, HELD_LINE as usize - 1, b"held e a e".to_vec(), 23);
    for malformed in [&b"held ~a"[..], b"held f", b"held e e f", b"held e e ~e", b"helda", b"Held a", b"held\ta"] {
        expect_at(group, HELD_LINE as usize - 1, malformed.to_vec(), 22);
    }
    for more in ["\n", "ask a\n", "ask a", " ", "known\n", "held\n"] {
        let refused = format!("refused 22 {}\n", LINES_MOST + 1);
        expect(group, &[&joined(&lines)[..], more.as_bytes()].concat(), 20, &refused);
    }
    for end in 0..lines.len() - 4 {
        let refused = format!("refused 22 {}\n", end + 1);
        if end < MAKE_LINE as usize {
            expect(group, &joined(&lines[..end]), 20, &refused);
        }
        expect(group, &[&joined(&lines[..end])[..], &lines[end]].concat(), 20, &refused);
    }
    compare(group, &joined(&lines));
}

pub fn formula_lengths(group: &mut Group) {
    for length in [1, 2, 200, 253, 254, 255, 256, 257, 511, 512, 1_000, 10_000, 30_000] {
        let n = group.rng.between(1, 3);
        let row = |letter: u8| -> Vec<u8> { (0..length).map(|i| if i % 2 == 0 { letter } else { b'&' }).collect() };
        for formula in [vec![b'~'; length], row(b'a'), row(b' '), [&vec![b'~'; length - 1][..], b"a"].concat()] {
            for (before, after) in [
                ("read a 1 ", "\nteam 1\nknown\nmake a\n"),
                ("team 1\nknown\nmake ", "\n"),
                ("team 1\nknown\nmake a\nask ", "\nask 1\n"),
                ("team 1\nknown", "\nmake a\n"),
            ] {
                let start = format!("size {n} 1\n{before}");
                compare(group, &[start.as_bytes(), &formula, after.as_bytes()].concat());
            }
        }
    }
}

/// No sheet that is answered comes near the limit, so what is cut to these lengths is refused, at some line or for 24.
pub fn lengths(group: &mut Group) {
    let mut padded = P6.as_bytes().to_vec();
    for (length, printed) in [(SHEET_MOST, "refused 22 9\n"), (SHEET_MOST + 1, "refused 24 0\n")] {
        padded.resize(length, b'\n');
        expect(group, &padded, 20, printed);
    }
    compare(group, b"");
    for length in (1..=40).chain([1_000, SHEET_MOST - 1, SHEET_MOST, SHEET_MOST + 1, SHEET_MOST + 2]) {
        for byte in [b'\n', b' ', b'a', 0, 255] {
            compare(group, &vec![byte; length]);
        }
    }
    let answered = P6.as_bytes();
    for length in
        [SHEET_MOST - 1, SHEET_MOST, SHEET_MOST + 1, SHEET_MOST + 2, 40_000, 65_535, 65_536, 65_536 + 83, 98_304]
    {
        for start in
            [answered, b"size 7 8\n", b"size 2 2\nread a 1 1\nread a 1 1\n", b"size 9 9\n", b"size 3 3\nread a 1 "]
        {
            for byte in [b'\n', b' ', b'a', 255] {
                let mut sheet = start.to_vec();
                sheet.resize(length, byte);
                compare(group, &sheet);
                sheet[length - 1] = b'\n';
                compare(group, &sheet);
            }
        }
        let lines = any_sheet_of(&mut group.rng, 5, 8, 100);
        let mut sheet = joined(&lines).repeat(80);
        sheet.resize(length, b'\n');
        compare(group, &sheet);
    }
    compare(group, &[answered, &[0; 65_536][..]].concat());
}

pub fn rubbish(group: &mut Group) {
    for _ in group.times(1_500) {
        let length = group.rng.between(1, 200);
        let bytes = group.rng.bytes(length);
        compare(group, &bytes);
        let bytes = group.rng.bytes_of(b"sizeteamknownheldmakeaskreadwrite123abc~&|() \n", length);
        compare(group, &bytes);
        compare(group, &[b"size 3 3\n", &bytes[..]].concat());
        let count = group.rng.between(1, 8);
        let lines: Lines = (0..count).map(|_| group.rng.one_of(ODD_LINES).to_vec()).collect();
        compare(group, &[b"size 2 2\n", &joined(&lines)[..]].concat());
    }
}
