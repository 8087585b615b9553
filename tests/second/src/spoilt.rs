//! Ways to spoil texts of lines, of any kind: odd lines and bytes, lines out of place, and ends that are missing.

use crate::damage::{deleted, inserted, replaced, swapped};
use crate::formula::LENGTH_MOST;
use crate::report::Group;
use crate::rng::Rng;

/// A text's lines, without the byte 10 at their ends.
pub type Lines = Vec<Vec<u8>>;

pub fn joined(lines: &[Vec<u8>]) -> Vec<u8> {
    lines.iter().flat_map(|line| [line, &b"\n"[..]].concat()).collect()
}

/// Texts of one kind: how they are made at random, and how the library is tried with one.
pub trait Texts {
    /// What a text is put to: a question's book.
    type To;

    fn any(rng: &mut Rng) -> (Self::To, Lines);

    /// Few and short lines, for damage at every byte of them.
    fn small(rng: &mut Rng) -> (Self::To, Lines);

    fn compare(group: &mut Group, to: &Self::To, text: &[u8]);
}

/// Lines that are wrong somewhere, or everywhere, or in a small text twice.
pub const ODD_LINES: &[&[u8]] = &[
    b"", b" ", b"  ", b"\t", b"\r", b"\0", b"\xff", b"#", b"size", b"size 1 1", b"size 2 2", b"size 6 1", b"team",
    b"team ", b"team 1", b"team 1 ", b"team  1", b" team 1", b"team 2 1", b"team 1 1", b"team 0", b"team 9",
    b"team 12", b"team a", b"team 1\r", b"Team 1", b"teams 1", b"known", b"known ", b"known a", b"known ~a",
    b"known ~", b"known ~~a", b"known a~", b"known a a", b"known ~a a", b"known  a", b"known a ", b"known g",
    b"known A", b"known 1", b"known\r", b"known\ta", b"knowna", b"held", b"held ", b"held a", b"held ~a", b"held ~",
    b"held a a", b"held  a", b"held a ", b"held g", b"held A", b"held 1", b"held\r", b"held\ta", b"helda", b"hel",
    b"make", b"make ", b"make a", b"make  a", b"make a ", b"make 1", b"make (", b"make g", b"make A", b"make a\r",
    b"make\ta", b"makea", b"ask", b"ask ", b"ask a", b"ask  a", b"ask a ", b"ask ~", b"ask g", b"ask ?", b"ask a\0",
    b"read", b"read ", b"read a", b"read a ", b"read a 1", b"read a 1 ", b"read a 1 1", b"read a 1  1", b"read a  1 1",
    b"read  a 1 1", b" read a 1 1", b"read a 1 1 ", b"read a 1 a b", b"read a 1 (", b"read a 1 g", b"read a 1 1\r",
    b"read a 0 1", b"read a 9 1", b"read a 12 1", b"read g 1 1", b"read aa 1 1", b"read A 1 1", b"read 1 a 1",
    b"READ a 1 1", b"reads a 1 1", b"write", b"write a 1", b"write a 1 ", b"write a 1 1", b"write a 1 ~1",
    b"write a 1 )", b"write\ta 1 1", b"write a\t1 1", b"write a 1\t1", b"# a note", b"#\r", b" #", b"##\0\xff",
];

pub fn odd_lines<T: Texts>(group: &mut Group, times: usize) {
    for _ in group.times(times) {
        let (to, lines) = T::small(&mut group.rng);
        for place in 0..=lines.len() {
            for &odd in ODD_LINES {
                let mut more = lines.clone();
                more.insert(place, odd.to_vec());
                T::compare(group, &to, &joined(&more));
                if place < lines.len() {
                    more.remove(place + 1);
                    T::compare(group, &to, &joined(&more));
                }
            }
        }
    }
}

pub fn moved_lines<T: Texts>(group: &mut Group, times: usize) {
    for _ in group.times(times) {
        let (to, lines) = T::any(&mut group.rng);
        for place in 0..lines.len() {
            let other = group.rng.below(lines.len());
            let mut fewer = lines.clone();
            fewer.remove(place);
            let mut doubled = lines.clone();
            doubled.insert(other, lines[place].clone());
            let mut exchanged = lines.clone();
            exchanged.swap(place, other);
            for lines in [fewer, doubled, exchanged, lines[..place].to_vec(), lines[place..].to_vec()] {
                T::compare(group, &to, &joined(&lines));
            }
        }
    }
}

/// Blanks, ends of lines, bytes of formulas and of nothing.
pub const ODD_BYTES: &[u8] = b" \n#\t\r\0\x7f\xff\xa0a1~09ghA(&";

pub fn every_byte<T: Texts>(group: &mut Group, times: usize) {
    for _ in group.times(times) {
        let (to, lines) = T::small(&mut group.rng);
        let text = joined(&lines);
        for place in 0..text.len() {
            T::compare(group, &to, &deleted(&text, place));
            T::compare(group, &to, &swapped(&text, place, (place + 1) % text.len()));
            for &byte in ODD_BYTES {
                T::compare(group, &to, &replaced(&text, place, byte));
                T::compare(group, &to, &inserted(&text, place, byte));
            }
        }
        for &byte in ODD_BYTES {
            T::compare(group, &to, &inserted(&text, text.len(), byte));
        }
    }
}

pub fn two_bytes<T: Texts>(group: &mut Group, times: usize) {
    for _ in group.times(times) {
        let (to, lines) = T::small(&mut group.rng);
        let mut text = joined(&lines);
        for _ in 0..2 {
            let place = group.rng.below(text.len());
            let byte = if group.rng.chance(80) { group.rng.one_of(ODD_BYTES) } else { group.rng.byte() };
            text = match group.rng.below(3) {
                0 => replaced(&text, place, byte),
                1 => inserted(&text, place, byte),
                _ => deleted(&text, place),
            };
        }
        T::compare(group, &to, &text);
    }
}

pub fn cut_short<T: Texts>(group: &mut Group, times: usize) {
    for _ in group.times(times) {
        let (to, lines) = T::small(&mut group.rng);
        let text = joined(&lines);
        for end in 0..=text.len() {
            T::compare(group, &to, &text[..end]);
            T::compare(group, &to, &[&text[..end], b"\n"].concat());
        }
        for start in 1..text.len() {
            T::compare(group, &to, &text[start..]);
        }
    }
}

/// Lines that rules and questions pass over.
const PASSED_OVER: &[&[u8]] = &[b"", b"", b"#", b"# a note", b"#size 1 1", b"#\t\r \0\xff~", b"##"];

/// The lines with lines that are passed over between them, before them and after them.
pub fn with_passed_over(rng: &mut Rng, lines: &[Vec<u8>]) -> Lines {
    let percent = rng.one_of(&[0, 10, 40]);
    let mut more = Lines::new();
    for place in 0..=lines.len() {
        while rng.chance(percent) {
            more.push(rng.one_of(PASSED_OVER).to_vec());
        }
        more.extend(lines.get(place).cloned());
    }
    more
}

/// A line in its place, spoilt: each way with the number it is refused with. `past` is a letter past the size.
pub fn line_faults(line: &[u8], past: Option<u8>) -> Vec<(Vec<u8>, u32)> {
    let mut faults = vec![([b" ", line].concat(), 22), (line[..3].to_vec(), 22)];
    let words: Vec<&[u8]> = line.splitn(4, |&byte| byte == b' ').collect();
    let before = match words[0] {
        b"read" | b"write" => words[..3].join(&b' '),
        b"make" | b"ask" => words[0].to_vec(),
        _ => {
            faults.push(([line, b" "].concat(), 22));
            faults.push(([line, b" ?"].concat(), 22));
            return faults;
        }
    };
    faults.push((before.clone(), 22));
    let long = |end: &[u8]| [&[b'~'; LENGTH_MOST - 1][..], end].concat();
    let mut formulas = vec![
        (vec![], 1),
        (long(b"~a"), 1),
        (b" 1".to_vec(), 2),
        (b"1 ".to_vec(), 2),
        (long(b"\t"), 2),
        (b"(a".to_vec(), 4),
        (b"a)".to_vec(), 4),
        (long(b"&"), 4),
        (long(b"~"), 4),
    ];
    formulas.extend(past.into_iter().flat_map(|past| [([b"a|", &[past][..]].concat(), 3), (long(&[past]), 3)]));
    faults.extend(formulas.into_iter().map(|(formula, number)| ([&before[..], b" ", &formula].concat(), number)));
    faults
}
