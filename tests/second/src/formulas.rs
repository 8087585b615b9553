//! The cases for the formula reader: every result and every lent byte is compared with `formula.rs`.

use crate::damage::{deleted, inserted, replaced, swapped};
use crate::ffi;
use crate::formula::{self, Table, BYTES, LENGTH_MOST};
use crate::grow::{sentence, Shape, SHAPES};
use crate::refusal::{told, Refusal};
use crate::report::{shown, Group, Subject};
use crate::rng::Rng;
use crate::room::Room;
use crate::sentences::{all_texts, up_to, KINDS};

/// Every n from 0 to 8, then some that a number of 8, 16, 32 or 63 bits would take for one of 1 to 7.
const SIZES: &[u64] = &[
    0, 1, 2, 3, 4, 5, 6, 7, 8, 9, 127, 128, 255, 256, 259, 0x1_0003, 0x8000_0003, 0x1_0000_0000, 0x1_0000_0003,
    0x8000_0000_0000_0007, 0xffff_ffff_ffff_fff9, 0xffff_ffff_ffff_ffff,
];

/// Lengths at and past the limit of 255, and some that a number of 8 or 16 bits would take for a short one.
const LENGTHS: &[usize] =
    &[1, 2, 253, 254, 255, 256, 257, 258, 259, 300, 511, 512, 513, 1_024, 65_535, 65_536, 65_537, 65_540, 100_000];

/// The depth at which the brackets alone, with one byte in them, have 255 bytes.
const DEPTH_MOST: usize = 127;

pub fn test(subject: &mut Subject) {
    subject.group("marked examples P1 to P5 and hand-written tables", by_hand);
    subject.group("this program's own reader on every short text", own_reader);
    subject.group("every text of at most 6 bytes over one byte of each kind", short_texts);
    subject.group("every text of one byte at every n, and of two bytes", one_and_two_bytes);
    for &shape in SHAPES {
        let name = format!("sentences of every length from 1 to 255, {}", shape.name);
        subject.group(&name, |group| every_length(group, shape));
    }
    subject.group("sentences of 254 and 255 bytes", longest);
    subject.group("brackets, ~, sums and products as deep and long as they get", deepest);
    subject.group("damaged at every place", damaged);
    subject.group("every byte value at every place", every_byte);
    subject.group("random bytes", random_bytes);
    subject.group("lengths 0 to 100,000, whatever the text", lengths);
    subject.group("n from 0 to 8 and far past it, whatever the text", sizes);
    subject.group("letters at and past n, at every place", letters);
    subject.group("beginnings of sentences", beginnings);
    subject.group("a sentence spoilt at every place by each byte", spoilt);
    subject.group("stray bytes and letters behind other faults", order);
    subject.must_reach(1, 0..=0);
    subject.must_reach(2, 0..=254);
    subject.must_reach(3, 0..=254);
    subject.must_reach(4, 0..=255);
    subject.must_reach(5, 0..=0);
}

/// One case: the library and this program's reader on the same text.
fn compare(group: &mut Group, n: u64, text: &[u8]) {
    expect(group, n, text, formula::read(n, text));
}

/// A refusal leaves the table as it was; a success fills its 16 bytes; nothing else is touched, the text neither.
fn expect(group: &mut Group, n: u64, text: &[u8], expected: Result<Table, Refusal>) {
    let mut lent_text = Room::holding(text, BYTES, &mut group.rng);
    let mut table = Room::of(ffi::TABLE, &mut group.rng);
    let word = ffi::formula_read(n, &mut lent_text, &mut table);

    let (expected_word, expected_table) = match expected {
        Ok(table) => (0, table.to_vec()),
        Err(refusal) => (refusal.word(), table.lent_before().to_vec()),
    };
    let right = word == expected_word && table.holds(&expected_table) && lent_text.untouched();
    group.case(right, || {
        let guards = if table.holds(table.lent()) && lent_text.untouched() { "" } else { ", and more was written" };
        format!(
            "n {n}, {}\n        expected {}, table {:02x?}\n        got      {}, table {:02x?}{guards}",
            shown(text),
            told(expected_word),
            expected_table,
            told(word),
            table.lent(),
        )
    });
    group.came_to(expected);
}

fn any_size(rng: &mut Rng) -> usize {
    rng.between(1, 7)
}

fn any_shape(rng: &mut Rng) -> Shape {
    rng.one_of(SHAPES)
}

fn any_sentence(rng: &mut Rng, n: usize, length: usize) -> Vec<u8> {
    let shape = any_shape(rng);
    sentence(rng, shape, n, length)
}

/// A sentence of any length, with no deep brackets: sentences of at most 255 bytes joined by `|`.
fn long_sentence(rng: &mut Rng, n: usize, length: usize) -> Vec<u8> {
    let mut text = Vec::with_capacity(length);
    while length - text.len() > LENGTH_MOST {
        let piece = rng.between(1, LENGTH_MOST.min(length - text.len() - 2));
        text.extend(any_sentence(rng, n, piece));
        text.push(b'|');
    }
    let rest = length - text.len();
    text.extend(any_sentence(rng, n, rest));
    text
}

/// Numbers written by hand from paper 01: they check the library and this program's own reader.
fn by_hand(group: &mut Group) {
    let byte_0 = |byte: u8| {
        let mut table = [0; 16];
        table[0] = byte;
        Ok(table)
    };
    let refused = |number, place| Err(Refusal::at(number, place));
    let halves = |low: u8, high: u8| {
        let mut table = [low; 16];
        table[8..].fill(high);
        Ok(table)
    };
    let by_hand: &[(u64, &[u8], Result<Table, Refusal>)] = &[
        (3, b"a|b&~c", byte_0(174)),
        (2, b"~a&b", byte_0(4)),
        (1, b"a&", refused(4, 2)),
        (1, b"a)", refused(4, 1)),
        (2, b"c", refused(3, 0)),
        (7, b"a", Ok([0xaa; 16])),
        (7, b"b", Ok([0xcc; 16])),
        (7, b"c", Ok([0xf0; 16])),
        (7, b"d", Ok([0, 255, 0, 255, 0, 255, 0, 255, 0, 255, 0, 255, 0, 255, 0, 255])),
        (7, b"e", Ok([0, 0, 255, 255, 0, 0, 255, 255, 0, 0, 255, 255, 0, 0, 255, 255])),
        (7, b"f", Ok([0, 0, 0, 0, 255, 255, 255, 255, 0, 0, 0, 0, 255, 255, 255, 255])),
        (7, b"g", halves(0, 255)),
        (7, b"~g", halves(255, 0)),
        (7, b"1", Ok([255; 16])),
        (7, b"0", Ok([0; 16])),
        (1, b"1", byte_0(0b11)),
        (1, b"~a", byte_0(0b01)),
        (2, b"~0", byte_0(0b1111)),
        (2, b"a&b|~a&~b", byte_0(0b1001)),
        (2, b"a&(b|~a)&~b", byte_0(0)),
        (2, b"~~a", byte_0(0b1010)),
        (2, b"~(a|b)", byte_0(0b0001)),
        (0, b"", refused(5, 0)),
        (8, b"a", refused(5, 0)),
        (1, b"", refused(1, 0)),
        (1, b"A", refused(2, 0)),
        (7, b"h", refused(2, 0)),
        (1, b"a b", refused(2, 1)),
        (1, b"&&b ", refused(3, 2)),
        (2, b"&&b ", refused(2, 3)),
        (2, b"&&b", refused(4, 0)),
        (1, b"()", refused(4, 1)),
        (1, b"(a", refused(4, 2)),
        (1, b"a~a", refused(4, 1)),
        (1, b"(a)(a)", refused(4, 3)),
        (1, b"~", refused(4, 1)),
    ];
    for &(n, text, expected) in by_hand {
        expect(group, n, text, expected);
        let own = formula::read(n, text);
        group.case(own == expected, || format!("this program's own reader at n {n} on {}", shown(text)));
    }
}

/// A text of k bytes that begins a sentence begins one of at most 2k + 1: it lacks a unit and k brackets at most.
fn own_reader(group: &mut Group) {
    const LONGEST: usize = 6;
    let sentences = up_to(2 * LONGEST + 1);
    let beginnings: std::collections::HashSet<&[u8]> =
        sentences.iter().flat_map(|sentence| (0..=sentence.len()).map(|i| &sentence[..i])).collect();
    for text in all_texts(KINDS, LONGEST) {
        let right = formula::is_sentence(&text) == sentences.contains(&text)
            && formula::begins_a_sentence(&text) == beginnings.contains(&text[..]);
        group.case(right, || shown(&text));
    }
}

fn short_texts(group: &mut Group) {
    for text in all_texts(KINDS, 6) {
        compare(group, 1, &text);
    }
}

fn one_and_two_bytes(group: &mut Group) {
    for first in 0..=255 {
        for &n in SIZES {
            compare(group, n, &[first]);
        }
        for second in 0..=255 {
            compare(group, 3, &[first, second]);
        }
    }
}

fn every_length(group: &mut Group, shape: Shape) {
    for _ in group.times(20) {
        for length in 1..=LENGTH_MOST {
            let n = any_size(&mut group.rng);
            let text = sentence(&mut group.rng, shape, n, length);
            compare(group, n as u64, &text);
        }
    }
}

fn longest(group: &mut Group) {
    for _ in group.times(500) {
        for length in [254, 255] {
            let n = any_size(&mut group.rng);
            let text = any_sentence(&mut group.rng, n, length);
            compare(group, n as u64, &text);
        }
    }
}

fn deepest(group: &mut Group) {
    let n = 7;
    for depth in DEPTH_MOST - 2..=DEPTH_MOST + 1 {
        for inside in [&b""[..], b"a", b"~b", b"a&b", b"c|~d"] {
            for missing in 0..=2 {
                let open = vec![b'('; depth];
                let close = vec![b')'; depth - missing];
                compare(group, n, &[&open, inside, &close].concat());
                compare(group, n, &[&open[missing..], inside, &close, b")"].concat());
            }
        }
    }
    for length in 1..=257 {
        for atom in *b"a1g" {
            let mut nots = vec![b'~'; length - 1];
            compare(group, n, &[&nots[..], b"~"].concat());
            nots.push(atom);
            compare(group, n, &nots);
            for joint in *b"&|" {
                let row: Vec<u8> = (0..length).map(|i| if i % 2 == 0 { atom } else { joint }).collect();
                compare(group, n, &row);
                let letters: Vec<u8> =
                    (0..length).map(|i| if i % 2 == 0 { b'a' + (i / 2 % 7) as u8 } else { joint }).collect();
                compare(group, n, &letters);
            }
        }
        compare(group, n, &vec![b'('; length]);
        compare(group, n, &vec![b')'; length]);
        compare(group, n, &b"~(".repeat(length)[..length]);
        compare(group, n, &b"a&(".repeat(length)[..length]);
    }
}

fn damaged(group: &mut Group) {
    for _ in group.times(80) {
        let n = any_size(&mut group.rng);
        let length = if group.rng.chance(80) { group.rng.between(1, 60) } else { group.rng.between(61, LENGTH_MOST) };
        let text = any_sentence(&mut group.rng, n, length);
        let n = n as u64;
        for place in 0..length {
            let (known, any) = (group.rng.one_of(BYTES), group.rng.byte());
            let other = group.rng.below(length);
            compare(group, n, &replaced(&text, place, known));
            compare(group, n, &replaced(&text, place, any));
            compare(group, n, &inserted(&text, place, known));
            compare(group, n, &inserted(&text, place, any));
            compare(group, n, &deleted(&text, place));
            compare(group, n, &swapped(&text, place, other));
            compare(group, n, &swapped(&text, place, (place + 1) % length));
        }
        let known = group.rng.one_of(BYTES);
        compare(group, n, &inserted(&text, length, known));
    }
}

fn every_byte(group: &mut Group) {
    for length in [1, 2, 3, 5, 8, 13, 21, 255] {
        let n = any_size(&mut group.rng);
        let text = any_sentence(&mut group.rng, n, length);
        for place in 0..length {
            for byte in 0..=255 {
                compare(group, n as u64, &replaced(&text, place, byte));
            }
        }
    }
}

fn random_bytes(group: &mut Group) {
    for _ in group.times(8_000) {
        let n = any_size(&mut group.rng);
        let length = group.rng.between(1, LENGTH_MOST);
        let short = group.rng.between(1, 9);
        let known = [&BYTES[..n], &BYTES[7..]].concat();
        for length in [length, short] {
            let text = group.rng.bytes_of(&known, length);
            compare(group, n as u64, &text);
        }
        let text = group.rng.bytes_of(BYTES, short);
        compare(group, n as u64, &text);
        let text = group.rng.bytes(length);
        compare(group, n as u64, &text);
    }
}

fn lengths(group: &mut Group) {
    for _ in group.times(3) {
        for n in 0..=8 {
            compare(group, n, b"");
        }
        for &length in LENGTHS {
            let n = any_size(&mut group.rng);
            let valid = long_sentence(&mut group.rng, n, length);
            let rubbish = group.rng.bytes(length);
            let brackets = [vec![b'('; length / 2], b"a"[..length % 2].to_vec(), vec![b')'; length / 2]].concat();
            let n = n as u64;
            for place in [0, length / 2, length - 1] {
                compare(group, n, &replaced(&valid, place, b' '));
                compare(group, n, &replaced(&valid, place, b')'));
            }
            for text in [valid, rubbish, brackets, vec![b'~'; length], vec![b'('; length], vec![0; length]] {
                compare(group, n, &text);
            }
        }
    }
}

fn sizes(group: &mut Group) {
    for _ in group.times(3) {
        for &n in SIZES {
            for length in [0, 1, 2, 3, 17, 254, 255, 256, 257, 100_000] {
                let letters = any_size(&mut group.rng);
                if length > 0 {
                    let valid = long_sentence(&mut group.rng, letters, length);
                    let place = group.rng.below(length);
                    compare(group, n, &replaced(&valid, place, b'h'));
                    compare(group, n, &replaced(&valid, place, b'&'));
                    compare(group, n, &valid);
                }
                let rubbish = group.rng.bytes(length);
                compare(group, n, &rubbish);
            }
        }
    }
}

fn letters(group: &mut Group) {
    for n in 1..=7 {
        for length in [1, 2, 7, 40, 255] {
            let text = any_sentence(&mut group.rng, n, length);
            for place in 0..length {
                for letter in *b"abcdefgh" {
                    compare(group, n as u64, &replaced(&text, place, letter));
                }
            }
            compare(group, n as u64, &text);
        }
    }
}

fn beginnings(group: &mut Group) {
    for _ in group.times(12) {
        for &shape in SHAPES {
            let n = any_size(&mut group.rng);
            let length = group.rng.between(20, 2 * LENGTH_MOST);
            let text = sentence(&mut group.rng, shape, n, length);
            for end in 0..=length.min(LENGTH_MOST + 2) {
                compare(group, n as u64, &text[..end]);
            }
        }
    }
}

/// What follows the byte that spoils the sentence must not matter, if all of it is bytes of formulas.
fn spoilt(group: &mut Group) {
    for place in 0..LENGTH_MOST {
        let n = any_size(&mut group.rng);
        let length = group.rng.between(place + 1, LENGTH_MOST);
        let text = any_sentence(&mut group.rng, n, length);
        let known = [&BYTES[..n], &BYTES[7..]].concat();
        for &byte in &known {
            let rest = group.rng.below(LENGTH_MOST - place);
            let tail = group.rng.bytes_of(&known, rest);
            compare(group, n as u64, &[&text[..place], &[byte], &tail].concat());
            compare(group, n as u64, &replaced(&text, place, byte));
        }
    }
}

fn order(group: &mut Group) {
    for _ in group.times(4_000) {
        let n = group.rng.between(1, 6);
        let length = group.rng.between(3, LENGTH_MOST);
        let text = any_sentence(&mut group.rng, n, length);
        let first = group.rng.below(length - 1);
        let later = group.rng.between(first + 1, length - 1);
        let fault = group.rng.one_of(b"()&|~01");
        let stray = group.rng.one_of(b" hzAG2*!\"#\n\0\xff\x7f");
        let past = BYTES[group.rng.between(n, 6)];
        let n = n as u64;
        compare(group, n, &replaced(&replaced(&text, first, fault), later, stray));
        compare(group, n, &replaced(&replaced(&text, first, fault), later, past));
        compare(group, n, &replaced(&replaced(&text, first, stray), later, past));
        compare(group, n, &replaced(&replaced(&text, first, past), later, stray));
        compare(group, n, &replaced(&replaced(&text, first, past), later, fault));
    }
}
