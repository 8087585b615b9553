//! The cases for the book's reader and writer: every result and every lent byte is compared with `book.rs`.

use crate::book::{self, Book, BLOCK, CHECKED, TABLES};
use crate::ffi;
use crate::refusal::{told, Refusal};
use crate::report::{sparse, Group, Subject};
use crate::rng::Rng;
use crate::room::Room;
use crate::tables::{any_rights, rights, table};

/// Room enough for the rights, or the bytes, of any book.
const AMPLE: usize = 8 * BLOCK + 100;

/// Numbers that a number of 8, 16 or 32 bits, or a signed one, would take for one of 1 to 8.
const FAR: &[u64] = &[
    0, 9, 10, 127, 128, 255, 256, 257, 259, 0x1_0001, 0x1_0003, 0x8000_0003, 0x1_0000_0000, 0x1_0000_0003,
    0x8000_0000_0000_0007, 0xffff_ffff_ffff_fff9, 0xffff_ffff_ffff_ffff,
];

pub fn reading(subject: &mut Subject) {
    subject.group("marked example P13 and the block checks run by a program", by_hand);
    subject.group("this program's own check against running sums", own_check);
    subject.group("valid books of every n and m", valid);
    subject.group("every bit of a book of one setting turned", |group| every_bit(group, 1, false));
    subject.group("every bit of a book of one setting turned, its check made right", |group| every_bit(group, 1, true));
    subject
        .group("every bit of a book of three settings turned, its check made right", |group| every_bit(group, 3, true));
    subject.group("random damage", random_damage);
    subject.group("random damage, checks made right", repaired_damage);
    subject.group("damage that a block's check does not show", unseen_damage);
    subject.group("blocks full of large bytes, where both sums wrap", large_bytes);
    subject.group("every n and m that a head can hold", heads);
    subject.group("lengths around every block boundary and far past the last", lengths);
    subject.group("lent rooms of every length near the limit", rooms);
    subject.group("several faults at once", faults);
    subject.group("random bytes", random_bytes);
    subject.must_reach(6, 0..=0);
    subject.must_reach(7, 0..=7);
    subject.must_reach(8, 0..=0);
    subject.must_reach(9, 1..=7);
    subject.must_reach(15, 0..=0);
}

pub fn writing(subject: &mut Subject) {
    subject.group("valid rights of every n and m, and what is written reads back", valid_rights);
    subject.group("what the library reads, it writes back as the same bytes, and the other way", round_trips);
    subject.group("every bit of rights turned", every_bit_of_rights);
    subject.group("rights of wrong lengths", rights_lengths);
    subject.group("n and m of any size", sizes);
    subject.group("lent rooms of every length near the limit", rooms_for_books);
    subject.group("several faults at once", faults_of_rights);
    subject.group("random bytes", random_rights);
    subject.must_reach(5, 0..=0);
    subject.must_reach(6, 0..=0);
    subject.must_reach(8, 0..=0);
    subject.must_reach(9, 1..=7);
    subject.must_reach(15, 0..=0);
}

fn compare_read(group: &mut Group, bytes: &[u8], room: usize) {
    expect_read(group, bytes, room, book::read(bytes, room));
}

/// A success fills the first 256 × n bytes of the room, a refusal none; nothing else is touched, the book neither.
fn expect_read(group: &mut Group, bytes: &[u8], room: usize, expected: Result<Book, Refusal>) {
    let mut lent_book = Room::holding(bytes, &[0, 1, 255], &mut group.rng);
    let mut rights = Room::of(room, &mut group.rng);
    let word = ffi::book_read(&mut lent_book, &mut rights);

    let mut left = rights.lent_before().to_vec();
    let expected_word = match &expected {
        Ok(book) => {
            left[..book.rights.len()].copy_from_slice(&book.rights);
            (book.n * 256 + book.m) as u64
        }
        Err(refusal) => refusal.word(),
    };
    let right = word == expected_word && rights.holds(&left) && lent_book.untouched();
    group.case(right, || {
        format!(
            "a room of {room} and a book of {}\n        expected {}\n        got      {}{}",
            sparse(bytes),
            told(expected_word),
            told(word),
            stores(&rights, &left, &lent_book)
        )
    });
    group.came_to(expected);
}

fn compare_write(group: &mut Group, n: u64, m: u64, rights: &[u8], room: usize) {
    expect_write(group, n, m, rights, room, book::write(n, m, rights, room));
}

/// A success fills the first 512 × (1 + n) bytes of the room, a refusal none; nothing else is touched.
fn expect_write(group: &mut Group, n: u64, m: u64, rights: &[u8], room: usize, expected: Result<Vec<u8>, Refusal>) {
    let mut lent_rights = Room::holding(rights, &[0, 1, 255], &mut group.rng);
    let mut lent_book = Room::of(room, &mut group.rng);
    let word = ffi::book_write(n, m, &mut lent_rights, &mut lent_book);

    let mut left = lent_book.lent_before().to_vec();
    let expected_word = match &expected {
        Ok(bytes) => {
            left[..bytes.len()].copy_from_slice(bytes);
            0
        }
        Err(refusal) => refusal.word(),
    };
    let right = word == expected_word && lent_book.holds(&left) && lent_rights.untouched();
    group.case(right, || {
        format!(
            "n {n}, m {m}, a room of {room} and rights of {}\n        expected {}\n        got      {}{}",
            sparse(rights),
            told(expected_word),
            told(word),
            stores(&lent_book, &left, &lent_rights)
        )
    });
    group.came_to(expected);
}

/// How what was lent differs from what it was to hold.
pub fn stores(room: &Room, left: &[u8], only_read: &Room) -> String {
    let mut told = String::new();
    if let Some(place) = (0..left.len()).find(|&i| room.lent()[i] != left[i]) {
        told += &format!(", and byte {place} of the room is {} and not {}", room.lent()[place], left[place]);
    }
    if !room.holds(room.lent()) {
        told += ", and something outside the room was written";
    }
    if !only_read.untouched() {
        told += ", and what was to be read alone was written";
    }
    told
}

fn any_size(rng: &mut Rng) -> (usize, usize) {
    (rng.between(1, 7), rng.between(1, 8))
}

pub fn any_book(rng: &mut Rng, n: usize, m: usize) -> Vec<u8> {
    let rights = any_rights(rng, n, m);
    written(n, m, &rights)
}

pub fn written(n: usize, m: usize, rights: &[u8]) -> Vec<u8> {
    book::write(n as u64, m as u64, rights, AMPLE).unwrap_or_else(|refusal| panic!("a sound book was {refusal}"))
}

/// The same bytes with a right check in each whole block.
pub fn repaired(bytes: &[u8]) -> Vec<u8> {
    let block = |block: &[u8]| if block.len() < BLOCK { block.to_vec() } else { book::block(&block[..CHECKED]) };
    bytes.chunks(BLOCK).flat_map(block).collect()
}

pub fn turned(bytes: &[u8], bit: usize) -> Vec<u8> {
    let mut turned = bytes.to_vec();
    turned[bit / 8] ^= 1 << (bit % 8);
    turned
}

/// Numbers from paper 01: blocks whose checks are written by hand, in a book where all else is right.
fn by_hand(group: &mut Group) {
    let with_byte = |place: usize, byte: u8| {
        let mut bytes = vec![0; CHECKED];
        bytes[place] = byte;
        bytes
    };
    let by_hand: &[(Vec<u8>, u16, u16, bool)] = &[
        (vec![0; CHECKED], 1, 508, true),
        (vec![255; CHECKED], 64_005, 3_830, false),
        (with_byte(0, 1), 2, 1_016, true),
        (with_byte(507, 1), 2, 509, false),
    ];
    let head = [1, 1].into_iter().chain([0; CHECKED - 2]).chain([3, 0, 0xf3, 5]).collect::<Vec<u8>>();
    for &(ref bytes, s, t, only_rights) in by_hand {
        group.case(book::check(bytes) == (s, t), || format!("this program's own check of {}", sparse(bytes)));
        let book = |s: u16, t: u16| [&head[..], bytes, &s.to_le_bytes(), &t.to_le_bytes()].concat();
        let nine = Err(Refusal::at(9, 1));
        let read = Ok(Book { n: 1, m: 1, rights: bytes[..TABLES].to_vec() });
        expect_read(group, &book(s, t), AMPLE, if only_rights { read } else { nine });
        expect_read(group, &book(s ^ 1, t), AMPLE, Err(Refusal::at(7, 1)));
        expect_read(group, &book(s, t ^ 0x100), AMPLE, Err(Refusal::at(7, 1)));
    }
}

fn own_check(group: &mut Group) {
    for _ in group.times(300) {
        let few = group.rng.byte();
        let bytes: Vec<u8> = (0..CHECKED).map(|_| group.rng.byte() | few).collect();
        let (mut s, mut t) = (1u16, 0u16);
        for &byte in &bytes {
            s = s.wrapping_add(u16::from(byte));
            t = t.wrapping_add(s);
        }
        group.case(book::check(&bytes) == (s, t), || sparse(&bytes));
    }
}

/// Drawn rights of n settings and m posts, all tables open, and all closed.
fn each_kind_of_rights(rng: &mut Rng, n: usize, m: usize) -> [Vec<u8>; 3] {
    [any_rights(rng, n, m), rights(n, m, |_, _, _| table(n, u128::MAX)), vec![0; n * TABLES]]
}

fn valid(group: &mut Group) {
    for _ in group.times(8) {
        for n in 1..=7 {
            for m in 1..=8 {
                for rights in each_kind_of_rights(&mut group.rng, n, m) {
                    expect_read(group, &written(n, m, &rights), AMPLE, Ok(Book { n, m, rights }));
                }
            }
        }
    }
}

fn valid_rights(group: &mut Group) {
    for _ in group.times(8) {
        for n in 1..=7 {
            for m in 1..=8 {
                for rights in each_kind_of_rights(&mut group.rng, n, m) {
                    let book = written(n, m, &rights);
                    let back = book::read(&book, AMPLE);
                    group.case(back.is_ok_and(|back| back == Book { n, m, rights: rights.clone() }), || sparse(&book));
                    expect_write(group, n as u64, m as u64, &rights, AMPLE, Ok(book));
                }
            }
        }
    }
}

/// Demand 2's two round trips, by the library alone: a book read and written, and the rights that were read.
fn round_trips(group: &mut Group) {
    for _ in group.times(4) {
        for n in 1..=7 {
            for m in 1..=8 {
                for rights in each_kind_of_rights(&mut group.rng, n, m) {
                    let book = written(n, m, &rights);
                    let mut lent = Room::holding(&book, &[0], &mut group.rng);
                    let mut read = Room::of(rights.len(), &mut group.rng);
                    let word = ffi::book_read(&mut lent, &mut read);
                    let mut found = Room::holding(read.lent(), &[0], &mut group.rng);
                    let mut again = Room::of(book.len(), &mut group.rng);
                    let done = ffi::book_write(word / 256, word % 256, &mut found, &mut again);
                    let mut second = Room::of(rights.len(), &mut group.rng);
                    let reread = ffi::book_read(&mut again, &mut second);
                    let same = done == 0 && again.lent() == book && reread == word && second.lent() == read.lent();
                    group.case(same && read.lent() == rights, || sparse(&book));
                }
            }
        }
    }
}

fn every_bit(group: &mut Group, n: usize, repair: bool) {
    let m = group.rng.between(2, 7);
    let book = any_book(&mut group.rng, n, m);
    for bit in 0..book.len() * 8 {
        let damaged = turned(&book, bit);
        compare_read(group, &if repair { repaired(&damaged) } else { damaged }, AMPLE);
    }
}

fn every_bit_of_rights(group: &mut Group) {
    for n in [1, 2, 3, 4, 7] {
        let m = group.rng.between(1, 8);
        let rights = any_rights(&mut group.rng, n, m);
        for bit in 0..rights.len() * 8 {
            if n <= 3 || group.rng.chance(20) {
                compare_write(group, n as u64, m as u64, &turned(&rights, bit), AMPLE);
            }
        }
    }
}

fn random_damage(group: &mut Group) {
    for _ in group.times(3_000) {
        let damaged = damaged_book(&mut group.rng);
        compare_read(group, &damaged, AMPLE);
    }
}

fn repaired_damage(group: &mut Group) {
    for _ in group.times(6_000) {
        let damaged = damaged_book(&mut group.rng);
        compare_read(group, &repaired(&damaged), AMPLE);
    }
}

/// A book with one to three damaged bytes, one of them in the head now and then.
pub fn damaged_book(rng: &mut Rng) -> Vec<u8> {
    let (n, m) = any_size(rng);
    let mut book = any_book(rng, n, m);
    for _ in 0..rng.between(1, 3) {
        let place = match rng.below(6) {
            0 => rng.below(BLOCK),
            1 => rng.below(3),
            _ => rng.below(book.len()),
        };
        book[place] = match rng.below(3) {
            0 => rng.byte(),
            1 => book[place] ^ 1 << rng.below(8),
            _ => book[place].wrapping_add(1),
        };
    }
    book
}

/// One more, two less and one more, evenly apart, leave both sums as they were.
fn unseen_damage(group: &mut Group) {
    for _ in group.times(2_000) {
        let (n, m) = any_size(&mut group.rng);
        let mut book = any_book(&mut group.rng, n, m);
        let block = group.rng.below(1 + n) * BLOCK;
        let apart = group.rng.between(1, 100);
        let first = block + group.rng.below(CHECKED - 2 * apart);
        let (second, third) = (first + apart, first + 2 * apart);
        if book[first] < 255 && book[second] > 1 && book[third] < 255 {
            book[first] += 1;
            book[second] -= 2;
            book[third] += 1;
            assert!(book == repaired(&book));
        }
        compare_read(group, &book, AMPLE);
    }
}

fn large_bytes(group: &mut Group) {
    for n in 1..=7 {
        for block in 0..=n {
            for _ in group.times(3) {
                let m = group.rng.between(1, 8);
                let mut book = any_book(&mut group.rng, n, m);
                let few = group.rng.byte();
                for byte in &mut book[block * BLOCK..block * BLOCK + CHECKED] {
                    *byte = group.rng.byte() | few | 0xc0;
                }
                compare_read(group, &book, AMPLE);
                compare_read(group, &repaired(&book), AMPLE);
            }
        }
    }
}

fn heads(group: &mut Group) {
    for n in 1..=7 {
        let m = group.rng.between(1, 8);
        let book = any_book(&mut group.rng, n, m);
        for byte in 0..=255 {
            for place in [0, 1] {
                let mut damaged = book.clone();
                damaged[place] = byte;
                compare_read(group, &repaired(&damaged), AMPLE);
            }
        }
    }
}

fn lengths(group: &mut Group) {
    for blocks in 0..=10 {
        for change in -3..=3 {
            let Some(length) = (blocks * BLOCK).checked_add_signed(change) else { continue };
            let n = blocks.clamp(2, 8) - 1;
            let m = group.rng.between(1, 8);
            let mut book = any_book(&mut group.rng, n, m);
            book.resize(length, 0);
            compare_read(group, &book, AMPLE);
            compare_read(group, &repaired(&book), AMPLE);
            let rubbish = group.rng.bytes(length);
            compare_read(group, &rubbish, AMPLE);
        }
    }
    for length in [256, 4_608, 5_120, 65_536, 65_536 + 1_024, 65_536 + 4_096, 131_072 + 1_024] {
        let mut book = any_book(&mut group.rng, 1, 8);
        book.resize(length, 0);
        compare_read(group, &book, AMPLE);
        compare_read(group, &repaired(&book), AMPLE);
    }
}

fn near(limit: usize) -> impl Iterator<Item = usize> {
    (limit - 20..=limit + 40).chain([0, 1, 2, 255, 256, 257, 511, 512, 513])
}

fn rooms(group: &mut Group) {
    for n in 1..=7 {
        let m = group.rng.between(1, 8);
        let book = any_book(&mut group.rng, n, m);
        for room in near(n * TABLES) {
            compare_read(group, &book, room);
        }
    }
}

fn rooms_for_books(group: &mut Group) {
    for n in 1..=7 {
        let m = group.rng.between(1, 8);
        let rights = any_rights(&mut group.rng, n, m);
        for room in near((1 + n) * BLOCK).chain(near(n * TABLES)).chain(near(n * BLOCK)) {
            compare_write(group, n as u64, m as u64, &rights, room);
        }
    }
}

fn rights_lengths(group: &mut Group) {
    for n in 1..=7 {
        let m = group.rng.between(1, 8);
        let rights = any_rights(&mut group.rng, 7, m);
        let wrong = [-257, -256, -255, -2, -1, 0, 1, 2, 255, 256, 257];
        let near = wrong.iter().filter_map(|&change| (n * TABLES).checked_add_signed(change));
        for length in near.chain([0, 1, 16, 32, 255, 256, 508, 512, 1_792, 2_048, 65_536 + 256, 65_536 + 256 * n]) {
            let mut rights = rights.clone();
            rights.resize(length, 0);
            compare_write(group, n as u64, m as u64, &rights, AMPLE);
            let rubbish = group.rng.bytes(length);
            compare_write(group, n as u64, m as u64, &rubbish, AMPLE);
        }
    }
}

fn sizes(group: &mut Group) {
    for wide in [FAR, &[1, 2, 3, 4, 5, 6, 7, 8]].concat() {
        for n in 1..=7 {
            let m = group.rng.between(1, 8);
            let rights = any_rights(&mut group.rng, n, m);
            for room in [AMPLE, (1 + n) * BLOCK - 1, 0] {
                compare_write(group, wide, m as u64, &rights, room);
                compare_write(group, n as u64, wide, &rights, room);
                compare_write(group, wide, wide, &rights, room);
            }
            compare_write(group, wide, m as u64, &[], AMPLE);
            compare_write(group, n as u64, wide, &[], AMPLE);
        }
    }
}

/// Each fault of a book is there or not, at a drawn block, and the room is long enough or not.
fn faults(group: &mut Group) {
    for _ in group.times(4_000) {
        let (n, m) = any_size(&mut group.rng);
        let mut book = any_book(&mut group.rng, n, m);
        if group.rng.chance(30) {
            book[group.rng.one_of(&[0, 1, 2, 100, 507])] ^= 1 << group.rng.below(8);
        }
        for block in 1..=n {
            if group.rng.chance(20) {
                book[block * BLOCK + group.rng.one_of(&[TABLES, TABLES + 1, 400, 507])] = 1;
            }
        }
        let mut book = repaired(&book);
        for block in 0..=n {
            if group.rng.chance(8) {
                book[block * BLOCK + group.rng.below(BLOCK)] ^= 1 << group.rng.below(8);
            }
        }
        if group.rng.chance(15) {
            let length = group.rng.one_of(&[0, 100, BLOCK, n * BLOCK, (1 + n) * BLOCK - 1, 9 * BLOCK]);
            book.resize(length, 0);
        }
        let room = n * TABLES + group.rng.one_of(&[0, 1, 500]) - group.rng.one_of(&[0, 0, 1, 256]);
        compare_read(group, &book, room);
    }
}

fn faults_of_rights(group: &mut Group) {
    for _ in group.times(4_000) {
        let (n, m) = any_size(&mut group.rng);
        let mut rights = any_rights(&mut group.rng, n, m);
        for setting in 0..n {
            if group.rng.chance(15) {
                let bit = group.rng.below(TABLES * 8);
                rights[setting * TABLES + bit / 8] |= 1 << (bit % 8);
            }
        }
        if group.rng.chance(15) {
            let length = group.rng.one_of(&[0, 1, n * TABLES - 1, n * TABLES + 1, n * TABLES - 256, n * TABLES + 256]);
            rights.resize(length, 0);
        }
        let n_told = if group.rng.chance(15) { group.rng.one_of(FAR) } else { n as u64 };
        let m_told = if group.rng.chance(15) { group.rng.one_of(FAR) } else { m as u64 };
        let room = (1 + n) * BLOCK + group.rng.one_of(&[0, 1, 600]) - group.rng.one_of(&[0, 0, 1, 512]);
        compare_write(group, n_told, m_told, &rights, room);
    }
}

fn random_bytes(group: &mut Group) {
    for _ in group.times(300) {
        let blocks = group.rng.between(1, 9);
        let rubbish = group.rng.bytes(blocks * BLOCK);
        compare_read(group, &rubbish, AMPLE);
        compare_read(group, &repaired(&rubbish), AMPLE);
        let head = book::block(&[blocks as u8 - 1, 8]);
        compare_read(group, &[&head, &repaired(&rubbish)[BLOCK..]].concat(), AMPLE);
    }
}

fn random_rights(group: &mut Group) {
    for _ in group.times(300) {
        let (n, m) = any_size(&mut group.rng);
        let rights = group.rng.bytes(n * TABLES);
        compare_write(group, n as u64, m as u64, &rights, AMPLE);
        let rights = group.rng.bytes(7 * TABLES);
        compare_write(group, 7, 8, &rights, AMPLE);
    }
}
