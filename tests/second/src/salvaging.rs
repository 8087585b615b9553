//! The cases for the salvage of damaged books: every result and every lent byte is compared with `salvage.rs`; then what the
//! request says of a salvaged book is tried on the library's own answers.

use crate::book::{self, BLOCK, CHECKED, TABLES};
use crate::books::{any_book, damaged_book, repaired, stores, turned, written};
use crate::ffi;
use crate::question::Question;
use crate::questions::any_question;
use crate::refusal::{told, Refusal};
use crate::report::{sparse, Group, Subject};
use crate::room::Room;
use crate::salvage::{salvage, Salvaged};
use crate::tables::any_rights;

/// Room enough for any book.
const AMPLE: usize = 8 * BLOCK + 100;

pub fn test(subject: &mut Subject) {
    subject.group("sound books of every n and m come back as they are", sound_books);
    subject.group("every bit of a book of one setting turned", |group| every_bit(group, 1, false));
    subject.group("every bit of a book of one setting turned, its check made right", |group| every_bit(group, 1, true));
    subject.group("every bit of a book of two settings turned", |group| every_bit(group, 2, false));
    subject
        .group("every bit of a book of three settings turned, its check made right", |group| every_bit(group, 3, true));
    subject.group("any choice of blocks damaged", chosen_blocks);
    subject.group("random damage", |group| random_damage(group, false));
    subject.group("random damage, checks made right", |group| random_damage(group, true));
    subject.group("every n and m that a head can hold", heads);
    subject.group("lengths around every block boundary", lengths);
    subject.group("lent rooms of every length near the limit", rooms);
    subject.group("several faults at once", faults);
    subject.group("random bytes", random_bytes);
    subject.group("a team reaches no more with the salvaged book, and no sooner", reaches_no_more);
    subject.must_reach(6, 0..=0);
    subject.must_reach(15, 0..=0);
    subject.must_reach(30, 0..=0);
}

fn compare(group: &mut Group, damaged: &[u8], room: usize) {
    expect(group, damaged, room, salvage(damaged, room));
}

/// A success fills as many bytes of the room as the book has, a refusal none; nothing else is touched, the book neither.
fn expect(group: &mut Group, damaged: &[u8], room: usize, expected: Result<Salvaged, Refusal>) {
    let mut book = Room::holding(damaged, &[0, 1, 255], &mut group.rng);
    let mut lent = Room::of(room, &mut group.rng);
    let word = ffi::book_salvage(&mut book, &mut lent);

    let mut left = lent.lent_before().to_vec();
    let expected_word = match &expected {
        Ok(Salvaged { bytes, marks }) => {
            left[..bytes.len()].copy_from_slice(bytes);
            u64::from(marks.count_ones()) * 256 + u64::from(*marks)
        }
        Err(refusal) => refusal.word(),
    };
    let right = word == expected_word && lent.holds(&left) && book.untouched();
    group.case(right, || {
        format!(
            "a room of {room} and a book of {}\n        expected {}\n        got      {}{}",
            sparse(damaged),
            told(expected_word),
            told(word),
            stores(&lent, &left, &book)
        )
    });
    if let Ok(Salvaged { bytes, .. }) = &expected {
        again(group, bytes, &lent.lent()[..bytes.len()].to_vec());
    }
    group.came_to(expected);
}

/// What the library has salvaged reads as a book, and is salvaged as the same bytes with no mark.
fn again(group: &mut Group, expected: &[u8], salvaged: &[u8]) {
    let mut book = Room::holding(salvaged, &[0], &mut group.rng);
    let mut rights = Room::of(AMPLE, &mut group.rng);
    let read = ffi::book_read(&mut book, &mut rights);
    let mut room = Room::of(salvaged.len(), &mut group.rng);
    let word = ffi::book_salvage(&mut book, &mut room);
    let sound = read == u64::from(expected[0]) * 256 + u64::from(expected[1]);
    group.case(sound && word == 0 && room.lent() == expected, || format!("the second time, of {}", sparse(salvaged)));
}

fn sound_books(group: &mut Group) {
    for _ in group.times(8) {
        for n in 1..=7 {
            for m in 1..=8 {
                let book = any_book(&mut group.rng, n, m);
                expect(group, &book, AMPLE, Ok(Salvaged { bytes: book.clone(), marks: 0 }));
            }
        }
    }
}

fn every_bit(group: &mut Group, n: usize, repair: bool) {
    let m = group.rng.between(2, 7);
    let book = any_book(&mut group.rng, n, m);
    for bit in 0..book.len() * 8 {
        let damaged = turned(&book, bit);
        compare(group, &if repair { repaired(&damaged) } else { damaged }, AMPLE);
    }
}

/// Each choice of setting blocks: a bit turned, in the tables, after them or in the check, or a byte that must be zero with a
/// right check. The blocks that are chosen are marked, and no other.
fn chosen_blocks(group: &mut Group) {
    for n in 1..=7 {
        for chosen in 0..1u8 << n {
            let m = group.rng.between(1, 7);
            let sound = any_book(&mut group.rng, n, m);
            let (mut book, mut bytes) = (sound.clone(), sound);
            for i in (0..n).filter(|i| chosen >> i & 1 == 1) {
                let block = BLOCK * (1 + i);
                if group.rng.chance(50) {
                    let bit = group.rng.below(8 * BLOCK);
                    book[block + bit / 8] ^= 1 << (bit % 8);
                } else {
                    book[block + group.rng.between(32 * m, CHECKED - 1)] = group.rng.between(1, 255) as u8;
                    let whole = book::block(&book[block..block + CHECKED]);
                    book[block..block + BLOCK].copy_from_slice(&whole);
                }
                bytes[block..block + BLOCK].copy_from_slice(&book::block(&[]));
            }
            expect(group, &book, AMPLE, Ok(Salvaged { bytes, marks: chosen }));
        }
    }
}

fn random_damage(group: &mut Group, repair: bool) {
    for _ in group.times(3_000) {
        let damaged = damaged_book(&mut group.rng);
        compare(group, &if repair { repaired(&damaged) } else { damaged }, AMPLE);
    }
}

fn heads(group: &mut Group) {
    for blocks in 2..=8 {
        for n in 0..=9 {
            for m in [0, 1, 2, 7, 8, 9, 128, 255] {
                let mut book = any_book(&mut group.rng, blocks - 1, 1);
                book[..BLOCK].copy_from_slice(&book::block(&[n, m]));
                compare(group, &book, AMPLE);
            }
        }
    }
}

fn lengths(group: &mut Group) {
    let mut bytes = any_book(&mut group.rng, 7, 8);
    bytes.extend([0; 2 * BLOCK]);
    for blocks in 0..=10 {
        for length in (BLOCK * blocks).saturating_sub(2)..=(BLOCK * blocks + 2).min(bytes.len()) {
            compare(group, &bytes[..length].to_vec(), AMPLE);
        }
    }
}

fn rooms(group: &mut Group) {
    for n in 1..=7 {
        for sound in [true, false] {
            let m = group.rng.between(1, 8);
            let mut book = any_book(&mut group.rng, n, m);
            if !sound {
                book[BLOCK + 300] = 1;
            }
            let near = book.len() - 3..=book.len() + 3;
            for room in near.chain([0, 1, BLOCK, book.len() - BLOCK, TABLES * n]) {
                compare(group, &book, room);
            }
        }
    }
}

/// 6 before 30 before 15, with damaged setting blocks beside them.
fn faults(group: &mut Group) {
    for _ in group.times(1_000) {
        let mut book = damaged_book(&mut group.rng);
        if group.rng.chance(50) {
            let place = group.rng.below(BLOCK);
            book[place] ^= 1;
        }
        if group.rng.chance(30) {
            book.truncate(book.len() - group.rng.between(1, 600).min(book.len()));
        }
        let room = if group.rng.chance(50) { AMPLE } else { group.rng.below(book.len() + 1) };
        compare(group, &book, room);
    }
}

fn random_bytes(group: &mut Group) {
    for _ in group.times(500) {
        let length = BLOCK * group.rng.between(2, 8);
        let mut bytes: Vec<u8> = (0..length).map(|_| group.rng.byte()).collect();
        if group.rng.chance(70) {
            let m = group.rng.between(1, 8) as u8;
            bytes[..BLOCK].copy_from_slice(&book::block(&[(length / BLOCK - 1) as u8, m]));
        }
        compare(group, &bytes, AMPLE);
    }
}

/// What the finder says of a salvaged book, and of sound books of the same n and m with the same rules for the unmarked settings.
fn reaches_no_more(group: &mut Group) {
    let mut both = 0;
    for _ in group.times(2_000) {
        let n = group.rng.between(1, 3);
        let mut question = any_question(&mut group.rng, n);
        let (sound, m) = (question.book.clone(), usize::from(question.book[1]));
        let marks = group.rng.below(1 << n) as u8;
        let mut damaged = sound.clone();
        let mut rights = any_rights(&mut group.rng, n, m);
        for i in 0..n {
            let block = BLOCK * (1 + i);
            if marks >> i & 1 == 1 {
                damaged[block + group.rng.below(BLOCK)] ^= 1;
            } else {
                rights[TABLES * i..TABLES * (i + 1)].copy_from_slice(&sound[block..block + TABLES]);
            }
        }
        let other = written(n, m, &rights);
        let mut room = Room::of(damaged.len(), &mut group.rng);
        let mut lent = Room::holding(&damaged, &[0], &mut group.rng);
        let word = ffi::book_salvage(&mut lent, &mut room);
        question.book = room.lent().to_vec();
        let salvaged = height(group, &question);
        for open in [sound, other] {
            question.book = open;
            let height = height(group, &question);
            both += usize::from(salvaged.is_some() && height.is_some());
            let no_more = salvaged.is_none_or(|salvaged| height.is_some_and(|height| height <= salvaged));
            group.case(word == u64::from(marks.count_ones()) * 256 + u64::from(marks) && no_more, || {
                format!("{}: {salvaged:?} salvaged, and {height:?}", sparse(&question.book))
            });
        }
    }
    group.case(both > 100, || format!("reached with both only {both} times"));
}

/// The least height, if the team of a valid question reaches its goal.
fn height(group: &mut Group, question: &Question) -> Option<u64> {
    let mut book = Room::holding(&question.book, &[0], &mut group.rng);
    let mut make = Room::holding(&question.make, &[0], &mut group.rng);
    let mut learn = Room::holding(&question.learn, &[0], &mut group.rng);
    let masks = [question.team, question.known, question.values, question.held];
    let word = ffi::find_plain(&mut book, masks, &mut make, &mut learn);
    assert!(word >> 32 == 0, "a valid question was refused");
    word.checked_sub(1)
}
