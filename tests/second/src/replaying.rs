//! The cases for shifts: every result, the two words for what was reached, and the guards around them are compared with
//! `replay.rs`, and what is lent to be read may not be written.

use crate::book::{BLOCK, CHECKED, TABLES};
use crate::books::{repaired, written};
use crate::damage::{deleted, inserted, replaced, swapped};
use crate::fast_replay;
use crate::ffi;
use crate::knowledge::{Act, Kind};
use crate::questions;
use crate::refusal::{told, Refusal};
use crate::replay::{play, replay, Reached, Replayed, RECORD};
use crate::report::{shown, sparse, Group, Subject};
use crate::rng::Rng;
use crate::room::{Room, Words};
use crate::shifts::{Played, Station};
use crate::tables::{rights, table};

/// Shifts of every length up to here are tried, one byte more than 1,000 records.
const BYTES: usize = 2_001;
/// Each fault is tried at each record up to here.
const PLACES: usize = 300;
const MILLION: usize = 1_000_000;
const FAULTS: [u32; 3] = [27, 28, 29];

pub fn test(subject: &mut Subject) {
    subject.group("the night of the eight hundred cards and others written by hand", by_hand);
    subject.group("this program's own replay against shifts as they were made", own_replay);
    subject.group("a plain replay of the proved one's design, for bench/", plain_replay);
    subject.group("every shift of up to four records of small books", small_shifts);
    subject.group("all records there are, in three books", two_bytes);
    subject.group("every act byte with some second bytes, for every n and m", act_bytes);
    subject.group("one rule, true at one valuation", one_rule);
    subject.group("faultless shifts of every length from 0 to 2,001 bytes", lengths);
    subject.group("each fault at every record from 0 to 300", every_index);
    subject.group("each cause of 27 after some records, for every n and m", causes);
    subject.group("two faults in one record", two_in_one);
    subject.group("faults in two records", two_faults);
    subject.group("starting valuations around 2^n and far past it", starts);
    subject.group("damaged books beside odd shifts, starts past 2^n and faults", damaged_books);
    subject.group("random shifts with a fault, or none", random_shifts);
    subject.group("shifts damaged at a byte, and cut short", damaged_shifts);
    subject.group("random bytes", random_bytes);
    subject.group("about 256 and 65,536 records", wide);
    subject.group("1,000,000 records", million);
    for number in [6, 8, 26] {
        subject.must_reach(number, 0..=0);
    }
    subject.must_reach(7, 0..=7);
    subject.must_reach(9, 1..=7);
    for number in FAULTS {
        subject.must_reach(number, 0..=PLACES as u32);
        subject.must_reach(number, MILLION as u32 - 1..=MILLION as u32 - 1);
    }
}

/// Every act was done.
fn whole(count: usize, valuation: u64) -> Replayed {
    Replayed { outcome: Ok(()), reached: Some(Reached { count: count as u64, valuation }) }
}

/// The record with this index is at fault, at this valuation.
fn fault(number: u32, index: usize, valuation: u64) -> Replayed {
    let outcome = Err(Refusal::at(number, index as u32));
    Replayed { outcome, ..whole(index, valuation) }
}

/// Nothing was played.
fn refused(number: u32, place: usize) -> Replayed {
    Replayed { outcome: Err(Refusal::at(number, place as u32)), reached: None }
}

fn compare(group: &mut Group, station: &Station, start: u64, shift: &[u8]) {
    expect(group, &station.bytes, start, shift, play(&station.book, start, shift));
}

/// What is due is known beforehand: this program's own replay is held to it too.
fn hold(group: &mut Group, station: &Station, start: u64, shift: &[u8], expected: Replayed) {
    let own = play(&station.book, start, shift) == expected;
    group.case(own, || format!("this program's own replay of {}", case(&station.bytes, start, shift)));
    expect(group, &station.bytes, start, shift, expected);
}

/// The words are written by success, 27, 28 and 29 alone, and nothing else is.
fn expect(group: &mut Group, book: &[u8], start: u64, shift: &[u8], expected: Replayed) {
    let rng = &mut group.rng;
    let mut lent_book = Room::holding(book, &[0, 1, 255], rng);
    let mut lent_shift = Room::holding(shift, &[0, 1, 57, 113], rng);
    let mut reached = Words::of(ffi::REACHED, rng);
    let word = ffi::replay(&mut lent_book, start, &mut lent_shift, &mut reached);

    let left = match expected.reached {
        Some(Reached { count, valuation }) => [count, valuation].to_vec(),
        None => reached.lent_before().to_vec(),
    };
    let expected_word = expected.outcome.err().map_or(0, Refusal::word);
    let only_read = lent_book.untouched() && lent_shift.untouched();
    group.case(word == expected_word && reached.holds(&left) && only_read, || {
        let outside = if reached.holds(reached.lent()) { "" } else { ", and something outside the words was written" };
        let more = if only_read { "" } else { ", and what was to be read alone was written" };
        format!(
            "{}\n        expected {}, words {left:?}\n        got      {}, words {:?}{outside}{more}",
            case(book, start, shift),
            told(expected_word),
            told(word),
            reached.lent()
        )
    });
    group.came_to(expected.outcome);
}

fn case(book: &[u8], start: u64, shift: &[u8]) -> String {
    format!("shift {}\n        from {start}, a book of {}", shown(shift), sparse(book))
}

fn any_size(rng: &mut Rng) -> (usize, usize) {
    (rng.between(1, 7), rng.between(1, 8))
}

fn lively(rng: &mut Rng) -> Station {
    let (n, m) = any_size(rng);
    Station::lively(rng, n, m)
}

/// A station, and a faultless shift of so many records from a drawn start.
fn played(rng: &mut Rng, records: usize) -> (Station, Played) {
    let station = lively(rng);
    let start = station.any_start(rng);
    let played = station.faultless(rng, start, records);
    (station, played)
}

/// A shift's first records, then this one, then what a recorder might have written after it, or not.
fn with_record(rng: &mut Rng, station: &Station, played: &Played, index: usize, record: [u8; 2]) -> Vec<u8> {
    let rest = match rng.below(4) {
        0 => vec![],
        1 => {
            let count = rng.below(6);
            station.faultless(rng, played.valuations[index], count).shift
        }
        2 => {
            let count = RECORD * rng.below(6);
            rng.bytes(count)
        }
        _ => played.shift[(RECORD * (index + 1)).min(played.shift.len())..].to_vec(),
    };
    [&played.shift[..RECORD * index], &record, &rest].concat()
}

/// The night's rules: a a lot is open, b service mode is on, c the signer's key is in, d the log may drop when full;
/// posts 1 the setter, 2 the night operator, 3 the signer.
const NIGHT: [&str; 6] = ["read a 2 1", "write a 2 a", "write b 2 ~a", "read c 1 1", "write c 3 1", "write d 1 b|c"];
const NIGHT_MENDED: [&str; 6] =
    ["read a 2 1", "write a 2 a", "write b 2 ~a", "read c 1 1", "write c 3 1", "write d 1 b&c"];

fn by_hand(group: &mut Group) {
    let book = |stated: &[&str]| questions::by_hand(4, 3, stated, "1", "", "1", &[]).book;
    let (night, mended) = (book(&NIGHT), book(&NIGHT_MENDED));
    let by_hand: &[(&[u8], u64, &[u8], Replayed)] = &[
        // look a 2 sees 1, set a 2 0, set b 2 1, set d 1 1
        (&night, 0b0001, &[114, 1, 2, 0, 66, 0, 81, 0], whole(4, 0b1010)),
        (&mended, 0b0001, &[114, 1, 2, 0, 66, 0, 81, 0], fault(28, 3, 0b0010)),
        (&mended, 0b0101, &[114, 1, 2, 0, 66, 0, 81, 0], whole(4, 0b1110)),
        // the lot was open, and closed: a rule and a look are about the present
        (&night, 0b0001, &[114, 0], fault(29, 0, 0b0001)),
        (&night, 0b0000, &[114, 1], fault(29, 0, 0b0000)),
        (&night, 0b0000, &[114, 0], whole(1, 0b0000)),
        (&night, 0b0001, &[66, 0], fault(28, 0, 0b0001)),
        (&night, 0b0001, &[2, 0, 114, 0], whole(2, 0b0000)),
        (&night, 0b0001, &[2, 0, 114, 1], fault(29, 1, 0b0000)),
        (&night, 0b0001, &[58, 0, 114, 1, 114, 1], whole(3, 0b0001)),
        (&night, 0b0001, &[2, 0, 58, 0], fault(28, 1, 0b0000)),
        (&night, 0b0001, &[2, 0, 2, 0], fault(28, 1, 0b0000)),
        (&night, 0b0000, &[66, 0, 10, 0, 81, 0], fault(28, 2, 0b0000)),
        // any post of the book: the signer puts the key in, the setter looks at it
        (&night, 0b0000, &[75, 0, 129, 1, 81, 0, 19, 0, 129, 0, 81, 0], fault(28, 5, 0b1000)),
        (&night, 0b0000, &[75, 0, 81, 0], whole(2, 0b1100)),
        (&night, 0b0000, &[131, 0], fault(28, 0, 0b0000)),
        (&night, 0b0001, &[113, 1], fault(28, 0, 0b0001)),
        // no act of this book: byte 0, a byte over 168, e, post 4; what cannot have been seen
        (&night, 0b0001, &[114, 1, 0, 0], fault(27, 1, 0b0001)),
        (&night, 0b0001, &[114, 1, 169, 0], fault(27, 1, 0b0001)),
        (&night, 0b0001, &[2, 0, 255, 1], fault(27, 1, 0b0000)),
        (&night, 0b0001, &[2, 0, 145, 0], fault(27, 1, 0b0000)),
        (&night, 0b0001, &[2, 0, 116, 0], fault(27, 1, 0b0000)),
        (&night, 0b0001, &[114, 2], fault(27, 0, 0b0001)),
        (&night, 0b0001, &[113, 2], fault(27, 0, 0b0001)),
        (&night, 0b0001, &[2, 1], fault(27, 0, 0b0001)),
        (&night, 0b0000, &[2, 1], fault(27, 0, 0b0000)),
        (&night, 0b0001, &[113, 0], fault(28, 0, 0b0001)),
        // nothing, and what is not played
        (&night, 0b0000, &[], whole(0, 0b0000)),
        (&night, 0b1111, &[], whole(0, 0b1111)),
        (&night, 0b0001, &[114], refused(26, 0)),
        (&night, 0b0001, &[0, 0, 0], refused(26, 0)),
        (&night, 16, &[], refused(26, 0)),
        (&night, 17, &[114, 1], refused(26, 0)),
        (&night[..BLOCK * 4], 16, &[114], refused(8, 0)),
        (&night[..BLOCK * 5 - 1], 16, &[114], refused(6, 0)),
    ];
    for &(book, start, shift, expected) in by_hand {
        let own = replay(book, start, shift) == expected;
        group.case(own, || format!("this program's own replay of {}", case(book, start, shift)));
        expect(group, book, start, shift, expected);
    }
}

/// What `shifts.rs` keeps account of while a shift is made, from another account of the rules.
fn own_replay(group: &mut Group) {
    for _ in group.times(400) {
        let (n, m) = any_size(&mut group.rng);
        let station = match group.rng.below(3) {
            0 => Station::any(&mut group.rng, n, m),
            1 => Station::open(n, m),
            _ => Station::lively(&mut group.rng, n, m),
        };
        for _ in 0..4 {
            let start = station.any_start(&mut group.rng);
            let records = group.rng.below(60);
            let played = station.faultless(&mut group.rng, start, records);
            let own = replay(&station.bytes, start, &played.shift);
            let right = own == whole(played.records(), played.end());
            group.case(right, || case(&station.bytes, start, &played.shift));
            let index = group.rng.below(played.records() + 1);
            let number = group.rng.one_of(&FAULTS);
            let valuation = played.valuations[index];
            if let Some(record) = station.fault(&mut group.rng, valuation, number) {
                let shift = with_record(&mut group.rng, &station, &played, index, record);
                let right = replay(&station.bytes, start, &shift) == fault(number, index, valuation);
                group.case(right, || case(&station.bytes, start, &shift));
            }
        }
    }
}

fn plain_replay(group: &mut Group) {
    for _ in group.times(1_000) {
        let (station, played) = played(&mut group.rng, 30);
        let mut start = played.valuations[0];
        let mut shift = played.shift;
        let mut book = station.bytes;
        if group.rng.chance(60) {
            let place = group.rng.below(shift.len());
            shift[place] = group.rng.byte();
        }
        match group.rng.below(10) {
            0 => start = group.rng.number() >> group.rng.below(64),
            1 => shift.truncate(29),
            2 => spoil(&mut group.rng, &mut book),
            _ => {}
        }
        let Replayed { outcome, reached } = replay(&book, start, &shift);
        let mut words = [7, 8];
        let word = fast_replay::replay(&book, start, &shift, &mut words);
        let left = reached.map_or([7, 8], |Reached { count, valuation }| [count, valuation]);
        let right = word == outcome.err().map_or(0, Refusal::word) && words == left;
        group.case(right, || case(&book, start, &shift));
    }
}

/// Two settings and one post, or one setting and two posts: eight records that could be faultless.
fn small_shifts(group: &mut Group) {
    let stations = [(2, 1), (1, 2), (2, 1), (1, 2)];
    for (at, (n, m)) in stations.into_iter().enumerate() {
        let station = if at < 2 { Station::open(n, m) } else { Station::lively(&mut group.rng, n, m) };
        let acts = (1..=168).filter_map(Act::of_byte).filter(|act| act.setting < n && act.post < m);
        let seen = |act: Act| if act.kind == Kind::Look { 0..=1 } else { 0..=0 };
        let records: Vec<[u8; 2]> = acts.flat_map(|act| seen(act).map(move |seen| [act.byte(), seen])).collect();
        let mut shifts: Vec<Vec<u8>> = vec![vec![]];
        for _ in 0..=4 {
            for shift in &shifts {
                for start in 0..1 << n {
                    compare(group, &station, start, shift);
                }
            }
            let longer =
                |shift: &Vec<u8>| records.iter().map(|record| [&shift[..], record].concat()).collect::<Vec<_>>();
            shifts = shifts.iter().flat_map(longer).collect();
        }
    }
}

fn two_bytes(group: &mut Group) {
    for (n, m) in [(1, 1), (3, 2), (7, 8)] {
        let station = Station::lively(&mut group.rng, n, m);
        for byte in 0..=255 {
            let start = station.any_start(&mut group.rng);
            for seen in 0..=255 {
                compare(group, &station, start, &[byte, seen]);
            }
        }
    }
}

fn act_bytes(group: &mut Group) {
    for n in 1..=7 {
        for m in 1..=8 {
            let station = Station::lively(&mut group.rng, n, m);
            for byte in 0..=255 {
                for seen in [0, 1, 2, 3, 128, 255] {
                    let start = station.any_start(&mut group.rng);
                    compare(group, &station, start, &[byte, seen]);
                }
            }
        }
    }
}

/// Each rule's bit for each valuation has a place of its own.
fn one_rule(group: &mut Group) {
    for n in 1..=7 {
        for place in 0..n * 16 {
            let (setting, post, look) = (place / 16, place / 2 % 8, place % 2 == 0);
            for valuation in 0..1u64 << n {
                let m = group.rng.between(post + 1, 8);
                let rule = |i, q, looks| if (i, q, looks) == (setting, post, look) { 1 << valuation } else { 0 };
                let bytes = written(n, m, &rights(n, m, |i, q, looks| table(n, rule(i, q, looks))));
                let value = group.rng.chance(50);
                let kind = if look { Kind::Look } else { Kind::Set(value) };
                let byte = Act { kind, setting, post }.byte();
                let now = (valuation >> setting) as u8 & 1;
                let after = valuation & !(1 << setting) | u64::from(if look { now == 1 } else { value }) << setting;
                let shift = [byte, if look { now } else { 0 }];
                expect(group, &bytes, valuation, &shift, whole(1, after));
                let elsewhere = valuation ^ 1 << group.rng.below(n);
                expect(group, &bytes, elsewhere, &[byte, 0], fault(28, 0, elsewhere));
                let other = (byte - 1) ^ 1 << group.rng.below(3);
                let number = if usize::from(other % 8) < m { 28 } else { 27 };
                expect(group, &bytes, valuation, &[1 + other, 0], fault(number, 0, valuation));
            }
        }
    }
}

fn lengths(group: &mut Group) {
    for length in 0..=BYTES {
        let (station, played) = played(&mut group.rng, length.div_ceil(RECORD));
        let expected = if length % RECORD == 0 { whole(length / RECORD, played.end()) } else { refused(26, 0) };
        hold(group, &station, played.valuations[0], &played.shift[..length], expected);
    }
    for _ in group.times(300) {
        let length = group.rng.below(BYTES);
        let (station, played) = played(&mut group.rng, BYTES.div_ceil(RECORD));
        compare(group, &station, played.valuations[0], &played.shift[..length]);
    }
}

fn faults_at(group: &mut Group, station: &Station, played: &Played, index: usize) {
    for number in FAULTS {
        let valuation = played.valuations[index];
        let Some(record) = station.fault(&mut group.rng, valuation, number) else { continue };
        let shift = with_record(&mut group.rng, station, played, index, record);
        hold(group, station, played.valuations[0], &shift, fault(number, index, valuation));
    }
}

fn every_index(group: &mut Group) {
    for index in 0..=PLACES {
        for _ in group.times(4) {
            let records = index + group.rng.below(4);
            let (station, played) = played(&mut group.rng, records);
            faults_at(group, &station, &played, index);
        }
    }
}

fn causes(group: &mut Group) {
    for n in 1..=7 {
        for m in 1..=8 {
            let station = Station::lively(&mut group.rng, n, m);
            let start = station.any_start(&mut group.rng);
            let records = group.rng.below(8);
            let played = station.faultless(&mut group.rng, start, records);
            let mut causes: Vec<[u8; 2]> = vec![[0, 0], [0, 1], [0, 255]];
            for byte in 169..=255 {
                causes.push([byte, group.rng.below(2) as u8]);
            }
            for act in (1..=168).filter_map(Act::of_byte) {
                let most = u8::from(act.kind == Kind::Look);
                if act.setting >= n || act.post >= m {
                    causes.extend([[act.byte(), 0], [act.byte(), most]]);
                } else {
                    let far = group.rng.between(usize::from(most) + 1, 255) as u8;
                    causes.extend([[act.byte(), most + 1], [act.byte(), far], [act.byte(), 255]]);
                }
            }
            for cause in causes {
                let shift = with_record(&mut group.rng, &station, &played, played.records(), cause);
                hold(group, &station, start, &shift, fault(27, played.records(), played.end()));
            }
        }
    }
}

/// 27 before 28 before 29.
fn two_in_one(group: &mut Group) {
    let mut counts = [0; 4];
    for _ in group.times(600) {
        let records = group.rng.below(12);
        let (station, played) = played(&mut group.rng, records);
        let (index, valuation) = (played.records(), played.end());
        let wrong = |act: Act| 1 - (valuation >> act.setting & 1) as u8;
        let far = group.rng.between(2, 255) as u8;
        let mut faults: Vec<(usize, [u8; 2], u32)> = vec![];
        faults.extend(station.closed(valuation).iter().map(|act| (0, [act.byte(), far], 27)));
        let sets = station.closed(valuation).iter().filter(|act| act.kind != Kind::Look);
        faults.extend(sets.map(|act| (1, [act.byte(), 1], 27)));
        faults.extend(station.looks(valuation, true).iter().map(|act| (2, [act.byte(), far], 27)));
        faults.extend(station.looks(valuation, false).iter().map(|&act| (3, [act.byte(), wrong(act)], 28)));
        for (kind, record, number) in faults {
            counts[kind] += 1;
            let shift = with_record(&mut group.rng, &station, &played, index, record);
            hold(group, &station, played.valuations[0], &shift, fault(number, index, valuation));
        }
    }
    for (kind, count) in counts.into_iter().enumerate() {
        group.case(count >= 300, || format!("two faults in a record of kind {kind}: {count} cases"));
    }
}

/// The earlier one is given, whatever the numbers.
fn two_faults(group: &mut Group) {
    for _ in group.times(150) {
        for first in FAULTS {
            for second in FAULTS {
                let index = group.rng.below(20);
                let (station, played) = played(&mut group.rng, index);
                let valuation = played.end();
                let between = group.rng.below(4);
                let later = station.faultless(&mut group.rng, valuation, between);
                let one = station.fault(&mut group.rng, valuation, first);
                let other = station.fault(&mut group.rng, later.end(), second);
                let (Some(one), Some(other)) = (one, other) else { panic!("a lively station has every fault") };
                let shift = [&played.shift[..], &one, &later.shift, &other].concat();
                hold(group, &station, played.valuations[0], &shift, fault(first, index, valuation));
            }
        }
    }
}

/// Numbers at and past 2^n, many of which a number of fewer bits, or a signed one, would take for one below it.
fn past(rng: &mut Rng, n: usize) -> Vec<u64> {
    let end = 1u64 << n;
    let mut past =
        vec![end, end + 1, end + 2, 2 * end - 1, 2 * end + 1, 3 * end, u64::MAX, u64::MAX - 1, u64::MAX - end];
    past.extend([end + (1 << 32), end - 1 + (1 << 32), (1 << 32) - 1, i64::MAX as u64, u64::MAX - end + 1, 170, 255]);
    for bit in n..64 {
        past.extend([1 << bit, 1 << bit | rng.below(1 << n) as u64, 1 << bit | rng.number() >> (64 - bit)]);
    }
    past.retain(|&start| start >= end);
    past
}

fn starts(group: &mut Group) {
    for n in 1..=7 {
        let m = group.rng.between(1, 8);
        let station = Station::lively(&mut group.rng, n, m);
        for start in 0..1 << n {
            let played = station.faultless(&mut group.rng, start, 5);
            hold(group, &station, start, &[], whole(0, start));
            hold(group, &station, start, &played.shift, whole(5, played.end()));
            hold(group, &station, start, &played.shift[..9], refused(26, 0));
            faults_at(group, &station, &played, 0);
        }
        for _ in group.times(1) {
            for start in past(&mut group.rng, n) {
                let played = station.faultless(&mut group.rng, start % (1 << n), 5);
                let rubbish = group.rng.bytes(6);
                for shift in [&[], &played.shift[..], &played.shift[..9], &[0, 0], &[255, 255], &rubbish] {
                    hold(group, &station, start, shift, refused(26, 0));
                }
            }
        }
    }
}

/// A book damaged so that it is refused with this number, with the block where 7 and 9 name one.
fn spoilt(rng: &mut Rng, station: &Station, number: u32, block: usize) -> Vec<u8> {
    let mut book = station.bytes.clone();
    let (n, m) = (station.book.n, station.book.m);
    match number {
        6 => {
            let length = rng.one_of(&[0, 1, 2, BLOCK - 1, BLOCK, BLOCK + 1, book.len() - 1, book.len() + 1, 9 * BLOCK]);
            book.resize(length, 0);
            book
        }
        7 => {
            book[block * BLOCK + rng.below(BLOCK)] ^= 1 << rng.below(8);
            book
        }
        8 => {
            match rng.below(4) {
                0 => book[0] = rng.one_of(&[0, n as u8 - 1, n as u8 + 1, 8, 255]),
                1 => book[1] = rng.one_of(&[0, 9, 128, 255]),
                _ => book[rng.between(2, CHECKED - 1)] = 1 << rng.below(8),
            }
            repaired(&book)
        }
        _ => {
            let place = match rng.below(3) {
                0 if m < 8 => rng.between(32 * m, TABLES - 1),
                1 if n < 3 => 16 * rng.below(2 * m), // its valuations 2^n to 7
                _ => rng.between(TABLES, CHECKED - 1),
            };
            book[block * BLOCK + place] |= 128;
            repaired(&book)
        }
    }
}

/// One to three bytes, anywhere, with right checks or not.
fn spoil(rng: &mut Rng, book: &mut Vec<u8>) {
    for _ in 0..rng.between(1, 3) {
        let place = if rng.chance(30) { rng.below(4) } else { rng.below(book.len()) };
        book[place] = rng.byte();
    }
    if rng.chance(60) {
        *book = repaired(book);
    }
}

/// What is wrong with the book is told first, and then the words stay as they were.
fn damaged_books(group: &mut Group) {
    for n in 1..=7 {
        for _ in group.times(6) {
            let m = group.rng.between(1, 8);
            let station = Station::lively(&mut group.rng, n, m);
            let start = station.any_start(&mut group.rng);
            let shift = station.faultless(&mut group.rng, start, 4).shift;
            let far = group.rng.one_of(&[1 << n, (1 << n) + 1, 1 << 32, 1 << 63, u64::MAX]);
            let faults = [(6, 0..=0), (7, 0..=n), (8, 0..=0), (9, 1..=n)];
            for (number, block) in faults.into_iter().flat_map(|(number, blocks)| blocks.map(move |at| (number, at))) {
                let book = spoilt(&mut group.rng, &station, number, block);
                for start in [start, far] {
                    for shift in [&shift[..], &shift[..7], &[], &[0], &[0, 0], &[255, 2, 1]] {
                        let expected = refused(number, block);
                        let own = replay(&book, start, shift) == expected;
                        group.case(own, || format!("this program's own replay of {}", case(&book, start, shift)));
                        expect(group, &book, start, shift, expected);
                    }
                }
            }
        }
    }
    for _ in group.times(2_000) {
        let (station, played) = played(&mut group.rng, 6);
        let mut book = station.bytes;
        spoil(&mut group.rng, &mut book);
        let start = if group.rng.chance(20) { group.rng.number() } else { played.valuations[0] };
        let length = if group.rng.chance(20) { group.rng.below(12) } else { 12 };
        let shift = &played.shift[..length];
        expect(group, &book, start, shift, replay(&book, start, shift));
    }
}

fn random_shifts(group: &mut Group) {
    for _ in group.times(1_500) {
        let (n, m) = any_size(&mut group.rng);
        let station = match group.rng.below(5) {
            0 => Station::any(&mut group.rng, n, m),
            1 => Station::open(n, m),
            _ => Station::lively(&mut group.rng, n, m),
        };
        for _ in 0..6 {
            let start = station.any_start(&mut group.rng);
            let most = group.rng.one_of(&[3, 20, 60, 400]);
            let records = group.rng.below(most);
            let played = station.faultless(&mut group.rng, start, records);
            hold(group, &station, start, &played.shift, whole(played.records(), played.end()));
            let index = group.rng.below(played.records() + 1);
            faults_at(group, &station, &played, index);
        }
    }
}

fn damaged_shifts(group: &mut Group) {
    for _ in group.times(60) {
        let records = group.rng.between(1, 12);
        let (station, played) = played(&mut group.rng, records);
        let (start, shift) = (played.valuations[0], &played.shift[..]);
        for place in 0..shift.len() {
            let (other, far) = (group.rng.below(shift.len()), group.rng.byte());
            let near = station.any_act(&mut group.rng).byte();
            compare(group, &station, start, &shift[..place]);
            compare(group, &station, start, &shift[place..]);
            compare(group, &station, start, &deleted(shift, place));
            compare(group, &station, start, &inserted(shift, place, far));
            compare(group, &station, start, &deleted(&inserted(shift, place, near), other));
            compare(group, &station, start, &swapped(shift, place, other));
            let elsewhere = start ^ 1 << group.rng.below(station.book.n);
            compare(group, &station, elsewhere, shift);
            for byte in [near, far, 0, 1, 2, shift[place] ^ 1, shift[place] ^ 128] {
                compare(group, &station, start, &replaced(shift, place, byte));
            }
        }
    }
}

fn random_bytes(group: &mut Group) {
    for _ in group.times(4_000) {
        let (n, m) = any_size(&mut group.rng);
        let station = if group.rng.chance(50) { Station::open(n, m) } else { Station::any(&mut group.rng, n, m) };
        let start = station.any_start(&mut group.rng);
        let records = group.rng.below(20);
        let record = |rng: &mut Rng| {
            let act = station.any_act(rng);
            [act.byte(), if act.kind == Kind::Look { rng.below(2) as u8 } else { 0 }]
        };
        let shift: Vec<u8> = (0..records).flat_map(|_| record(&mut group.rng)).collect();
        compare(group, &station, start, &shift);
        let length = group.rng.below(40);
        let shift = group.rng.bytes(length);
        compare(group, &station, start, &shift);
    }
}

/// Counts and indexes that a number of 8 or 16 bits would take for others.
fn wide(group: &mut Group) {
    for records in [255, 256, 257, 65_535, 65_536, 65_537] {
        let (station, played) = played(&mut group.rng, records);
        let start = played.valuations[0];
        hold(group, &station, start, &played.shift, whole(records, played.end()));
        hold(group, &station, start, &played.shift[1..], refused(26, 0));
        for index in [0, 254, records - 2, records - 1, records] {
            faults_at(group, &station, &played, index);
        }
    }
}

fn million(group: &mut Group) {
    let station = Station::lively(&mut group.rng, 7, 8);
    let start = station.any_start(&mut group.rng);
    let played = station.faultless(&mut group.rng, start, MILLION);
    hold(group, &station, start, &played.shift, whole(MILLION, played.end()));
    hold(group, &station, start, &played.shift[1..], refused(26, 0));
    hold(group, &station, start, &[&played.shift[..], &[0]].concat(), refused(26, 0));
    hold(group, &station, start + 128, &played.shift, refused(26, 0));
    for index in [MILLION - 1, MILLION, MILLION / 2] {
        faults_at(group, &station, &played, index);
    }
    for index in group.times(1).map(|_| group.rng.below(MILLION)).collect::<Vec<_>>() {
        faults_at(group, &station, &played, index);
    }
}
