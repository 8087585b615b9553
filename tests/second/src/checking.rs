//! The cases for the plan check: every answer is compared with `plan.rs`, and nothing lent may be written.

use crate::book::BLOCK;
use crate::books::repaired;
use crate::damage::{deleted, inserted, replaced, swapped};
use crate::fast_check;
use crate::ffi;
use crate::finder::{self, Found, Solution};
use crate::finding::{shown_question, spoil};
use crate::not_permitted;
use crate::plan::{check, Plan, PLAN_MOST};
use crate::plans::{any, permitted, working};
use crate::question::{Asked, Question};
use crate::questions::{any_question, by_hand, climb, plain_letters};
use crate::refusal::{told, Refusal};
use crate::report::{shown, Group, Subject};
use crate::rng::Rng;
use crate::room::Room;
use crate::tables::table;
use crate::unchanged;

/// How many places each fault is tried at, one by one.
const PLACES: usize = 600;
/// Places at which random plans with any act come to 18 with each second number.
const ANY_ACT_PLACES: u32 = 20;

pub fn test(subject: &mut Subject) {
    subject.group("this program's own check against plans as trees", own_check);
    subject.group("a plain check of the proved one's design, for bench/", plain_check);
    subject.group("marked example P10 and others written by hand", by_hand_plans);
    subject.group("written plans", written_plans);
    subject.group("plans that work and are not the written ones", other_plans);
    subject.group("plans of permitted acts, and of any", any_plans);
    subject.group("any act at every place of random plans", any_act);
    subject.group("every change of one byte of small plans", one_byte);
    subject.group("plans cut short, gone on with, and disarranged", damaged);
    subject.group("every first byte, for every n, some posts and teams", first_bytes);
    subject.group("looks at known settings, digit by digit", known_settings);
    subject.group("acts not permitted, at every digit and for each reason", not_permitted::every_digit);
    subject.group("rules of the setting acted on, at its every digit and for each reason", not_permitted::own_digit);
    subject.group("acts on held settings, at every digit and for each reason", not_permitted::held);
    subject
        .group("plans that worked before sets that change nothing were none, with those left out", unchanged::left_out);
    subject.group("as many looks open as there are settings", open_looks);
    subject.group("rows of sets with a fault at every place", rows);
    subject.group("32,640 bytes and more", longest);
    subject.group("random bytes", random_bytes);
    subject.group("damaged questions", questions);
    for number in [6, 8, 10, 11, 12, 16, 31] {
        subject.must_reach(number, 0..=0);
    }
    subject.must_reach(7, 0..=7);
    subject.must_reach(9, 1..=7);
    for number in [17, 19, 20, 32] {
        subject.must_reach(number, 0..=PLACES as u32);
    }
    subject.must_reach(21, 1..=PLACES as u32);
    for number in [17, 19, 21, 32] {
        subject.must_reach(number, PLAN_MOST as u32 - 1..=PLAN_MOST as u32 - 1);
    }
    for second in 0..=3 {
        subject.must_reach_second(18, second, 0..=PLACES as u32);
        subject.must_reach_second(18, second, PLAN_MOST as u32 - 1..=PLAN_MOST as u32 - 1);
    }
    subject.must_reach(20, PLAN_MOST as u32..=PLAN_MOST as u32);
}

fn compare(group: &mut Group, question: &Question, plan: &[u8]) {
    expect(group, question, plan, check(question, plan));
}

pub fn expect(group: &mut Group, question: &Question, plan: &[u8], expected: Result<(), Refusal>) {
    let rng = &mut group.rng;
    let mut book = Room::holding(&question.book, &[0, 1, 255], rng);
    let mut make = Room::holding(&question.make, &[0, 1, 255], rng);
    let mut learn = Room::holding(&question.learn, &[0, 1, 255], rng);
    let mut lent_plan = Room::holding(plan, &[0, 1, 57, 58, 113], rng);
    let masks = [question.team, question.known, question.values, question.held];
    let word = ffi::plan_check(&mut book, masks, &mut make, &mut learn, &mut lent_plan);

    let expected_word = expected.err().map_or(0, Refusal::word);
    let only_read = book.untouched() && make.untouched() && learn.untouched() && lent_plan.untouched();
    group.case(word == expected_word && only_read, || {
        let more = if only_read { "" } else { ", and something was written" };
        format!(
            "plan {}\n        {}\n        expected {}\n        got      {}{more}",
            shown(plan),
            shown_question(question),
            told(expected_word),
            told(word)
        )
    });
    group.came_to(expected);
}

fn asked(question: &Question) -> Asked {
    question.read().unwrap_or_else(|refusal| panic!("a sound question was {refusal}"))
}

/// A question that can be reached, with its ranks and its plan of `least` bytes or more.
fn reached(rng: &mut Rng, sizes: &[usize], least: usize) -> (Question, Vec<u8>, Vec<u8>) {
    loop {
        let n = rng.one_of(sizes);
        let question = any_question(rng, n);
        if let Ok(Solution { ranks, found: Found::Reach { plan, .. } }) = finder::find(&question) {
            if plan.len() >= least {
                return (question, ranks, plan);
            }
        }
    }
}

/// The check says yes exactly where the bytes are those of a plan that works.
fn own_check(group: &mut Group) {
    for _ in group.times(3_000) {
        let n = group.rng.between(1, 3);
        let question = any_question(&mut group.rng, n);
        let asked = asked(&question);
        let plan = any(&mut group.rng, &asked, &asked.start, 6);
        let works = plan.permitted(&asked, &asked.start) && plan.settles(&asked, &asked.start);
        let right = check(&question, &plan.bytes()).is_ok() == works;
        group.case(right, || format!("{} {}", shown(&plan.bytes()), shown_question(&question)));
    }
    for _ in group.times(200) {
        let (question, ranks, written) = reached(&mut group.rng, &[1, 2, 3], 1);
        let asked = asked(&question);
        let plan = working(&mut group.rng, &asked, &ranks, &asked.start, 0);
        let rank = usize::from(ranks[asked.start.number()]);
        let right =
            check(&question, &plan.bytes()).is_ok() && plan.height() == rank && check(&question, &written).is_ok();
        group.case(right, || format!("{} {}", shown(&plan.bytes()), shown_question(&question)));
    }
}

/// It is compared with this program's own check; the library is not asked.
fn plain_check(group: &mut Group) {
    for _ in group.times(3_000) {
        let n = group.rng.between(1, 7);
        let question = any_question(&mut group.rng, n);
        let asked = asked(&question);
        let settled = Question { make: table(n, u128::MAX).to_vec(), learn: vec![], ..question.clone() };
        let plan = match group.rng.below(2) {
            0 => permitted(&mut group.rng, &asked, &asked.start, 12, 4),
            _ => any(&mut group.rng, &asked, &asked.start, 8),
        };
        let plan = plan.bytes();
        let place = group.rng.below(plan.len());
        let named: Vec<u8> = asked.acts().into_iter().map(|act| act.byte()).chain([0]).collect();
        let (act, far) = (group.rng.one_of(&named), group.rng.byte());
        for question in [&question, &settled] {
            compare_plain(group, question, &plan);
            compare_plain(group, question, &replaced(&plan, place, act));
            compare_plain(group, question, &replaced(&plan, place, far));
            compare_plain(group, question, &plan[..place]);
            compare_plain(group, question, &[&plan[..], &[far]].concat());
        }
        let mut spoilt = question;
        spoil(&mut group.rng, n, &mut spoilt);
        compare_plain(group, &spoilt, &plan);
    }
    for _ in group.times(60) {
        let (question, ranks, written) = reached(&mut group.rng, &[1, 2, 3, 4], 1);
        let asked = asked(&question);
        let detours = group.rng.below(5);
        let other = working(&mut group.rng, &asked, &ranks, &asked.start, detours).bytes();
        compare_plain(group, &question, &written);
        compare_plain(group, &question, &other);
    }
    for n in 1..=7 {
        let plan = all_looks(&mut group.rng, &(0..n).collect::<Vec<_>>());
        compare_plain(group, &looks_alone(n), &plan);
        compare_plain(group, &looks_alone(n), &plan[..plan.len() - 1]);
    }
    for length in [PLAN_MOST - 1, PLAN_MOST, PLAN_MOST + 1] {
        let (question, plan) = row(true, length);
        compare_plain(group, &question, &plan);
        let (question, plan) = row_to_stop(length);
        compare_plain(group, &question, &plan);
        compare_plain(group, &question, &replaced(&plan, length / 2, YES));
        compare_plain(group, &question, &replaced(&plan, length / 2, NO));
        compare_plain(group, &Question { team: 0, ..question.clone() }, &plan);
        compare_plain(group, &Question { book: vec![0; BLOCK], ..question }, &plan);
    }
}

fn compare_plain(group: &mut Group, question: &Question, plan: &[u8]) {
    let Question { book, team, known, values, held, make, learn } = question;
    let word = fast_check::check(book, [*team, *known, *values, *held], make, learn, plan);
    let expected = check(question, plan).err().map_or(0, Refusal::word);
    group.case(word == expected, || {
        format!("plan {} {}: {}, not {}", shown(plan), shown_question(question), told(word), told(expected))
    });
}

fn by_hand_plans(group: &mut Group) {
    let p6 = by_hand(3, 2, &["write a 2 ~c", "write b 1 a", "read c 2 1", "write c 2 c"], "1 2", "", "b", &[]);
    // by request R-2 post 1 may look at c as well
    let p6_open =
        by_hand(3, 2, &["write a 2 ~c", "write b 1 a", "read c 1 1", "read c 2 1", "write c 2 c"], "1 2", "", "b", &[]);
    let p9 = by_hand(1, 1, &["read a 1 1", "write a 1 1"], "1", "", "~a", &["a"]);
    let p12 = by_hand(2, 1, &[], "1", "~a", "1", &["a&b"]);
    let reasons = by_hand(2, 1, &["read a 1 b", "write a 1 b|~b", "read b 1 a&~a", "write b 1 ~a"], "1", "", "1", &[]);
    let refused = |number, place| Err(Refusal::at(number, place));
    let known = |place| Err(Refusal::at(18, place).with_second(0));
    let surely_false = |place| Err(Refusal::at(18, place).with_second(1));
    let not_known = |place| Err(Refusal::at(18, place).with_second(2));
    let held = |place| Err(Refusal::at(18, place).with_second(3));
    let p6_held = Question { held: 4, ..p6.clone() };
    let reasons_held = Question { held: 3, ..reasons.clone() };
    let known_held = Question { held: 1, known: 1, values: 1, ..reasons.clone() };
    let by_hand: &[(&Question, &[u8], Result<(), Refusal>)] = &[
        (&p6, &[130, 58, 65, 0, 18, 58, 65, 0], Ok(())),
        (&p6, &[130, 58, 65, 0, 18, 58, 65], refused(20, 7)),
        (&p6, &[130, 58, 65, 0, 18, 58, 65, 0, 0], refused(21, 8)),
        (&p6, &[130, 58, 65, 0, 58, 65, 0], surely_false(4)),
        (&p6, &[130, 58, 65, 0, 130, 58, 65, 0], known(4)),
        (&p6, &[130, 58, 65, 0, 129, 58, 65, 0], known(4)),
        (&p6, &[129, 58, 65, 0, 18, 58, 65, 0], surely_false(0)),
        (&p6, &[58, 65, 0], not_known(0)),
        (&p6, &[65, 0], not_known(0)),
        (&p6, &[18, 58, 65, 0], not_known(0)),
        (&p6, &[1, 0], surely_false(0)),
        (&p6, &[130, 0, 18, 58, 65, 0], refused(19, 1)),
        (&p6, &[132], refused(17, 0)),
        (&p6, &[137], refused(17, 0)),
        (&p6, &[130, 58, 2, 58, 65, 0, 18, 58, 65, 0], Ok(())),
        (&p6, &[130, 58, 58, 65, 0, 18, 58, 65, 0], refused(32, 2)),
        (&p6, &[130, 58, 65, 65, 0, 18, 58, 65, 0], refused(32, 3)),
        (&p6, &[130, 58, 65, 0, 74, 18, 58, 65, 0], refused(32, 4)),
        (&p6, &[130, 18, 0], surely_false(1)),
        (&p6, &[130, 18, 58, 65, 0, 18, 58, 65, 0], surely_false(1)),
        (&p6, &[130, 65, 0, 0], not_known(1)),
        (&p6, &[], refused(20, 0)),
        (&p6_open, &[129, 58, 65, 0, 18, 58, 65, 0], Ok(())),
        (&p6_open, &[130, 58, 65, 0, 18, 58, 65, 0], Ok(())),
        (&p6_open, &[129, 58, 65, 0, 129, 58, 65, 0], known(4)),
        (&p9, &[1, 0], refused(19, 1)),
        (&p9, &[113, 0, 1, 0], Ok(())),
        (&p9, &[113, 1, 0, 1, 0], refused(32, 1)),
        (&p9, &[113, 0, 57, 1, 0], refused(32, 2)),
        (&p9, &[113, 57, 1, 0, 1, 0], Ok(())),
        (&p9, &[113, 57, 1, 1, 0, 1, 0], refused(32, 3)),
        (&p9, &[113, 0, 1, 1, 0], refused(32, 3)),
        (&p9, &[1, 1, 0], refused(32, 1)),
        (&p9, &[57, 57, 0], refused(32, 1)),
        (&p9, &[57, 1, 0], refused(19, 2)),
        (&p9, &[113, 57, 1, 0, 0], refused(19, 4)),
        (&p9, &[1, 113], known(1)),
        (&p9, &[113, 113], known(1)),
        (&p9, &[169], refused(17, 0)),
        (&p12, &[0], Ok(())),
        (&p12, &[0, 0], refused(21, 1)),
        (&p12, &[0, 255], refused(21, 1)),
        (&p12, &[1, 255], surely_false(0)),
        (&p12, &[57, 255], surely_false(0)),
        (&p12, &[113, 255], known(0)),
        (&p12, &[121, 255], surely_false(0)),
        (&reasons, &[57, 0], Ok(())),
        (&reasons, &[113, 0, 0], not_known(0)),
        (&reasons, &[57, 113, 0, 0], known(1)),
        (&reasons, &[121, 0, 0], surely_false(0)),
        (&reasons, &[9, 0], not_known(0)),
        (&reasons, &[57, 57, 0], refused(32, 1)),
        (&reasons, &[1, 9, 9, 0], refused(32, 2)),
        (&reasons, &[1, 9, 57, 9, 0], surely_false(3)),
        (&reasons, &[57, 9, 0], surely_false(1)),
        (&reasons, &[1, 9, 0], Ok(())),
        (&reasons, &[1, 9, 121, 0, 0], known(2)),
        (&reasons, &[1, 9, 113, 0, 0], known(2)),
        (&p6_held, &[130, 58, 65, 0, 18, 58, 65, 0], held(4)),
        (&p6_held, &[130, 58, 65, 0, 58, 65, 0], surely_false(4)),
        (&p6_held, &[18, 58, 65, 0], held(0)),
        (&p6_held, &[130, 58, 65, 0, 130, 58, 65, 0], known(4)),
        (&reasons_held, &[57, 0], held(0)),
        (&known_held, &[57, 0], held(0)),
        (&known_held, &[1, 0], held(0)),
        (&reasons_held, &[9, 0], held(0)),
        (&reasons_held, &[113, 0, 0], not_known(0)),
        (&reasons_held, &[121, 0, 0], surely_false(0)),
    ];
    let words = [
        (0, 0x112_0000_0004, "refused 18 4 0"),
        (1, 0x212_0000_0004, "refused 18 4 1"),
        (2, 0x312_0000_0004, "refused 18 4 2"),
        (3, 0x412_0000_0004, "refused 18 4 3"),
    ];
    group.case(Refusal::at(32, 4).word() == 0x20_0000_0004, || "this program's own word for 32".to_string());
    for (second, word, printed) in words {
        let refusal = Refusal::at(18, 4).with_second(second);
        let right = refusal.word() == word && Refusal::of_word(word) == Some(refusal) && told(word) == printed;
        group.case(right, || format!("this program's own words for {printed}"));
    }
    for &(question, plan, expected) in by_hand {
        group.case(check(question, plan) == expected, || format!("this program's own check of {}", shown(plan)));
        expect(group, question, plan, expected);
    }
}

fn written_plans(group: &mut Group) {
    for _ in group.times(400) {
        let (question, _, plan) = reached(&mut group.rng, &[1, 2, 3, 3, 4], 1);
        expect(group, &question, &plan, Ok(()));
    }
    for n in 1..=7 {
        let question = climb(&mut group.rng, &plain_letters(n), 1);
        if let Ok(Solution { found: Found::Reach { plan, .. }, .. }) = finder::find(&question) {
            expect(group, &question, &plan, Ok(()));
            compare(group, &question, &plan[..plan.len() - 1]);
        }
    }
}

fn other_plans(group: &mut Group) {
    for _ in group.times(1_000) {
        let (question, ranks, _) = reached(&mut group.rng, &[1, 2, 3, 3, 4], 1);
        let asked = asked(&question);
        let detours = group.rng.below(5);
        let plan = working(&mut group.rng, &asked, &ranks, &asked.start, detours).bytes();
        if plan.len() <= PLAN_MOST {
            expect(group, &question, &plan, Ok(()));
        }
    }
}

fn any_plans(group: &mut Group) {
    for _ in group.times(3_000) {
        let n = group.rng.between(1, 5);
        let question = any_question(&mut group.rng, n);
        let asked = asked(&question);
        let plan = match group.rng.below(2) {
            0 => permitted(&mut group.rng, &asked, &asked.start, 12, 4),
            _ => any(&mut group.rng, &asked, &asked.start, 8),
        };
        compare(group, &question, &plan.bytes());
    }
}

/// Every stop is settled, so that what is refused is an act.
fn any_act(group: &mut Group) {
    for _ in group.times(500) {
        let n = group.rng.between(1, 7);
        let question = any_question(&mut group.rng, n);
        let question = Question { make: table(n, u128::MAX).to_vec(), learn: vec![], ..question };
        let asked = asked(&question);
        let plan = permitted(&mut group.rng, &asked, &asked.start, 30, 3).bytes();
        for place in 0..plan.len().min(30) {
            let act = group.rng.one_of(&asked.acts());
            compare(group, &question, &replaced(&plan, place, act.byte()));
        }
    }
    for second in 0..=3 {
        group.must_reach_second(18, second, 0..=ANY_ACT_PLACES);
    }
    group.must_reach(32, 0..=ANY_ACT_PLACES);
}

fn one_byte(group: &mut Group) {
    for _ in group.times(40) {
        let (question, ranks, plan) = reached(&mut group.rng, &[1, 2, 3], 3);
        let asked = asked(&question);
        let plan =
            if group.rng.chance(50) { plan } else { working(&mut group.rng, &asked, &ranks, &asked.start, 2).bytes() };
        if plan.len() <= 12 {
            for place in 0..plan.len() {
                for byte in 0..=255 {
                    compare(group, &question, &replaced(&plan, place, byte));
                }
            }
        }
    }
}

fn damaged(group: &mut Group) {
    for _ in group.times(60) {
        let (question, ranks, plan) = reached(&mut group.rng, &[1, 2, 3, 4], 4);
        let asked = asked(&question);
        let plan =
            if group.rng.chance(50) { plan } else { working(&mut group.rng, &asked, &ranks, &asked.start, 3).bytes() };
        let plan = &plan[..plan.len().min(60)];
        let named: Vec<u8> = asked.acts().into_iter().map(|act| act.byte()).chain([0]).collect();
        for place in 0..plan.len() {
            let (other, named, far) = (group.rng.below(plan.len()), group.rng.one_of(&named), group.rng.byte());
            compare(group, &question, &plan[..place]);
            compare(group, &question, &deleted(plan, place));
            compare(group, &question, &inserted(plan, place, named));
            compare(group, &question, &inserted(plan, place, far));
            compare(group, &question, &swapped(plan, place, other));
        }
        for more in [0, 1, 113, 168, 169, 255] {
            compare(group, &question, &[plan, &[more]].concat());
            compare(group, &question, &[plan, &[more, 0, 0]].concat());
        }
        compare(group, &question, &[plan, plan].concat());
    }
}

fn first_bytes(group: &mut Group) {
    for n in 1..=7 {
        for _ in group.times(6) {
            let question = any_question(&mut group.rng, n);
            for byte in 0..=255 {
                compare(group, &question, &[byte]);
                compare(group, &question, &[byte, 0]);
            }
        }
    }
}

/// Every digit but 0 is a known setting, whatever the look rule says.
fn known_settings(group: &mut Group) {
    let stated = ["read a 1 1", "write a 1 1", "read b 1 1", "write b 1 1"];
    for known in ["", "a", "~a", "a b", "~a ~b"] {
        let question = by_hand(2, 1, &stated, "1", known, "1", &[]);
        let [no, yes, look, look_b] = [1, 57, 113, 121];
        let plans: &[&[u8]] = &[
            &[look, 0, 0],
            &[no, look, 0, 0],
            &[yes, look, 0, 0],
            &[look, look, 0, 0, 0],
            &[look, 0, look, 0, 0],
            &[look, no, look, 0, 0, 0],
            &[look, 0, yes, look, 0, 0],
            &[look, yes, 0, no, look],
            &[look_b, look, 0, 0, look, 0, 0],
            &[look_b, look, 0, 0, no, look, 0, 0],
            &[no, yes, no, look_b, 0, 0],
            &[yes, look_b, no, 0, look_b, 0, 0],
        ];
        for plan in plans {
            compare(group, &question, plan);
        }
    }
}

/// Every look is open and no set is; whether all settings were true and whether all were false is to be learnt.
fn looks_alone(n: usize) -> Question {
    let stated: Vec<String> = (0..n).map(|i| format!("read {} 1 1", (b'a' + i as u8) as char)).collect();
    let stated: Vec<&str> = stated.iter().map(String::as_str).collect();
    let all: Vec<String> = (0..n).map(|i| ((b'a' + i as u8) as char).to_string()).collect();
    by_hand(n, 1, &stated, "1", "", "1", &[&all.join("&"), &all.join("|")])
}

fn open_looks(group: &mut Group) {
    for n in 1..=7 {
        let question = looks_alone(n);
        for _ in group.times(4) {
            let plan = all_looks(&mut group.rng, &(0..n).collect::<Vec<_>>());
            expect(group, &question, &plan, Ok(()));
            for place in (0..plan.len()).step_by(1 + plan.len() / 60) {
                let byte = group.rng.one_of(&[0, 113, 121, 129, 137, 145, 153, 161, 255]);
                compare(group, &question, &replaced(&plan, place, byte));
                compare(group, &question, &deleted(&plan, place));
                compare(group, &question, &plan[..place]);
            }
            compare(group, &question, &[&plan[..], &[0]].concat());
        }
    }
}

/// Looks at all these settings, in an order of its own on every branch, then stops.
fn all_looks(rng: &mut Rng, settings: &[usize]) -> Vec<u8> {
    if settings.is_empty() {
        return vec![0];
    }
    let at = rng.below(settings.len());
    let rest = [&settings[..at], &settings[at + 1..]].concat();
    let look = 1 + (2 * 7 + settings[at]) as u8 * 8;
    [vec![look], all_looks(rng, &rest), all_looks(rng, &rest)].concat()
}

/// Setting a may always be set and looked at, and is known to be true; the goal is that it is true. The rules of b and c
/// are surely false or not known, whatever is done to a.
pub fn always() -> Question {
    let stated = ["read a 1 1", "write a 1 1", "read b 1 b", "write b 1 0", "read c 1 b&~b", "write c 1 ~b"];
    by_hand(3, 1, &stated, "1", "a", "a", &[])
}

const NO: u8 = 1;
const YES: u8 = 57;
/// Acts that are not permitted, wherever sets of a lead, and refusal 18's second number where b is held: a look at a, a
/// look at c; a look at b, sets of c; sets of b.
const NEVER_PERMITTED: [(u8, u32); 7] = [(113, 0), (129, 1), (121, 2), (17, 2), (73, 2), (9, 3), (65, 3)];

/// So many sets of a, each to the other value, the last of them to this one; and the question at whose start each of them
/// changes something. Without any, a has the value at the start. Setting b is held.
fn row(last: bool, count: usize) -> (Question, Vec<u8>) {
    let value = |place: usize| last ^ ((count - place) % 2 == 0);
    let sets = (0..count).map(|place| if value(place) { YES } else { NO }).collect();
    let values = u8::from(last ^ (count % 2 == 1));
    (Question { held: 2, values, ..always() }, sets)
}

/// A row that ends in a stop where the goal is settled, so many bytes in all.
fn row_to_stop(length: usize) -> (Question, Vec<u8>) {
    let (question, sets) = row(true, length - 1);
    (question, [sets, vec![0]].concat())
}

/// A row of sets, `place` bytes of it, and then each fault there is, with something after it or not.
fn faults_at(group: &mut Group, place: usize) {
    let last = group.rng.chance(50);
    let (question, sets) = row(last, place);
    let count = if place + 6 < PLAN_MOST { group.rng.below(6) } else { 0 };
    let ending = group.rng.bytes_of(&[NO, YES], count);
    let then = |start: &[u8], byte: u8| [start, &[byte], &ending[..]].concat();
    let refused = |number| Err(Refusal::at(number, place as u32));
    let far = group.rng.one_of(&[2, 25, 58, 114, 168, 169, 255]);
    expect(group, &question, &then(&sets, far), refused(17));
    for (byte, second) in NEVER_PERMITTED {
        let not_permitted = Refusal::at(18, place as u32).with_second(second);
        expect(group, &question, &then(&sets, byte), Err(not_permitted));
    }
    expect(group, &question, &then(&sets, if last { YES } else { NO }), refused(32));
    expect(group, &question, &sets, refused(20));
    let (question, unsettled) = row(false, place);
    expect(group, &question, &then(&unsettled, 0), refused(19));
    if place > 0 {
        let (question, settled) = row_to_stop(place);
        let after = group.rng.byte();
        expect(group, &question, &then(&settled, after), refused(21));
    }
}

fn rows(group: &mut Group) {
    for place in 0..=PLACES {
        faults_at(group, place);
    }
    for _ in group.times(10) {
        let place = group.rng.between(PLACES, PLAN_MOST - 10);
        faults_at(group, place);
    }
}

/// A row of 32,640 bytes is read to its end; one byte more is 16, whatever it holds.
fn longest(group: &mut Group) {
    faults_at(group, PLAN_MOST - 2);
    faults_at(group, PLAN_MOST - 1);
    for length in
        [PLAN_MOST - 1, PLAN_MOST, PLAN_MOST + 1, PLAN_MOST + 2, 33_000, 65_535, 65_536, 65_537, 65_538, 98_176]
    {
        let (question, plan) = row(true, length);
        let all_sets = if length > PLAN_MOST { (16, 0) } else { (20, length as u32) };
        expect(group, &question, &plan, Err(Refusal::at(all_sets.0, all_sets.1)));
        let (question, plan) = row_to_stop(length);
        let expected = if length > PLAN_MOST { Err(Refusal::at(16, 0)) } else { Ok(()) };
        expect(group, &question, &plan, expected);
        for (place, byte) in [(0, 0), (0, 255), (length / 2, 0), (length / 2, 200), (length - 1, 7), (length - 1, 200)]
        {
            compare(group, &question, &replaced(&plan, place, byte));
        }
        compare(group, &Question { team: 0, ..question.clone() }, &plan);
        compare(group, &Question { values: 2, ..question.clone() }, &plan);
        compare(group, &Question { make: vec![], ..question.clone() }, &plan);
        compare(group, &Question { book: vec![0; BLOCK], ..question.clone() }, &plan);
    }
    let wide = by_hand(7, 8, &["write g 8 1", "read a 1 1"], "1 8", "", "g", &[]);
    let (set_g_false, set_g_true) = (1 + 6 * 8 + 7, 1 + (7 + 6) * 8 + 7);
    for length in [PLAN_MOST, PLAN_MOST + 1] {
        let mut plan: Vec<u8> =
            (0..length).map(|at| if (length - at) % 2 == 0 { set_g_true } else { set_g_false }).collect();
        plan[length - 1] = 0;
        expect(group, &wide, &plan, if length > PLAN_MOST { Err(Refusal::at(16, 0)) } else { Ok(()) });
        compare(group, &wide, &replaced(&plan, length / 3, set_g_true));
        compare(group, &wide, &replaced(&plan, length / 3, set_g_false));
    }
}

fn random_bytes(group: &mut Group) {
    for _ in group.times(2_000) {
        let n = group.rng.between(1, 7);
        let question = any_question(&mut group.rng, n);
        let named: Vec<u8> = asked(&question).acts().into_iter().map(|act| act.byte()).chain([0, 0]).collect();
        let length = group.rng.between(0, 12);
        let plan = group.rng.bytes_of(&named, length);
        compare(group, &question, &plan);
        let plan = group.rng.bytes(length);
        compare(group, &question, &plan);
    }
}

/// What is wrong with the question is told before a byte of the plan is read.
fn questions(group: &mut Group) {
    for n in 1..=7 {
        let question = any_question(&mut group.rng, n);
        for block in 0..=n {
            let book = replaced(&question.book, block * BLOCK + 300, 1);
            let unsound = Question { book: repaired(&book), ..question.clone() };
            compare(group, &unsound, &[0]);
            compare(group, &Question { book, ..question.clone() }, &[0]);
        }
    }
    for _ in group.times(3_000) {
        let n = group.rng.between(1, 7);
        let mut question = any_question(&mut group.rng, n);
        let asked = asked(&question);
        let plan = match group.rng.below(4) {
            0 => vec![],
            1 => vec![1; PLAN_MOST + group.rng.below(2)],
            2 => Plan::Stop.bytes(),
            _ => any(&mut group.rng, &asked, &asked.start, 5).bytes(),
        };
        spoil(&mut group.rng, n, &mut question);
        if group.rng.chance(10) {
            let length = group.rng.one_of(&[0, 512, 1_000, 4_608]);
            question.book.resize(length, 0);
        }
        compare(group, &question, &plan);
    }
}
