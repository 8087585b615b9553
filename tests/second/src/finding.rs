//! The cases for the finder: every result, all ranks, the plan and every other lent byte are compared with `finder.rs`.

use std::collections::{BTreeSet, HashMap};

use crate::book::BLOCK;
use crate::books::{repaired, written};
use crate::damage::replaced;
use crate::fast;
use crate::ffi;
use crate::finder::{self, Found, Solution, NEVER};
use crate::knowledge::{judgement, known_to_hold, learnt, Act, Judgement, Kind, Knowledge, DIGITS};
use crate::plan::PLAN_MOST;
use crate::question::{bits, Question};
use crate::questions::{any_held, any_letters, any_question, by_hand, climb, plain_letters, spoilt_climb};
use crate::refusal::{told, Refusal};
use crate::report::{shown, sparse, Group, Subject};
use crate::rng::Rng;
use crate::room::Room;
use crate::tables::{any_rights, any_table};
use crate::unchanged;

/// How many random questions of each n from 1 to 7. At n = 7 a question has 823,543 ranks.
const QUESTIONS: [usize; 7] = [1_000, 1_500, 1_000, 300, 60, 12, 4];

pub fn test(subject: &mut Subject) {
    subject.group("this program's own rules of knowledge", own_knowledge);
    subject.group("this program's own ranks against plans tried forwards", own_ranks);
    subject.group("this program's own finder against the quick one", own_finders);
    subject.group("marked examples P6 to P9, P11 and P12, and those run by a program", marked);
    let mut seen = Seen::default();
    for n in 1..=7 {
        subject.group(&format!("random questions, n = {n}"), |group| random(group, n, &mut seen));
    }
    subject.group("\"cannot\", heights 0 to 6 and ranks 0 to 30 came out of them", |group| {
        for height in (0..=6).chain([finder::NEVER]) {
            group.case(seen.heights.contains(&height), || format!("no height {height}"));
        }
        for rank in (0..=30).chain([finder::NEVER]) {
            group.case(seen.ranks.contains(&rank), || format!("no rank {rank}"));
        }
    });
    subject.group("the greatest rank there is, for each n", greatest);
    subject.group("near the greatest rank", near_greatest);
    subject.group("rank tables and plan rooms of every length near the limit", rooms);
    subject.group("every team of every m", teams);
    subject.group("every set of known settings, and every set of values", starts);
    subject.group("every set of held settings", held);
    subject.group("more held never reaches more, nor sooner", more_held);
    subject.group("answers, ranks and plans as before sets that change nothing were none", unchanged::same_answers);
    subject.group("goal tables of wrong lengths, or with a bit past 2^n", goals);
    subject.group("damaged books", books);
    subject.group("several faults at once", faults);
    for number in [6, 8, 10, 11, 12, 13, 14, 31] {
        subject.must_reach(number, 0..=0);
    }
    subject.must_reach(7, 0..=7);
    subject.must_reach(9, 1..=7);
}

fn ranks_of(n: usize) -> usize {
    7usize.pow(n as u32)
}

/// One case, in rooms that are long enough.
pub fn compare(group: &mut Group, question: &Question) -> Result<Solution, Refusal> {
    compare_with(group, question, finder::find(question))
}

/// The same with this solution in hand.
pub fn compare_with(
    group: &mut Group,
    question: &Question,
    solution: Result<Solution, Refusal>,
) -> Result<Solution, Refusal> {
    let (rank_room, plan_room) = match &solution {
        Ok(Solution { ranks, found: Found::Reach { plan, .. } }) => (ranks.len(), plan.len()),
        Ok(Solution { ranks, found: Found::Cannot }) => (ranks.len(), 0),
        Err(_) => (ranks_of(question.book.len().div_ceil(BLOCK).clamp(2, 4) - 1), 20),
    };
    let (beyond_ranks, beyond_plan) = (group.rng.one_of(&[0, 1, 40]), group.rng.one_of(&[0, 1, 40]));
    expect(group, question, rank_room + beyond_ranks, plan_room + beyond_plan, &solution);
    solution
}

/// After success, "cannot" or 14 the first 7^n bytes of the rank table hold all ranks. A success writes the plan's
/// bytes into the plan room. Nothing else is touched.
fn expect(
    group: &mut Group,
    question: &Question,
    rank_room: usize,
    plan_room: usize,
    solution: &Result<Solution, Refusal>,
) {
    let mut book = Room::holding(&question.book, &[0, 1, 255], &mut group.rng);
    let mut make = Room::holding(&question.make, &[0, 1, 255], &mut group.rng);
    let mut learn = Room::holding(&question.learn, &[0, 1, 255], &mut group.rng);
    let mut ranks = Room::of(rank_room, &mut group.rng);
    let mut plan = Room::of(plan_room, &mut group.rng);
    let (mut ranks_left, mut plan_left) = (ranks.lent_before().to_vec(), plan.lent_before().to_vec());
    let masks = [question.team, question.known, question.values, question.held];
    let word = ffi::find(&mut book, masks, &mut make, &mut learn, &mut ranks, &mut plan);
    let only_read = book.untouched() && make.untouched() && learn.untouched();
    let plain = ffi::find_plain(&mut book, masks, &mut make, &mut learn);
    let plain_read = book.untouched() && make.untouched() && learn.untouched();

    let expected = match solution {
        Ok(solution) => solution.in_rooms(rank_room, plan_room),
        Err(refusal) => Err(*refusal),
    };
    let ranks_told = expected.err().is_none_or(|refusal| refusal.number == 14);
    if let (Ok(solution), true) = (solution, ranks_told) {
        ranks_left[..solution.ranks.len()].copy_from_slice(&solution.ranks);
    }
    let expected_word = match expected {
        Ok(Found::Reach { height, plan }) => {
            plan_left[..plan.len()].copy_from_slice(plan);
            u64::from(*height) << 16 | plan.len() as u64
        }
        Ok(Found::Cannot) => 0,
        Err(refusal) => refusal.word(),
    };
    let plain_word = match solution {
        Ok(Solution { found: Found::Reach { height, .. }, .. }) => u64::from(*height) + 1,
        Ok(Solution { found: Found::Cannot, .. }) => 0,
        Err(refusal) => refusal.word(),
    };
    let bounded = solution.as_ref().map_or(true, |solution| within_bounds(solution));
    let right = bounded && word == expected_word && ranks.holds(&ranks_left) && plan.holds(&plan_left) && only_read;
    group.case(plain == plain_word && plain_read, || {
        let more = if plain_read { "" } else { ", and something was written" };
        format!(
            "{}, by the plain finder\n        expected {}\n        got      {}{more}",
            shown_question(question),
            told_plain(plain_word),
            told_plain(plain),
        )
    });
    group.case(right, || {
        let mut more = String::new();
        if let Some(k) = (0..rank_room).find(|&k| ranks.lent()[k] != ranks_left[k]) {
            more += &format!("\n        rank {k} is {} and not {}", ranks.lent()[k], ranks_left[k]);
        }
        if plan.lent() != plan_left {
            more += &format!("\n        plan room {}\n        and not   {}", shown(plan.lent()), shown(&plan_left));
        }
        if !(only_read && ranks.holds(ranks.lent()) && plan.holds(plan.lent())) {
            more += "\n        more was written";
        }
        format!(
            "{}, rank table of {rank_room}, plan room of {plan_room}\n        expected {}\n        got      {}{more}",
            shown_question(question),
            told_find(expected_word),
            told_find(word),
        )
    });
    group.came_to(expected);
}

/// A rank that is not 255 is at most 2^(n+1) - 2, and no plan that is written is longer than one that may be checked.
fn within_bounds(solution: &Solution) -> bool {
    let settings = (1..=7).find(|&n| ranks_of(n) == solution.ranks.len());
    let most = settings.map_or(0, |n| (1 << (n + 1)) - 2);
    let short = match &solution.found {
        Found::Reach { plan, .. } => plan.len() <= PLAN_MOST,
        Found::Cannot => true,
    };
    short && solution.ranks.iter().all(|&rank| rank == NEVER || u32::from(rank) <= most)
}

pub fn shown_question(question: &Question) -> String {
    format!(
        "team {:08b}, known {:08b}, values {:08b}, held {:08b}, make {}, learn {}, book {}",
        question.team,
        question.known,
        question.values,
        question.held,
        sparse(&question.make),
        sparse(&question.learn),
        sparse(&question.book)
    )
}

fn told_find(word: u64) -> String {
    match word {
        0 => "cannot".to_string(),
        _ if word >> 32 == 0 => format!("reach {} with a plan of {} bytes", word >> 16, word & 0xffff),
        _ => told(word),
    }
}

fn told_plain(word: u64) -> String {
    match word {
        0 => "cannot".to_string(),
        _ if word >> 32 == 0 => format!("reach {}", word - 1),
        _ => told(word),
    }
}

/// The paper's table, its columns for sets too, and each judgement against its words, one valuation at a time.
fn own_knowledge(group: &mut Group) {
    let after_sets = [[1, 2], [1, 2], [1, 2], [3, 4], [3, 4], [5, 6], [5, 6]];
    for n in 1..=3 {
        for number in 0..ranks_of(n) {
            let state = Knowledge::of_number(n, number);
            group.case(state.number() == number, || format!("n {n}, state {number}"));
            for setting in 0..n {
                let place = 7usize.pow(setting as u32);
                let digit = number / place % 7;
                for value in [false, true] {
                    let act = Act { kind: Kind::Set(value), setting, post: 0 };
                    let after = number - digit * place + after_sets[digit][usize::from(value)] * place;
                    let right = act.outcomes(&state) == [Knowledge::of_number(n, after)];
                    group.case(right, || format!("n {n}, state {number}, set {setting} {value}"));
                }
                if digit == 0 {
                    let act = Act { kind: Kind::Look, setting, post: 0 };
                    let right =
                        act.outcomes(&state) == [3, 6].map(|seen| Knowledge::of_number(n, number + seen * place));
                    group.case(right, || format!("n {n}, state {number}, look {setting}"));
                }
            }
            let rule = bits(&any_table(&mut group.rng, n));
            let agrees = |v: usize, i: usize, value: Option<bool>| value.is_none_or(|value| (v >> i & 1 == 1) == value);
            let fits = |v: &usize, start: bool| {
                (0..n).all(|i| {
                    let known = state.of_setting(i);
                    agrees(*v, i, if start { known.start } else { known.now })
                })
            };
            let values = |start| (0..1 << n).filter(|v| fits(v, start)).map(|v| rule >> v & 1).collect::<BTreeSet<_>>();
            let told = |values: &BTreeSet<u128>| match (values.contains(&1), values.contains(&0)) {
                (true, false) => Judgement::TrueAtAll,
                (false, true) => Judgement::FalseAtAll,
                _ => Judgement::Neither,
            };
            let (present, start) = (values(false), values(true));
            let right = judgement(rule, state.presents()) == told(&present)
                && judgement(rule, state.starts()) == told(&start)
                && known_to_hold(rule, state.presents()) == !present.contains(&0)
                && learnt(rule, state.starts()) == (start.len() == 1);
            group.case(right, || format!("n {n}, state {number}, rule {rule:x}"));
        }
    }
    let acts: Vec<Act> = (0..=255).filter_map(Act::of_byte).collect();
    group.case(acts.len() == 168, || "the acts' bytes are not 1 to 168".to_string());
    for (i, act) in acts.iter().enumerate() {
        group.case(usize::from(act.byte()) == i + 1, || format!("{act:?}"));
    }
    let by_hand = [
        (130, Kind::Look, 2, 1),
        (58, Kind::Set(true), 0, 1),
        (65, Kind::Set(true), 1, 0),
        (18, Kind::Set(false), 2, 1),
    ];
    for (byte, kind, setting, post) in by_hand {
        group.case(Act::of_byte(byte) == Some(Act { kind, setting, post }), || format!("act {byte}"));
    }
    group.case(DIGITS[0] == Knowledge::at_start(1, 0, 0).of_setting(0), || "digit 0".to_string());
}

fn own_ranks(group: &mut Group) {
    for _ in group.times(60) {
        for n in [1, 1, 2, 2, 3] {
            let question = any_question(&mut group.rng, n);
            let asked = question.read().unwrap_or_else(|refusal| panic!("a sound question was {refusal}"));
            let mut tried = HashMap::new();
            for (number, &rank) in finder::ranks(&asked).iter().enumerate() {
                let state = Knowledge::of_number(n, number);
                let mut heights = 0..=(2 << n) - 2;
                let least = heights.find(|&height| finder::works_within(&asked, &state, height, &mut tried));
                let right = least.unwrap_or(usize::from(finder::NEVER)) == usize::from(rank);
                group.case(right, || format!("state {number}, {}", shown_question(&question)));
            }
        }
    }
}

fn own_finders(group: &mut Group) {
    for (n, count) in [(1, 300), (2, 600), (3, 400), (4, 200), (5, 40), (6, 4), (7, 1)] {
        for _ in group.times(count) {
            let question = any_question(&mut group.rng, n);
            let Ok(solution) = finder::find(&question) else { panic!("a sound question was refused") };
            let length = if let Found::Reach { plan, .. } = &solution.found { plan.len() } else { 0 };
            for (rank_room, plan_room) in [(ranks_of(n), length), (ranks_of(n), length / 2), (ranks_of(n) - 1, length)]
            {
                let (mut ranks, mut plan) = (vec![77; rank_room], vec![88; plan_room]);
                let Question { book, team, known, values, held, make, learn } = &question;
                let word = fast::find(book, *team, *known, *values, *held, make, learn, &mut ranks, &mut plan);
                let right = match solution.in_rooms(rank_room, plan_room) {
                    Ok(Found::Reach { height, plan: bytes }) => {
                        plan == *bytes && word == u64::from(*height) << 16 | bytes.len() as u64
                    }
                    Ok(Found::Cannot) => word == 0,
                    Err(refusal) => word == refusal.word() && plan.iter().all(|&byte| byte == 88),
                };
                let told = if rank_room < ranks_of(n) { vec![77; rank_room] } else { solution.ranks.clone() };
                group.case(right && ranks == told, || shown_question(&question));
            }
        }
    }
    for _ in group.times(1_000) {
        let n = group.rng.between(1, 3);
        let mut question = any_question(&mut group.rng, n);
        spoil(&mut group.rng, n, &mut question);
        let Question { book, team, known, values, held, make, learn } = &question;
        let word =
            fast::find(book, *team, *known, *values, *held, make, learn, &mut vec![0; ranks_of(n)], &mut [0; 1_000]);
        let right = match finder::find(&question) {
            Ok(_) => word >> 32 == 0,
            Err(refusal) => word == refusal.word(),
        };
        group.case(right, || shown_question(&question));
    }
}

const P6: &[&str] = &["write a 2 ~c", "write b 1 a", "read c 2 1", "write c 2 c"];

/// Looks that P6 says nothing of are open (request R-2).
const OPEN: &[&str] = &["read a 1 1", "read a 2 1", "read b 1 1", "read b 2 1", "read c 1 1"];

/// Answers from paper 01 and request R-2: they check the library and this program's own finder.
fn marked(group: &mut Group) {
    let reach = |height, plan: &[u8]| Found::Reach { height, plan: plan.to_vec() };
    let open = [P6, OPEN].concat();
    let p6 = by_hand(3, 2, &open, "1 2", "", "b", &[]);
    let p6_plan = [129, 58, 65, 0, 18, 58, 65, 0];
    let p8_plan = [113, 129, 58, 65, 0, 18, 58, 65, 0, 65, 0];
    let without_read = [&P6[..2], &P6[3..], OPEN, &["read c 2 1"]].concat();
    let stored_plan = [130, 58, 65, 0, 18, 58, 65, 0];
    let stored_without_read = [&P6[..2], &P6[3..]].concat();
    let both_ways = &["read a 1 1", "write a 1 1"];
    let marked: &[(&str, Question, Found)] = &[
        ("P6", p6.clone(), reach(4, &p6_plan)),
        ("P7", by_hand(3, 2, &open, "1", "", "b", &[]), Found::Cannot),
        ("P8 with ask a", by_hand(3, 2, &open, "1 2", "", "b", &["a"]), reach(5, &p8_plan)),
        ("P8 with ask c", by_hand(3, 2, &open, "1 2", "", "b", &["c"]), reach(4, &p6_plan)),
        ("P9", by_hand(1, 1, both_ways, "1", "", "~a", &["a"]), reach(2, &[113, 0, 1, 0])),
        ("P11", by_hand(2, 1, &["write a 1 b|~b"], "1", "", "a", &[]), reach(1, &[57, 0])),
        ("P12", by_hand(2, 1, &[], "1", "~a", "1", &["a&b"]), reach(0, &[0])),
        ("P6 without its read line", by_hand(3, 2, &without_read, "1 2", "", "b", &[]), reach(4, &p6_plan)),
        ("P6, a stored book", by_hand(3, 2, P6, "1 2", "", "b", &[]), reach(4, &stored_plan)),
        ("P7, a stored book", by_hand(3, 2, P6, "1", "", "b", &[]), Found::Cannot),
        ("P8 with ask a, a stored book", by_hand(3, 2, P6, "1 2", "", "b", &["a"]), Found::Cannot),
        ("P8 with ask c, a stored book", by_hand(3, 2, P6, "1 2", "", "b", &["c"]), reach(4, &stored_plan)),
        (
            "P6 without its read line, a stored book",
            by_hand(3, 2, &stored_without_read, "1 2", "", "b", &[]),
            Found::Cannot,
        ),
    ];
    for (name, question, found) in marked {
        let solution = finder::find(question);
        let own = solution.as_ref().is_ok_and(|solution| solution.found == *found);
        group.case(own, || format!("this program's own finder on {name}"));
        compare(group, question).ok();
    }
    let p6_solution = finder::find(&p6);
    for (plan_room, refused) in [(7, true), (8, false)] {
        let word = p6_solution.as_ref().ok().map(|solution| solution.in_rooms(343, plan_room).is_err());
        group.case(word == Some(refused), || format!("this program's own finder on P6 in {plan_room} bytes"));
        expect(group, &p6, 343, plan_room, &p6_solution);
    }
    let two = by_hand(2, 1, &["write a 1 b|~b"], "1", "", "a", &[]);
    let two_solution = finder::find(&two);
    for (rank_room, refused) in [(48, true), (49, false)] {
        let word = two_solution.as_ref().ok().map(|solution| solution.in_rooms(rank_room, 2).is_err());
        group.case(word == Some(refused), || format!("this program's own finder in a rank table of {rank_room}"));
        expect(group, &two, rank_room, 2, &two_solution);
    }
}

/// What came out of random questions: heights, 255 for "cannot", and ranks of any states.
#[derive(Default)]
struct Seen {
    heights: BTreeSet<u8>,
    ranks: BTreeSet<u8>,
}

fn random(group: &mut Group, n: usize, seen: &mut Seen) {
    for _ in group.times(QUESTIONS[n - 1]) {
        let question = any_question(&mut group.rng, n);
        if let Ok(Solution { ranks, found }) = compare(group, &question) {
            seen.heights.insert(if let Found::Reach { height, .. } = found { height } else { finder::NEVER });
            seen.ranks.extend(ranks);
        }
    }
}

/// 2, 6, 14, 30, 62, 126 and 254 acts, under the plain letters and, for small n, under others too.
fn greatest(group: &mut Group) {
    for (n, greatest) in [(1, 2), (2, 6), (3, 14), (4, 30), (5, 62), (6, 126), (7, 254)] {
        for turn in 0..if n <= 5 { 6 } else { 1 } {
            let (letters, m) = match turn {
                0 => (plain_letters(n), 1),
                _ => (any_letters(&mut group.rng, n), group.rng.between(1, 8)),
            };
            let question = climb(&mut group.rng, &letters, m);
            let solution = compare(group, &question);
            let reached = solution
                .is_ok_and(|solution| matches!(solution.found, Found::Reach { height, .. } if height == greatest));
            group.case(reached, || format!("n {n} does not have the height {greatest}"));
        }
    }
}

fn near_greatest(group: &mut Group) {
    for (n, count) in [(2, 100), (3, 200), (4, 100), (5, 25)] {
        for _ in group.times(count) {
            let question = spoilt_climb(&mut group.rng, n);
            compare(group, &question).ok();
        }
    }
}

fn rooms(group: &mut Group) {
    for n in 1..=7 {
        let question = any_question(&mut group.rng, n);
        let solution = finder::find(&question);
        let need = ranks_of(n);
        let short =
            [0, 1, 48, 49, 255, 256, need / 7, need / 2, need - 2, need - 1].into_iter().filter(|&room| room < need);
        let enough = if n <= 5 { need..need + 4 } else { need..need };
        for rank_room in short.chain(enough) {
            expect(group, &question, rank_room, 40, &solution);
        }
    }
    let mut plans = 0;
    while plans < 60 {
        let n = group.rng.one_of(&[1, 2, 3, 3, 3, 4, 4]);
        let question = any_question(&mut group.rng, n);
        let solution = finder::find(&question);
        let Ok(Solution { found: Found::Reach { plan, .. }, .. }) = &solution else { continue };
        if plan.len() < 3 {
            continue;
        }
        plans += 1;
        for plan_room in [0, 1, plan.len() / 2, plan.len() - 2, plan.len() - 1, plan.len(), plan.len() + 1] {
            expect(group, &question, ranks_of(n) + 3, plan_room, &solution);
            expect(group, &question, ranks_of(n) - 1, plan_room, &solution);
        }
    }
    for n in 5..=7 {
        let question = climb(&mut group.rng, &plain_letters(n), 1);
        let solution = finder::find(&question);
        if let Ok(Solution { found: Found::Reach { plan, .. }, .. }) = &solution {
            for plan_room in [plan.len() - 1, plan.len()] {
                expect(group, &question, ranks_of(n) + 9, plan_room, &solution);
            }
        }
    }
}

fn teams(group: &mut Group) {
    for m in 1..=8 {
        let rights = any_rights(&mut group.rng, 2, m);
        let mut question = any_question(&mut group.rng, 2);
        question.book = written(2, m, &rights);
        for team in 0..=255 {
            question.team = team;
            compare(group, &question).ok();
        }
    }
}

fn starts(group: &mut Group) {
    for n in 1..=4 {
        let question = any_question(&mut group.rng, n);
        for known in 0..=255u8 {
            let below = known & (u8::MAX >> (8 - n));
            let any = group.rng.byte();
            for (known, values) in
                [(known, known), (known, 0), (known, known & any), (known, any), (below, known), (below, below & any)]
            {
                compare(group, &Question { known, values, ..question.clone() }).ok();
            }
        }
    }
    for n in 5..=7 {
        let question = any_question(&mut group.rng, n);
        for (known, values) in [(128, 0), (255, 0), (1 << (n % 8), 0), (0, 1), (1, 2), (0, 64), (0, 128)] {
            if n < 7 || known >> 7 & 1 == 1 || values & !known != 0 {
                compare(group, &Question { known, values, ..question.clone() }).ok();
            }
        }
    }
}

/// Every mask, also with settings past n, at which 31 comes after 11 and before 12.
fn held(group: &mut Group) {
    for n in 1..=4 {
        for _ in group.times(2) {
            let question = any_question(&mut group.rng, n);
            for held in 0..=255u8 {
                compare(group, &Question { held, ..question.clone() }).ok();
            }
        }
    }
    for n in 1..=7 {
        let question = any_question(&mut group.rng, n);
        for held in [128, 255, 1u8 << n] {
            let expected = |number| Err(Refusal::at(number, 0));
            let past = Question { held, ..question.clone() };
            for (question, number) in [
                (past.clone(), 31),
                (Question { team: 0, ..past.clone() }, 10),
                (Question { known: 128, ..past.clone() }, 11),
                (Question { make: vec![], ..past.clone() }, 31),
            ] {
                let solution = finder::find(&question);
                let told = solution.as_ref().err().copied();
                group.case(told == Some(Refusal::at(number, 0)), || {
                    format!("this program's own refusal of {}, and not {number}", shown_question(&question))
                });
                expect(group, &question, ranks_of(n), 20, &expected(number));
            }
        }
    }
}

/// This program's own finder: holding more never turns "cannot" into "reach", and never lowers a rank.
fn more_held(group: &mut Group) {
    for _ in group.times(300) {
        let n = group.rng.between(1, 4);
        let less = any_question(&mut group.rng, n);
        let more = Question { held: less.held | any_held(&mut group.rng, n), ..less.clone() };
        let (Ok(one), Ok(other)) = (compare(group, &less), compare(group, &more)) else { continue };
        let lower = one.ranks.iter().zip(&other.ranks).any(|(one, other)| other < one);
        group.case(!lower, || format!("a rank is lower with held {:08b}: {}", more.held, shown_question(&less)));
    }
}

fn goals(group: &mut Group) {
    for n in 1..=4 {
        let question = any_question(&mut group.rng, n);
        for length in (0..=40).chain([63, 64, 65, 80, 96, 128, 256, 65_536, 65_536 + 16]) {
            let zeros = vec![0; length];
            compare(group, &Question { make: zeros.clone(), ..question.clone() }).ok();
            compare(group, &Question { learn: zeros, ..question.clone() }).ok();
        }
        for count in 0..=6 {
            let learn: Vec<u8> = (0..count).flat_map(|_| any_table(&mut group.rng, n)).collect();
            compare(group, &Question { learn, ..question.clone() }).ok();
        }
        for bit in 0..128 {
            let turned = |table: &[u8]| {
                let mut table = table.to_vec();
                table[bit / 8] ^= 1 << (bit % 8);
                table
            };
            compare(group, &Question { make: turned(&question.make), ..question.clone() }).ok();
            let count = group.rng.between(1, 4);
            let at = group.rng.below(count);
            let tables: Vec<_> = (0..count).map(|_| any_table(&mut group.rng, n)).collect();
            let learn =
                (0..count).flat_map(|i| if i == at { turned(&tables[i]) } else { tables[i].to_vec() }).collect();
            compare(group, &Question { learn, ..question.clone() }).ok();
        }
    }
    for n in 5..=6 {
        let question = any_question(&mut group.rng, n);
        for byte in (1 << n) / 8..16 {
            let mut make = question.make.clone();
            make[byte] |= 1 << group.rng.below(8);
            compare(group, &Question { make, ..question.clone() }).ok();
        }
    }
}

/// Whatever is wrong with the book, it is told before anything else is looked at.
fn books(group: &mut Group) {
    for n in 1..=7 {
        let question = any_question(&mut group.rng, n);
        for block in 0..=n {
            let book = replaced(&question.book, block * BLOCK + 300, 1);
            let unsound = Question { book: repaired(&book), ..question.clone() };
            compare(group, &unsound).ok();
            compare(group, &Question { book, ..question.clone() }).ok();
        }
    }
    for _ in group.times(1_500) {
        let n = group.rng.one_of(&[1, 2, 2, 3, 4, 5, 6, 7]);
        let mut question = any_question(&mut group.rng, n);
        let book = &mut question.book;
        let block = group.rng.between(0, n);
        match group.rng.below(5) {
            0 => {
                let length =
                    group.rng.one_of(&[0, 1, 511, 512, 513, 1_023, 1_025, 4_608, book.len() - 1, book.len() - 512]);
                book.resize(length, 0);
            }
            1 => book[block * BLOCK + group.rng.below(BLOCK)] ^= 1 << group.rng.below(8),
            2 => {
                book[group.rng.one_of(&[0, 1, 2, 3, 255, 507])] ^= 1 << group.rng.below(8);
                *book = repaired(book);
            }
            _ => {
                book[block.max(1) * BLOCK + group.rng.between(256, 507)] ^= 1 << group.rng.below(8);
                *book = repaired(book);
            }
        }
        if n <= 3 || question.read().is_err() {
            compare(group, &question).ok();
        }
    }
}

/// Each fault of a question is there or not.
fn faults(group: &mut Group) {
    for _ in group.times(3_000) {
        let n = group.rng.between(1, 3);
        let mut question = any_question(&mut group.rng, n);
        spoil(&mut group.rng, n, &mut question);
        let solution = finder::find(&question);
        let rank_room = ranks_of(n) - group.rng.one_of(&[0, 0, 0, 1]);
        let plan_room = group.rng.one_of(&[0, 1, 2, 100]);
        expect(group, &question, rank_room, plan_room, &solution);
    }
}

/// Now and then something of the question that is refused.
pub fn spoil(rng: &mut Rng, n: usize, question: &mut Question) {
    if rng.chance(15) {
        question.team = rng.one_of(&[0, 128, 255]);
    }
    if rng.chance(15) {
        question.known = rng.byte();
    }
    if rng.chance(10) {
        question.values = rng.byte();
    }
    if rng.chance(15) {
        question.held = rng.byte();
    }
    if rng.chance(15) {
        let length = rng.one_of(&[0, 15, 17, 32]);
        question.make.resize(length, 0);
    }
    if rng.chance(15) {
        let length = rng.one_of(&[15, 17, 65, 80]);
        question.learn.resize(length, 0);
    }
    if rng.chance(10) && !question.make.is_empty() && n < 7 {
        *question.make.last_mut().unwrap() |= 128;
    }
    if rng.chance(15) {
        let place = rng.below(question.book.len());
        question.book[place] ^= 1 << rng.below(8);
        if rng.chance(70) {
            question.book = repaired(&question.book);
        }
    }
}
