//! The cases for what "cannot" means for a secret: with nothing to make and one formula to learn, every permitted plan
//! has two starting valuations that agree with what the team knew, give the formula different values, and show the
//! team the same acts and readings to the end. The library's "cannot" is taken at its word, and the two are looked for.

use std::collections::HashMap;

use crate::book::BLOCK;
use crate::finder::{self, Found, Solution};
use crate::finding::{compare, shown_question};
use crate::knowledge::{Act, Knowledge};
use crate::plan::Plan;
use crate::plans::{permitted, permitted_acts, working};
use crate::question::{bits, Asked, Question};
use crate::questions::{any_learn_table, any_question, by_hand};
use crate::report::{shown, Group, Subject};
use crate::rng::Rng;
use crate::run::{run, Trace};
use crate::tables::table;

pub fn test(subject: &mut Subject) {
    subject.group("runs written by hand", runs_by_hand);
    let mut kinds = [0; 4];
    for (n, count) in [(1, 100), (2, 300), (3, 300), (4, 60), (5, 10)] {
        subject.group(&format!("random permitted plans where the answer is \"cannot\", n = {n}"), |group| {
            kept(group, n, count, &mut kinds)
        });
    }
    subject.group("plans that stop, that set, that look, and that do both were among them", |group| {
        for (kind, &count) in kinds.iter().enumerate() {
            group.case(count >= 50, || format!("kind {kind}: {count} plans"));
        }
    });
    subject.group("every permitted plan of few acts where the answer is \"cannot\"", every_plan);
    subject.group("where the answer is \"reach\" a working plan leaves no such two", told_apart);
    subject.group("with something to make, or two formulas, there need be no such two for each", outside);
}

/// Two starting valuations that agree with what the team knew and differ on the formula, with the same trace.
fn two_alike(question: &Question, formula: u128, plan: &Plan) -> Option<(usize, usize)> {
    let n = question.book.len() / BLOCK - 1;
    let mut seen: HashMap<Trace, [Option<usize>; 2]> = HashMap::new();
    for start in (0..1 << n).filter(|start| start & usize::from(question.known) == usize::from(question.values)) {
        let starts = seen.entry(run(plan, start)).or_default();
        starts[(formula >> start & 1) as usize] = Some(start);
        if let [Some(one), Some(other)] = *starts {
            return Some((one, other));
        }
    }
    None
}

fn asked(question: &Question) -> Asked {
    question.read().unwrap_or_else(|refusal| panic!("a sound question was {refusal}"))
}

/// A question with nothing to make and one formula to learn.
fn any_secret(rng: &mut Rng, n: usize) -> Question {
    let make = table(n, u128::MAX).to_vec();
    let learn = any_learn_table(rng, n).to_vec();
    Question { make, learn, ..any_question(rng, n) }
}

/// One that the library and this program both answer with "cannot".
fn cannot(group: &mut Group, n: usize) -> Question {
    loop {
        let question = any_secret(&mut group.rng, n);
        if finder::find(&question).is_ok_and(|solution| solution.found == Found::Cannot) {
            compare(group, &question).ok();
            return question;
        }
    }
}

fn told(question: &Question, plan: &Plan) -> String {
    format!("plan {}, {}", shown(&plan.bytes()), shown_question(question))
}

fn runs_by_hand(group: &mut Group) {
    let asked = asked(&by_hand(2, 1, &["read a 1 1", "write b 1 1", "write a 1 1"], "1", "", "1", &["b"]));
    let [set_b, look_a, clear_a] = [65, 113, 1].map(|byte| Act::of_byte(byte).unwrap());
    let sets_b = Plan::Go(set_b, vec![Plan::Stop]);
    let plan = Plan::Go(look_a, vec![sets_b, Plan::Go(clear_a, vec![Plan::Stop])]);
    group.case(plan.permitted(&asked, &asked.start), || "the plan is not permitted".to_string());
    for (start, trace) in [
        (0b00, vec![(113, Some(false)), (65, None)]),
        (0b10, vec![(113, Some(false)), (65, None)]),
        (0b01, vec![(113, Some(true)), (1, None)]),
        (0b11, vec![(113, Some(true)), (1, None)]),
    ] {
        group.case(run(&plan, start) == trace, || format!("start {start:02b}"));
    }
    let set_then_look = Plan::Go(clear_a, vec![Plan::Go(look_a, vec![Plan::Stop, Plan::Stop])]);
    group
        .case(run(&set_then_look, 0b11) == [(1, None), (113, Some(false))], || "a look reads what was set".to_string());
}

fn kept(group: &mut Group, n: usize, count: usize, kinds: &mut [usize; 4]) {
    for _ in group.times(count) {
        let question = cannot(group, n);
        let before = asked(&question).with_idle_sets();
        let asked = asked(&question);
        for _ in 0..8 {
            let (acts, looks) = (group.rng.between(0, 16), group.rng.between(0, n));
            // a team that does sets which change nothing learns nothing by them either
            let asked = if group.rng.chance(30) { &before } else { &asked };
            let plan = permitted(&mut group.rng, asked, &asked.start, acts, looks);
            let bytes = plan.bytes();
            let sets = bytes.iter().any(|byte| (1..=112).contains(byte));
            let looks = bytes.iter().any(|&byte| byte > 112);
            kinds[usize::from(sets) + 2 * usize::from(looks)] += 1;
            group.case(two_alike(&question, bits(&question.learn), &plan).is_some(), || told(&question, &plan));
        }
    }
}

/// All permitted plans with at most so many acts on a branch.
fn plans_of(asked: &Asked, state: &Knowledge, acts: usize) -> Vec<Plan> {
    let mut plans = vec![Plan::Stop];
    if acts > 0 {
        for act in permitted_acts(asked, state) {
            let mut rows = vec![vec![]];
            for outcome in act.outcomes(state) {
                let next = plans_of(asked, &outcome, acts - 1);
                let longer =
                    |row: Vec<Plan>| next.iter().map(move |plan| [&row[..], std::slice::from_ref(plan)].concat());
                rows = rows.into_iter().flat_map(longer).collect();
            }
            plans.extend(rows.into_iter().map(|row| Plan::Go(act, row)));
        }
    }
    plans
}

fn every_plan(group: &mut Group) {
    for (n, acts) in [(1, 3), (2, 2)] {
        let mut count = 0;
        while count < group.times(25).len() {
            let mut question = any_secret(&mut group.rng, n);
            question.team &= question.team.wrapping_neg(); // its first post alone
            let asked = asked(&question);
            let plans = plans_of(&asked, &asked.start, acts);
            if plans.len() < 4 || finder::find(&question).is_ok_and(|solution| solution.found != Found::Cannot) {
                continue;
            }
            count += 1;
            compare(group, &question).ok();
            for plan in plans {
                group.case(two_alike(&question, bits(&question.learn), &plan).is_some(), || told(&question, &plan));
            }
        }
    }
}

/// The other half, which tests the search for the two: it finds none where the formula is learnt.
fn told_apart(group: &mut Group) {
    let mut count = 0;
    while count < group.times(300).len() {
        let n = group.rng.between(1, 4);
        let question = any_secret(&mut group.rng, n);
        let Ok(Solution { ranks, found: Found::Reach { .. } }) = finder::find(&question) else { continue };
        count += 1;
        let asked = asked(&question);
        let plan = working(&mut group.rng, &asked, &ranks, &asked.start, 2);
        group.case(two_alike(&question, bits(&question.learn), &plan).is_none(), || told(&question, &plan));
    }
}

/// What "cannot" does not say. With something to make, the formula may be learnt and the making fail. Of two formulas
/// each may be learnt, and not both: here a look at either needs the other one set, and then nobody learns its start.
fn outside(group: &mut Group) {
    let [set_a, set_b, look_a, look_b] = [57, 65, 113, 121].map(|byte| Act::of_byte(byte).unwrap());
    let stops = || vec![Plan::Stop, Plan::Stop];
    let make = by_hand(1, 1, &["read a 1 1"], "1", "", "a", &["a"]);
    let either = ["read a 1 b", "read b 1 a", "write a 1 1", "write b 1 1"];
    let either = by_hand(2, 1, &either, "1", "", "1", &["a", "b"]);
    let plans = [
        (&make, 0, Plan::Go(look_a, stops())),
        (&either, 0, Plan::Go(set_b, vec![Plan::Go(look_a, stops())])),
        (&either, 1, Plan::Go(set_a, vec![Plan::Go(look_b, stops())])),
    ];
    for (question, learnt, plan) in plans {
        let found = compare(group, question).map(|solution| solution.found);
        group.case(found.is_ok_and(|found| found == Found::Cannot), || told(question, &plan));
        let asked = asked(question);
        group.case(plan.permitted(&asked, &asked.start), || told(question, &plan));
        for (i, formula) in question.learn.chunks(16).map(bits).enumerate() {
            let alike = two_alike(question, formula, &plan).is_some();
            group.case(alike == (i != learnt), || format!("formula {i}, {}", told(question, &plan)));
        }
    }
}
