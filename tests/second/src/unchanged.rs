//! The cases for request R-9: "Where the team knows the present value, setting that same value is no longer an act." What
//! worked under the rule before it works with such sets left out, no higher; and no finder's answer changes.

use crate::checking::expect as expect_checked;
use crate::finder::{self, NEVER};
use crate::finding;
use crate::knowledge::{Act, Kind, Knowledge};
use crate::plan::{check, Plan};
use crate::plans::{permitted_acts, working};
use crate::question::{Asked, Question};
use crate::questions::any_question;
use crate::report::{shown, Group};
use crate::rng::Rng;

fn asked(question: &Question) -> Asked {
    question.read().unwrap_or_else(|refusal| panic!("a sound question was {refusal}"))
}

/// The plan with sets put in that change nothing, where the rule before R-9 permits one.
fn padded(rng: &mut Rng, before: &Asked, state: &Knowledge, plan: &Plan) -> Plan {
    let idle = |act: &Act| matches!(act.kind, Kind::Set(_)) && act.outcomes(state)[0] == *state;
    let acts: Vec<Act> = permitted_acts(before, state).into_iter().filter(idle).collect();
    if !acts.is_empty() && rng.chance(20) {
        return Plan::Go(rng.one_of(&acts), vec![padded(rng, before, state, plan)]);
    }
    match plan {
        Plan::Stop => Plan::Stop,
        Plan::Go(act, plans) => {
            let branches = act.outcomes(state).into_iter().zip(plans);
            Plan::Go(*act, branches.map(|(outcome, plan)| padded(rng, before, &outcome, plan)).collect())
        }
    }
}

/// A plan that works under the rule before: with such sets left out it is accepted and no higher. As it is, it is accepted
/// where it has none, and else refused with 32 at the first of them.
pub fn left_out(group: &mut Group) {
    let (mut idle, mut none) = (0, 0);
    while idle < group.times(600).len() || none < group.times(200).len() {
        let n = group.rng.between(1, 4);
        let question = any_question(&mut group.rng, n);
        let before = asked(&question).with_idle_sets();
        let ranks = finder::ranks(&before);
        if ranks[before.start.number()] == NEVER {
            continue;
        }
        let detours = group.rng.below(4);
        let plan = working(&mut group.rng, &before, &ranks, &before.start, detours);
        let plan = if group.rng.chance(70) { padded(&mut group.rng, &before, &before.start, &plan) } else { plan };
        let less = plan.without_idle(&before.start);
        let (bytes, fewer) = (plan.bytes(), less.bytes());
        let works = plan.permitted(&before, &before.start) && plan.settles(&before, &before.start);
        let now = asked(&question);
        let still = less.permitted(&now, &now.start) && less.settles(&now, &now.start);
        let right = works && still && less.height() <= plan.height() && fewer.len() <= bytes.len();
        group.case(right, || format!("{} and {} {}", shown(&bytes), shown(&fewer), finding::shown_question(&question)));
        expect_checked(group, &question, &fewer, Ok(()));
        let told = check(&question, &bytes);
        let as_said = match told {
            Ok(()) => bytes == fewer,
            Err(refusal) => {
                let place = refusal.place as usize;
                refusal.number == 32 && bytes[..place] == fewer[..place] && bytes[place] != fewer[place]
            }
        };
        group.case(as_said, || format!("this program's own check of {}", shown(&bytes)));
        expect_checked(group, &question, &bytes, told);
        *(if bytes == fewer { &mut none } else { &mut idle }) += 1;
    }
}

/// All ranks, the answer and the plan written under the rule before, from this program's own finder, are the library's.
pub fn same_answers(group: &mut Group) {
    for (n, count) in [(1, 300), (2, 300), (3, 200), (4, 40), (5, 6)] {
        for _ in group.times(count) {
            let question = any_question(&mut group.rng, n);
            let (before, now) = (finder::solve(&asked(&question).with_idle_sets()), finder::solve(&asked(&question)));
            group.case(before == now, || finding::shown_question(&question));
            finding::compare_with(group, &question, Ok(before)).ok();
        }
    }
}
