//! The finder, from paper 01 alone: ranks, the plan written, and refusals 13 and 14.
//!
//! Ranks are not pushed from the goal. No act makes a known setting unknown or a start known that was not, but by a
//! look; so the states with the same unknown settings and the same start knowledge are a class of their own, which an
//! act leaves only for a class with one setting less unknown. Classes are worked from those that know most, each by
//! asking its states again and again until nothing gets lower.

use std::collections::HashMap;

use crate::knowledge::{Act, Knowledge, KINDS};
use crate::question::{Asked, Question};
use crate::refusal::{refusal, Refusal};

/// The rank where no plan works.
pub const NEVER: u8 = 255;

#[derive(Clone, PartialEq, Eq)]
pub enum Found {
    Reach { height: u8, plan: Vec<u8> },
    Cannot,
}

/// What there is to tell of a sound question: the ranks of all knowledge numbers, and the answer.
#[derive(Clone, PartialEq, Eq)]
pub struct Solution {
    pub ranks: Vec<u8>,
    pub found: Found,
}

/// Or one of the question's refusals, 6 to 12 and 31.
pub fn find(question: &Question) -> Result<Solution, Refusal> {
    question.read().map(|asked| solve(&asked))
}

pub fn solve(asked: &Asked) -> Solution {
    let ranks = ranks(asked);
    let found = match ranks[asked.start.number()] {
        NEVER => Found::Cannot,
        height => {
            let mut plan = Vec::new();
            write(asked, &ranks, &asked.start, &mut plan);
            Found::Reach { height, plan }
        }
    };
    Solution { ranks, found }
}

impl Solution {
    /// 13 where the rank table is too short for all ranks, then 14 where the plan is longer than its room.
    pub fn in_rooms(&self, rank_room: usize, plan_room: usize) -> Result<&Found, Refusal> {
        match &self.found {
            _ if rank_room < self.ranks.len() => refusal(13, 0),
            Found::Reach { plan, .. } if plan.len() > plan_room => refusal(14, 0),
            found => Ok(found),
        }
    }
}

/// At every state the smallest act byte whose outcomes all have a rank lower than the state's; a stop at rank 0.
pub fn write(asked: &Asked, ranks: &[u8], knowledge: &Knowledge, plan: &mut Vec<u8>) {
    let rank = ranks[knowledge.number()];
    if rank == 0 {
        plan.push(0);
        return;
    }
    let lower = |act: &Act| act.outcomes(knowledge).iter().all(|outcome| ranks[outcome.number()] < rank);
    let acts = asked.acts().into_iter().filter(|&act| asked.permits(knowledge, act));
    let act = acts.into_iter().find(lower).expect("a rank with no act below it");
    plan.push(act.byte());
    for outcome in act.outcomes(knowledge) {
        write(asked, ranks, &outcome, plan);
    }
}

/// The ranks of all knowledge numbers.
pub fn ranks(asked: &Asked) -> Vec<u8> {
    ranks_where(asked, |state| asked.settled(state))
}

/// The same for a goal that is settled where this says: the question's team, rights and held settings alone count.
pub fn ranks_where(asked: &Asked, settled: impl Fn(&Knowledge) -> bool) -> Vec<u8> {
    let n = asked.n;
    let mut ranks = vec![NEVER; 7usize.pow(n as u32)];
    let mut classes: Vec<usize> = (0..4usize.pow(n as u32)).collect();
    classes.sort_by_key(|&class| kinds(n, class).iter().filter(|&&kind| kind == 0).count());
    for class in classes {
        work(asked, &settled, &kinds(n, class), &mut ranks);
    }
    ranks
}

/// For each setting: 0 unknown, or now known with the start unknown (1), false (2) or true (3).
fn kinds(n: usize, class: usize) -> Vec<usize> {
    (0..n).map(|i| class >> (2 * i) & 3).collect()
}

/// Works one class: its states, by the present values of its known settings.
fn work(asked: &Asked, settled: impl Fn(&Knowledge) -> bool, kinds: &[usize], ranks: &mut [u8]) {
    let mut states = vec![vec![]];
    for &kind in kinds {
        let digits: &[usize] = [&[0][..], &[1, 2], &[3, 4], &[5, 6]][kind];
        let longer = |state: Vec<usize>| digits.iter().map(move |&digit| [&state[..], &[digit]].concat());
        states = states.into_iter().flat_map(longer).collect();
    }
    let mut open = Vec::new();
    for state in states.iter().map(|digits| Knowledge::of_digits(digits)) {
        if settled(&state) {
            ranks[state.number()] = 0;
        } else {
            open.push((state.number(), choices(asked, &state)));
        }
    }
    loop {
        let mut lowered = false;
        for (state, choices) in &open {
            let worst = |&[one, other]: &[usize; 2]| ranks[one].max(ranks[other]);
            let best = choices.iter().map(worst).min().unwrap_or(NEVER).saturating_add(1);
            if best < ranks[*state] {
                ranks[*state] = best;
                lowered = true;
            }
        }
        if !lowered {
            return;
        }
    }
}

/// The outcomes of each permitted act, by their numbers: one number twice for a set. The posts don't matter to them.
fn choices(asked: &Asked, state: &Knowledge) -> Vec<[usize; 2]> {
    let mut choices = Vec::with_capacity(21);
    let presents = state.presents();
    for setting in 0..asked.n {
        for kind in KINDS {
            let mut posts = (0..8).map(|post| Act { kind, setting, post });
            if let Some(act) = posts.find(|&act| asked.permits_where(state, presents, act)) {
                let outcomes = act.outcomes(state);
                choices.push([outcomes[0].number(), outcomes[outcomes.len() - 1].number()]);
            }
        }
    }
    choices
}

/// A third way, for small n: whether some plan of at most this height works, tried forwards from the state.
pub fn works_within(
    asked: &Asked,
    knowledge: &Knowledge,
    height: usize,
    tried: &mut HashMap<(usize, usize), bool>,
) -> bool {
    if let Some(&works) = tried.get(&(knowledge.number(), height)) {
        return works;
    }
    let mut works = asked.settled(knowledge);
    for act in asked.acts() {
        if !works && height > 0 && asked.permits(knowledge, act) {
            let mut outcomes = act.outcomes(knowledge).into_iter();
            works = outcomes.all(|outcome| works_within(asked, &outcome, height - 1, tried));
        }
    }
    tried.insert((knowledge.number(), height), works);
    works
}
