//! Random plans: permitted ones, ones that work and are not the written ones, and ones that are neither.

use crate::finder::NEVER;
use crate::knowledge::{Act, Kind, Knowledge};
use crate::plan::Plan;
use crate::question::Asked;
use crate::rng::Rng;

/// A plan that works from a state of finite rank, with at most so many acts on a branch that bring it no nearer.
pub fn working(rng: &mut Rng, asked: &Asked, ranks: &[u8], state: &Knowledge, detours: usize) -> Plan {
    let rank = ranks[state.number()];
    let detour = detours > 0 && rng.chance(40);
    let limit = if detour { NEVER } else { rank };
    let lower = |act: &Act| act.outcomes(state).iter().all(|outcome| ranks[outcome.number()] < limit);
    let acts: Vec<Act> = permitted_acts(asked, state).into_iter().filter(lower).collect();
    if acts.is_empty() {
        return Plan::Stop;
    }
    let act = rng.one_of(&acts);
    go(act, state, |outcome| working(rng, asked, ranks, outcome, detours - usize::from(detour)))
}

/// A permitted plan with so many acts on a branch at most, and at most so many looks.
pub fn permitted(rng: &mut Rng, asked: &Asked, state: &Knowledge, acts: usize, looks: usize) -> Plan {
    let mut may = permitted_acts(asked, state);
    if looks == 0 {
        may.retain(|act| act.kind != Kind::Look);
    }
    if acts == 0 || may.is_empty() || rng.chance(3) {
        return Plan::Stop;
    }
    let new: Vec<Act> = may.iter().copied().filter(|act| act.kind == Kind::Look).collect();
    let act = if !new.is_empty() && rng.chance(40) { rng.one_of(&new) } else { rng.one_of(&may) };
    let looks = looks - usize::from(act.kind == Kind::Look);
    go(act, state, |outcome| permitted(rng, asked, outcome, acts - 1, looks))
}

/// A plan of any acts of the book and team, permitted or not.
pub fn any(rng: &mut Rng, asked: &Asked, state: &Knowledge, acts: usize) -> Plan {
    if acts == 0 || rng.chance(20) {
        return Plan::Stop;
    }
    let may = permitted_acts(asked, state);
    let act = if may.is_empty() || rng.chance(10) { rng.one_of(&asked.acts()) } else { rng.one_of(&may) };
    go(act, state, |outcome| any(rng, asked, outcome, acts - 1))
}

pub fn permitted_acts(asked: &Asked, state: &Knowledge) -> Vec<Act> {
    asked.acts().into_iter().filter(|&act| asked.permits(state, act)).collect()
}

fn go(act: Act, state: &Knowledge, mut next: impl FnMut(&Knowledge) -> Plan) -> Plan {
    Plan::Go(act, act.outcomes(state).iter().map(&mut next).collect())
}
