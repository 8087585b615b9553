//! Plans, and the check of their bytes, from paper 01's section on them and its refusals 16 to 21 alone, with the second
//! number of 18 that requests give, and 32 of request R-9.
//!
//! The check reads each byte at the state that its branch has come to; states of branches that were left for later wait
//! in a row. Beside it stands what a plan is, a tree, which the check is compared with.

use crate::knowledge::{Act, Kind, Knowledge};
use crate::question::{Asked, Question};
use crate::refusal::{refusal, Refusal};

pub const PLAN_MOST: usize = 32_640;

/// The question's 6 to 12 and 31, then 16, then the first fault in reading order, 17 before 18 and 32 after it; else
/// a bare yes.
pub fn check(question: &Question, plan: &[u8]) -> Result<(), Refusal> {
    let asked = question.read()?;
    if plan.len() > PLAN_MOST {
        return refusal(16, 0);
    }
    let mut waiting = vec![asked.start];
    for (index, &byte) in plan.iter().enumerate() {
        let Some(state) = waiting.pop() else { return refusal(21, index) };
        if byte == 0 {
            if !asked.settled(&state) {
                return refusal(19, index);
            }
            continue;
        }
        let Some(act) = Act::of_byte(byte).filter(|&act| asked.names(act)) else { return refusal(17, index) };
        if let Some(reason) = asked.not_permitted(&state, state.presents(), act) {
            return Err(Refusal::at(18, index as u32).with_second(reason.second()));
        }
        if asked.changes_nothing(&state, act) {
            return refusal(32, index);
        }
        waiting.extend(act.outcomes(&state).into_iter().rev());
    }
    if waiting.is_empty() {
        Ok(())
    } else {
        refusal(20, plan.len())
    }
}

/// A plan stops, or does an act and goes on with a plan for each outcome.
#[derive(Clone)]
pub enum Plan {
    Stop,
    Go(Act, Vec<Plan>),
}

impl Plan {
    /// Act first, then what follows; after a look the false outcome's plan, then the true one's. A stop is 0.
    pub fn bytes(&self) -> Vec<u8> {
        match self {
            Plan::Stop => vec![0],
            Plan::Go(act, plans) => {
                [act.byte()].into_iter().chain(plans.iter().flat_map(|plan| plan.bytes())).collect()
            }
        }
    }

    /// Each act is permitted where it is done.
    pub fn permitted(&self, asked: &Asked, knowledge: &Knowledge) -> bool {
        match self {
            Plan::Stop => true,
            Plan::Go(act, plans) => {
                let mut branches = act.outcomes(knowledge).into_iter().zip(plans);
                asked.permits(knowledge, *act) && branches.all(|(outcome, plan)| plan.permitted(asked, &outcome))
            }
        }
    }

    /// The goal is settled at every stop.
    pub fn settles(&self, asked: &Asked, knowledge: &Knowledge) -> bool {
        match self {
            Plan::Stop => asked.settled(knowledge),
            Plan::Go(act, plans) => {
                let mut branches = act.outcomes(knowledge).into_iter().zip(plans);
                branches.all(|(outcome, plan)| plan.settles(asked, &outcome))
            }
        }
    }

    /// The same plan with the sets left out that change nothing where they stand.
    pub fn without_idle(&self, knowledge: &Knowledge) -> Plan {
        let Plan::Go(act, plans) = self else { return Plan::Stop };
        match act.kind {
            Kind::Set(value) if knowledge.of_setting(act.setting).now == Some(value) => {
                plans[0].without_idle(knowledge)
            }
            _ => {
                let branches = act.outcomes(knowledge).into_iter().zip(plans);
                Plan::Go(*act, branches.map(|(outcome, plan)| plan.without_idle(&outcome)).collect())
            }
        }
    }

    /// The longest count of acts on a branch.
    pub fn height(&self) -> usize {
        match self {
            Plan::Stop => 0,
            Plan::Go(_, plans) => 1 + plans.iter().map(Plan::height).max().unwrap(),
        }
    }
}
