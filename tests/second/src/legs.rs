//! A question of two legs, from request R-8's words, and from source 001's section 4.3.3 on nested goals: the first team
//! can achieve a state in which its goal is satisfied, and "(in that state)" the second team can achieve its own.
//!
//! The second leg is a question like any other, asked of each knowledge state by itself: `finder.rs` ranks them all. A
//! state keeps what is known of the very first start, so nothing is to be done at the shift change for learn formulas.

use std::collections::HashMap;

use crate::finder::{ranks, ranks_where, works_within, write, Found, NEVER};
use crate::knowledge::Knowledge;
use crate::question::{Asked, Question};
use crate::refusal::{refusal, Refusal};

/// As it is handed over: the first leg is a question, and the second has the same book, start and held settings.
#[derive(Clone)]
pub struct Legs {
    pub first: Question,
    pub team: u8,
    pub make: Vec<u8>,
    pub learn: Vec<u8>,
}

/// Two legs that nothing is refused of.
pub struct AskedTwo {
    pub first: Asked,
    pub second: Asked,
}

/// What there is to tell of two sound legs: the ranks of each over all knowledge numbers, and the first leg's answer.
#[derive(Clone)]
pub struct Solution {
    pub ranks: Vec<u8>,
    pub ranks2: Vec<u8>,
    pub found: Found,
}

impl Legs {
    /// The second leg as a question by itself.
    pub fn second(&self) -> Question {
        Question { team: self.team, make: self.make.clone(), learn: self.learn.clone(), ..self.first.clone() }
    }

    /// The first leg's 6 to 12 and 31; then of the second leg 10 and 12, since all else is the first leg's.
    pub fn read(&self) -> Result<AskedTwo, Refusal> {
        Ok(AskedTwo { first: self.first.read()?, second: self.second().read()? })
    }
}

/// Or one of the refusals of a leg.
pub fn find(legs: &Legs) -> Result<Solution, Refusal> {
    let asked = legs.read()?;
    let ranks2 = ranks(&asked.second);
    let ranks = ranks_where(&asked.first, |state| asked.first.settled(state) && ranks2[state.number()] != NEVER);
    let found = found(&asked.first, &ranks);
    Ok(Solution { ranks, ranks2, found })
}

/// The answer that a team's ranks give at the start.
pub fn found(asked: &Asked, ranks: &[u8]) -> Found {
    match ranks[asked.start.number()] {
        NEVER => Found::Cannot,
        height => {
            let mut plan = Vec::new();
            write(asked, ranks, &asked.start, &mut plan);
            Found::Reach { height, plan }
        }
    }
}

impl Solution {
    /// 13 with the place of the first table that is too short for all ranks, then 14.
    pub fn in_rooms(&self, rank_room: usize, rank_room2: usize, plan_room: usize) -> Result<&Found, Refusal> {
        match &self.found {
            _ if rank_room < self.ranks.len() => refusal(13, 1),
            _ if rank_room2 < self.ranks2.len() => refusal(13, 2),
            Found::Reach { plan, .. } if plan.len() > plan_room => refusal(14, 0),
            found => Ok(found),
        }
    }
}

/// Heights that were tried from a state, and whether a plan of that height works.
type Tried = HashMap<(usize, usize), bool>;

/// The same a second way, for small n: both teams' plans are tried forwards, and no rank is looked at.
#[derive(Default)]
pub struct Forwards {
    first: Tried,
    second: Tried,
}

impl Forwards {
    /// Some plan of the first team, of at most this height, stops only where its goal is settled and where some plan of the
    /// second team works.
    pub fn works(&mut self, asked: &AskedTwo, state: &Knowledge, height: usize) -> bool {
        if let Some(&works) = self.first.get(&(state.number(), height)) {
            return works;
        }
        let mut works = asked.first.settled(state) && self.goes_on(&asked.second, state);
        for act in asked.first.acts() {
            if !works && height > 0 && asked.first.permits(state, act) {
                let mut outcomes = act.outcomes(state).into_iter();
                works = outcomes.all(|outcome| self.works(asked, &outcome, height - 1));
            }
        }
        self.first.insert((state.number(), height), works);
        works
    }

    /// The second team has a plan that works from here. None that works is needed to be higher than 2^(n+1) − 2.
    fn goes_on(&mut self, second: &Asked, state: &Knowledge) -> bool {
        works_within(second, state, (2 << second.n) - 2, &mut self.second)
    }
}
