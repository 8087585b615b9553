//! What two legs are not, and how often it mattered: other readings of request R-8, worked out beside the right one. Each
//! kind of case in which a wrong program would be found out has to come up.

use std::collections::BTreeMap;

use crate::finder::{ranks, ranks_where, Found, NEVER};
use crate::knowledge::{Act, Knowledge};
use crate::legs::{self, AskedTwo, Legs, Solution};
use crate::question::{Asked, Question};
use crate::report::Group;

/// Heights by each reading, none where the first team can't.
struct Readings {
    two: Option<u8>,
    /// The first leg alone.
    one: Option<u8>,
    /// The second team has a plan at the start, and not where the first stops.
    from_start: Option<u8>,
    /// The second leg's learn formulas mean the settings at the shift change.
    at_change: Option<u8>,
    /// The first team carries on by itself.
    first_team: Option<u8>,
    /// Both teams as one, and both goals at the end.
    at_once: Option<u8>,
    /// The same two legs with nothing held.
    not_held: Option<u8>,
}

/// What a case shows.
struct Case<'a> {
    legs: &'a Legs,
    readings: Readings,
    one_plan: Found,
    found: &'a Found,
    second_at_start: u8,
    /// The second leg's ranks where the first leg's plan stops.
    at_stops: Vec<u8>,
}

type Kind = (&'static str, fn(&Case) -> bool);

fn turns(wrong: Option<u8>, right: Option<u8>) -> bool {
    wrong.is_some() && right.is_none()
}

const KINDS: &[Kind] = &[
    ("reach with nothing to do", |case| case.readings.two == Some(0)),
    ("reach 3 or higher", |case| case.readings.two.is_some_and(|height| height >= 3)),
    ("teams that share no post", |case| case.legs.first.team & case.legs.team == 0),
    ("teams that are equal", |case| case.legs.first.team == case.legs.team),
    ("teams that share some posts", |case| {
        let shared = case.legs.first.team & case.legs.team;
        shared != 0 && shared != case.legs.first.team && shared != case.legs.team
    }),
    ("something to learn in the first leg alone", |case| learns(case) == [true, false]),
    ("something to learn in the second leg alone", |case| learns(case) == [false, true]),
    ("something to learn in both legs", |case| learns(case) == [true, true]),
    ("one leg reaches, two cannot", |case| turns(case.readings.one, case.readings.two)),
    ("two legs need a higher plan than one", |case| {
        case.readings.two.is_some() && case.readings.one < case.readings.two
    }),
    ("two legs need another plan of the same height", |case| {
        case.readings.two == case.readings.one && case.one_plan != *case.found
    }),
    ("the first team has nothing to do, and two legs cannot", |case| {
        case.readings.one == Some(0) && case.readings.two.is_none()
    }),
    ("reach, and the second team can't from the start", |case| {
        case.readings.two.is_some() && case.second_at_start == NEVER
    }),
    ("reach, and the second team has still to act at a stop", |case| case.at_stops.iter().any(|&rank| rank > 0)),
    ("reach, and the second team has more to do at one stop than at another", |case| {
        case.at_stops.iter().min() < case.at_stops.iter().max()
    }),
    ("asked from the start and not from the stops: reach for cannot", |case| {
        turns(case.readings.from_start, case.readings.two)
    }),
    ("asked from the start and not from the stops: cannot for reach", |case| {
        turns(case.readings.two, case.readings.from_start)
    }),
    ("asked from the start and not from the stops: another height", |case| {
        differ(case.readings.from_start, case.readings.two)
    }),
    ("learnt over the shift change: reach for cannot", |case| turns(case.readings.at_change, case.readings.two)),
    ("learnt over the shift change: cannot for reach", |case| turns(case.readings.two, case.readings.at_change)),
    ("learnt over the shift change: another height", |case| differ(case.readings.at_change, case.readings.two)),
    ("the first team carries on: reach for cannot", |case| turns(case.readings.first_team, case.readings.two)),
    ("the first team carries on: cannot for reach", |case| turns(case.readings.two, case.readings.first_team)),
    ("the first team carries on: another height", |case| differ(case.readings.first_team, case.readings.two)),
    ("both teams at once: reach for cannot", |case| turns(case.readings.at_once, case.readings.two)),
    ("both teams at once: cannot for reach", |case| turns(case.readings.two, case.readings.at_once)),
    ("nothing held: reach for cannot", |case| turns(case.readings.not_held, case.readings.two)),
];

fn learns(case: &Case) -> [bool; 2] {
    [!case.legs.first.learn.is_empty(), !case.legs.learn.is_empty()]
}

fn differ(one: Option<u8>, other: Option<u8>) -> bool {
    one.is_some() && other.is_some() && one != other
}

/// How often each kind came up.
#[derive(Default)]
pub struct Seen {
    counts: BTreeMap<&'static str, usize>,
}

impl Seen {
    pub fn count(&mut self, legs: &Legs, solution: &Solution) {
        let case = Case::of(legs, solution);
        for (name, _) in KINDS.iter().filter(|(_, is_so)| is_so(&case)) {
            *self.counts.entry(name).or_default() += 1;
        }
    }

    pub fn all_came(&self, group: &mut Group) {
        for (name, _) in KINDS {
            let count = self.counts.get(name).copied().unwrap_or_default();
            println!("        two legs: {name}: {count} cases");
            group.case(count > 0, || format!("never: {name}"));
        }
    }
}

impl Case<'_> {
    fn of<'a>(legs: &'a Legs, solution: &'a Solution) -> Case<'a> {
        let asked = legs.read().unwrap_or_else(|refusal| panic!("a sound question was {refusal}"));
        let one = ranks(&asked.first);
        Case {
            legs,
            readings: Readings::of(legs, &asked, solution, &one),
            one_plan: legs::found(&asked.first, &one),
            found: &solution.found,
            second_at_start: solution.ranks2[asked.first.start.number()],
            at_stops: stops(&asked.first, &solution.found).iter().map(|stop| solution.ranks2[stop.number()]).collect(),
        }
    }
}

impl Readings {
    fn of(legs: &Legs, asked: &AskedTwo, solution: &Solution, one: &[u8]) -> Readings {
        let AskedTwo { first, second } = asked;
        let start = first.start.number();
        let height = |ranks: &[u8]| Some(ranks[start]).filter(|&rank| rank != NEVER);
        let then = |goes_on: &dyn Fn(&Knowledge) -> bool| {
            height(&ranks_where(first, |state| first.settled(state) && goes_on(state)))
        };
        let ranks2 = &solution.ranks2;
        let by_first = ranks_where(first, |state| second.settled(state));
        let all = Question { team: legs.first.team | legs.team, ..legs.first.clone() };
        let Ok(all) = all.read() else { panic!("both teams are no team") };
        let not_held = Legs { first: Question { held: 0, ..legs.first.clone() }, ..legs.clone() };
        let Ok(not_held) = legs::find(&not_held) else { panic!("a sound question was refused with nothing held") };
        Readings {
            two: height(&solution.ranks),
            one: height(one),
            from_start: then(&|_| ranks2[start] != NEVER),
            at_change: then(&|state| ranks2[begun_anew(state).number()] != NEVER),
            first_team: then(&|state| by_first[state.number()] != NEVER),
            at_once: height(&ranks_where(&all, |state| first.settled(state) && second.settled(state))),
            not_held: height(&not_held.ranks),
        }
    }
}

/// What is known now taken for what was known at a start.
fn begun_anew(state: &Knowledge) -> Knowledge {
    let now = |i: usize| state.of_setting(i).now;
    let mask = |is_in: &dyn Fn(usize) -> bool| (0..state.n).filter(|&i| is_in(i)).fold(0, |mask, i| mask | 1 << i);
    Knowledge::at_start(state.n, mask(&|i| now(i).is_some()), mask(&|i| now(i) == Some(true)))
}

/// Where the plan stops.
fn stops(asked: &Asked, found: &Found) -> Vec<Knowledge> {
    let Found::Reach { plan, .. } = found else { return vec![] };
    let (mut waiting, mut stops) = (vec![asked.start], vec![]);
    for &byte in plan {
        let state = waiting.pop().expect("a plan that goes on after its end");
        match Act::of_byte(byte) {
            Some(act) => waiting.extend(act.outcomes(&state).into_iter().rev()),
            None => stops.push(state),
        }
    }
    stops
}
