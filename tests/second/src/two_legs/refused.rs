//! Refusals of two legs in their order: each fault by itself, each two of them, and any number. The first in the order is
//! told, and all three rooms are as they were; only 14 leaves both tables filled.

use crate::legs::{self, Legs, Solution};
use crate::refusal::Refusal;
use crate::report::{Group, Subject};

use super::faults::{Fault, Spoilt, FAULTS, MADE};
use super::made::any_legs;
use super::{expect, ranks_of, shown_legs, Rooms};

pub fn test(subject: &mut Subject) {
    subject.group("each fault by itself", |group| {
        for _ in group.times(4) {
            FAULTS.iter().for_each(|&fault| of_each_n(group, &[fault]));
        }
    });
    subject.group("each two faults: the first in the order is told", |group| {
        for (i, &second) in FAULTS.iter().enumerate() {
            FAULTS[..i].iter().for_each(|&first| of_each_n(group, &[first, second]));
        }
    });
    subject.group("any faults at once", |group| {
        for _ in group.times(300) {
            let chosen = group.rng.between(1, (1 << FAULTS.len()) - 1);
            let faults: Vec<Fault> = (0..FAULTS.len()).filter(|i| chosen >> i & 1 == 1).map(|i| FAULTS[i]).collect();
            of_each_n(group, &faults);
        }
    });
}

/// The faults, in the order in which they are told. 14 alone needs a question that is answered, and few settings.
fn of_each_n(group: &mut Group, faults: &[Fault]) {
    for n in 1..=7 {
        match faults[0] {
            Fault::PlanRoom if n > 4 => {}
            Fault::PlanRoom => {
                let (legs, solution) = with_a_plan(group, n);
                one(group, n, faults, legs, Some(solution));
            }
            _ => {
                let legs = any_legs(&mut group.rng, n);
                one(group, n, faults, legs, None);
            }
        }
    }
}

fn with_a_plan(group: &mut Group, n: usize) -> (Legs, Solution) {
    loop {
        let legs = any_legs(&mut group.rng, n);
        let solution = legs::find(&legs).unwrap_or_else(|refusal| panic!("a sound question was {refusal}"));
        if Rooms::for_all(&solution).plan > 0 {
            return (legs, solution);
        }
    }
}

fn one(group: &mut Group, n: usize, faults: &[Fault], legs: Legs, solution: Option<Solution>) {
    let (m, plan) = (usize::from(legs.first.book[1]), solution.as_ref().map_or(20, |all| Rooms::for_all(all).plan));
    let rooms = Rooms { ranks: ranks_of(n), ranks2: ranks_of(n), plan }.and_some(&mut group.rng);
    let mut spoilt = Spoilt { legs, rooms, n, m, plan };
    let mut told = None;
    for fault in MADE.into_iter().filter(|fault| faults.contains(fault)) {
        let refusal = spoilt.by(&mut group.rng, fault);
        told = if fault == faults[0] { Some(refusal) } else { told };
    }
    let told = told.expect("a fault");
    own_refusal(group, &spoilt.legs, told);
    expect(group, &spoilt.legs, spoilt.rooms, &solution.ok_or(told));
}

/// This program's own reading of the legs refuses the same, where it is not a room that is short.
fn own_refusal(group: &mut Group, legs: &Legs, told: Refusal) {
    let due = Some(told).filter(|told| told.number != 13 && told.number != 14);
    group.case(legs.read().err() == due, || format!("this program's own refusal, for {told}, of {}", shown_legs(legs)));
}
