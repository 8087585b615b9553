//! The three rooms that are lent for writing: both rank tables and the plan room, of every length near the limit.

use crate::finder::Found;
use crate::legs::{self, Legs, Solution};
use crate::refusal::Refusal;
use crate::report::{Group, Subject};

use super::made::any_legs;
use super::{expect, ranks_of, Rooms};

pub fn test(subject: &mut Subject) {
    subject.group("rank tables of every length near the limit, the first short one is told", rank_tables);
    subject.group("plan rooms of every length near the limit", plan_rooms);
    subject.group("\"cannot\" in a plan room of no length", cannot);
}

fn rank_tables(group: &mut Group) {
    for n in 1..=5 {
        let legs = any_legs(&mut group.rng, n);
        let solution = legs::find(&legs);
        let need = ranks_of(n);
        for ranks in [0, 1, need / 2, need - 1, need, need + 1] {
            for ranks2 in [0, 1, need / 2, need - 1, need, need + 1] {
                expect(group, &legs, Rooms { ranks, ranks2, plan: 40 }, &solution);
            }
        }
    }
    for n in 6..=7 {
        let legs = any_legs(&mut group.rng, n);
        let need = ranks_of(n);
        for (ranks, ranks2, place) in
            [(need - 1, need, 1), (need, need - 1, 2), (need - 1, need - 1, 1), (0, 0, 1), (need + 1, need / 7, 2)]
        {
            expect(group, &legs, Rooms { ranks, ranks2, plan: 40 }, &Err(Refusal::at(13, place)));
        }
    }
}

/// Random legs with a plan of three bytes or more.
fn with_a_plan(group: &mut Group) -> (Legs, Solution, usize) {
    loop {
        let n = group.rng.one_of(&[1, 2, 3, 3, 3, 4]);
        let legs = any_legs(&mut group.rng, n);
        let solution = legs::find(&legs).unwrap_or_else(|refusal| panic!("a sound question was {refusal}"));
        let length = Rooms::for_all(&solution).plan;
        if length >= 3 {
            return (legs, solution, length);
        }
    }
}

fn plan_rooms(group: &mut Group) {
    for _ in 0..60 {
        let (legs, solution, length) = with_a_plan(group);
        let solved = Ok(solution.clone());
        for plan in [0, 1, length / 2, length - 2, length - 1, length, length + 1] {
            let enough = Rooms { plan, ..Rooms::for_all(&solution) };
            let more = Rooms { ranks: enough.ranks + 3, ranks2: enough.ranks2 + 5, plan };
            expect(group, &legs, more, &solved);
            expect(group, &legs, Rooms { ranks: enough.ranks - 1, ..enough }, &solved);
            expect(group, &legs, Rooms { ranks2: enough.ranks2 - 1, ..enough }, &solved);
        }
    }
}

/// Both tables are filled, and 14 is not given.
fn cannot(group: &mut Group) {
    let mut times = 0;
    while times < 100 {
        let n = group.rng.between(1, 3);
        let legs = any_legs(&mut group.rng, n);
        let solution = legs::find(&legs).unwrap_or_else(|refusal| panic!("a sound question was {refusal}"));
        if solution.found == Found::Cannot {
            times += 1;
            let plan = group.rng.one_of(&[0, 1, 40]);
            expect(group, &legs, Rooms { plan, ..Rooms::for_all(&solution) }, &Ok(solution));
        }
    }
}
