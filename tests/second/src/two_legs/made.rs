//! Random questions of two legs: teams that share no post, some posts or all, and goals to make and to learn in each leg.
//! Some are made so that what is learnt of the very first start is another thing than what is known at the shift change.

use crate::legs::Legs;
use crate::question::Question;
use crate::questions::{any_make_and_learn, any_question, any_question_of, any_team};
use crate::rng::Rng;
use crate::tables::{conjunction, letter, rights, table};

pub fn any_legs(rng: &mut Rng, n: usize) -> Legs {
    if rng.chance(15) {
        return changed_before_the_change(rng, n);
    }
    let first = if rng.chance(40) { any_question(rng, n) } else { shared_work(rng, n, false) };
    let m = usize::from(first.book[1]);
    let (team, team2) = any_teams(rng, m, first.team);
    let (make, learn) = any_make_and_learn(rng, n);
    Legs { first: Question { team, ..first }, team: team2, make, learn }
}

/// The first team is to turn a setting that is known. The second, which can do nothing, is to have learnt whether two settings
/// had drawn values: the one that was turned, and one that is perhaps unknown.
fn changed_before_the_change(rng: &mut Rng, n: usize) -> Legs {
    let work = shared_work(rng, n, true);
    let m = usize::from(work.book[1]);
    let last = 1 << (m - 1);
    let (turned, other) = (rng.below(n), rng.below(n));
    let literal = |i: usize, value: bool| if value { letter(i) } else { !letter(i) };
    let (was, is) = (rng.chance(50), rng.chance(50));
    let (known, values) = (work.known | 1 << turned, work.values & !(1 << turned) | u8::from(was) << turned);
    let make = table(n, literal(turned, !was)).to_vec();
    let first = Question { team: last - 1, known, values, make, learn: vec![], ..work };
    let learn = table(n, literal(turned, !was) & literal(other, is)).to_vec();
    Legs { first, team: last, make: table(n, u128::MAX).to_vec(), learn }
}

/// A book whose posts can do something each, and few can do all; the last may be idle.
fn shared_work(rng: &mut Rng, n: usize, idle: bool) -> Question {
    let m = rng.between(2, 4);
    let rights = rights(n, m, |_, post, look| match rng.below(6) {
        _ if idle && post == m - 1 => [0; 16],
        0 | 1 => [0; 16],
        2 | 3 if look => table(n, u128::MAX),
        2 => table(n, u128::MAX),
        _ => table(n, conjunction(rng, n, 35)),
    });
    any_question_of(rng, n, m, &rights)
}

fn any_teams(rng: &mut Rng, m: usize, team: u8) -> (u8, u8) {
    let all = u8::MAX >> (8 - m);
    match rng.below(4) {
        0 => (team, team),
        1 | 2 if m > 1 => {
            let parts = rng.between(1, usize::from(all) - 1) as u8;
            (parts, all & !parts)
        }
        _ => (team, any_team(rng, m)),
    }
}
