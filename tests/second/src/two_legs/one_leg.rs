//! Two legs beside one: a second leg that asks for nothing changes nothing, and the plan written is one of the first leg.

use crate::ffi;
use crate::finder::{self, Found};
use crate::legs::Legs;
use crate::questions::{any_question, any_team};
use crate::report::{Group, Subject};
use crate::room::Room;
use crate::tables::table;

use super::made::any_legs;
use super::{lend, ranks_of, shown_legs, told_two};

/// Room for any plan of up to four settings.
const PLAN_ROOM: usize = 16 * 31;

pub fn test(subject: &mut Subject) {
    subject.group("a second leg that is settled everywhere: the very result of one leg, ranks and plan", nothing_more);
    subject.group("the plan check accepts the plan for the first leg's goal alone", accepted);
}

/// Also in a plan room that is too short. The second table holds zeros.
fn nothing_more(group: &mut Group) {
    let (mut reached, mut refused) = (0, 0);
    for _ in group.times(1_500) {
        let n = group.rng.one_of(&[1, 2, 2, 3, 3, 4]);
        let first = any_question(&mut group.rng, n);
        let team = any_team(&mut group.rng, usize::from(first.book[1]));
        let legs = Legs { first, team, make: table(n, u128::MAX).to_vec(), learn: vec![] };
        let plan_room = group.rng.one_of(&[0, 1, 2, 5, PLAN_ROOM, PLAN_ROOM]);
        let (mut ranks, mut ranks2, mut one_ranks) = (rank_room(group, n), rank_room(group, n), rank_room(group, n));
        let (mut plan, mut one_plan) = (Room::of(plan_room, &mut group.rng), Room::of(plan_room, &mut group.rng));
        let mut lent = lend(&legs, &mut group.rng);
        let word = ffi::find_two(&mut lent, &mut ranks, &mut ranks2, &mut plan);
        let one = ffi::find(&mut lent.book, lent.masks, &mut lent.make, &mut lent.learn, &mut one_ranks, &mut one_plan);
        let length = if word >> 32 == 0 { (word & 0xffff) as usize } else { 0 };
        let same = word == one
            && ranks.lent() == one_ranks.lent()
            && ranks2.lent().iter().all(|&rank| rank == 0)
            && plan.lent()[..length] == one_plan.lent()[..length];
        group.case(same, || format!("{}: {}, and not {}", shown_legs(&legs), told_two(word), told_two(one)));
        reached += usize::from(length > 1);
        refused += usize::from(word >> 32 == 14);
    }
    group.case(reached > 100 && refused > 20, || format!("reached only {reached} times, 14 only {refused} times"));
}

fn rank_room(group: &mut Group, n: usize) -> Room {
    Room::of(ranks_of(n), &mut group.rng)
}

fn accepted(group: &mut Group) {
    let (mut reached, mut other) = (0, 0);
    for _ in group.times(1_500) {
        let n = group.rng.one_of(&[1, 2, 2, 3, 3, 4]);
        let legs = any_legs(&mut group.rng, n);
        let (mut ranks, mut ranks2) = (rank_room(group, n), rank_room(group, n));
        let mut room = Room::of(PLAN_ROOM, &mut group.rng);
        let mut lent = lend(&legs, &mut group.rng);
        let word = ffi::find_two(&mut lent, &mut ranks, &mut ranks2, &mut room);
        if word == 0 || word >> 32 != 0 {
            group.case(word == 0, || format!("{}: {}", shown_legs(&legs), told_two(word)));
            continue;
        }
        let plan = room.lent()[..(word & 0xffff) as usize].to_vec();
        let mut bytes = Room::holding(&plan, &[0, 1, 57], &mut group.rng);
        let told = ffi::plan_check(&mut lent.book, lent.masks, &mut lent.make, &mut lent.learn, &mut bytes);
        group.case(told == 0, || format!("{}: {}", shown_legs(&legs), told_two(told)));
        reached += 1;
        let one = finder::find(&legs.first).map(|solution| solution.found);
        other += usize::from(!matches!(one, Ok(Found::Reach { plan: one, .. }) if one == plan));
    }
    group.case(reached > 100 && other > 10, || format!("reached only {reached} times, {other} by another plan"));
}
