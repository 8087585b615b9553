//! The cases for questions of two legs: every result, the ranks of both legs, the first leg's plan and every other lent byte
//! are compared with `legs.rs`.

mod by_hand;
mod faults;
mod made;
mod one_leg;
mod random;
mod readings;
mod refused;
mod rooms;

use crate::book::BLOCK;
use crate::ffi::{self, TwoLegs};
use crate::finder::Found;
use crate::legs::{self, Legs, Solution};
use crate::refusal::{told, Refusal};
use crate::report::{shown, sparse, Group, Subject};
use crate::rng::Rng;
use crate::room::Room;

pub fn test(subject: &mut Subject) {
    subject.group("this program's own ranks against plans of both teams tried forwards", random::own_ranks);
    by_hand::test(subject);
    random::test(subject);
    one_leg::test(subject);
    rooms::test(subject);
    refused::test(subject);
    for number in [6, 8, 10, 11, 12, 14, 31] {
        subject.must_reach(number, 0..=0);
    }
    subject.must_reach(7, 0..=7);
    subject.must_reach(9, 1..=7);
    subject.must_reach(13, 1..=2);
}

fn ranks_of(n: usize) -> usize {
    7usize.pow(n as u32)
}

/// The lengths of the rooms that are lent.
#[derive(Clone, Copy)]
struct Rooms {
    ranks: usize,
    ranks2: usize,
    plan: usize,
}

impl Rooms {
    /// Just long enough for what there is to write.
    fn for_all(solution: &Solution) -> Rooms {
        let plan = if let Found::Reach { plan, .. } = &solution.found { plan.len() } else { 0 };
        Rooms { ranks: solution.ranks.len(), ranks2: solution.ranks2.len(), plan }
    }

    /// Long enough for a question that is refused.
    fn for_none(legs: &Legs) -> Rooms {
        let ranks = ranks_of(legs.first.book.len().div_ceil(BLOCK).clamp(2, 4) - 1);
        Rooms { ranks, ranks2: ranks, plan: 20 }
    }

    fn and_some(self, rng: &mut Rng) -> Rooms {
        let mut some = || rng.one_of(&[0, 1, 40]);
        Rooms { ranks: self.ranks + some(), ranks2: self.ranks2 + some(), plan: self.plan + some() }
    }
}

/// One case, in rooms that are long enough.
fn compare(group: &mut Group, legs: &Legs) -> Result<Solution, Refusal> {
    let solution = legs::find(legs);
    let rooms = solution.as_ref().map_or_else(|_| Rooms::for_none(legs), Rooms::for_all).and_some(&mut group.rng);
    expect(group, legs, rooms, &solution);
    solution
}

/// After success, "cannot" or 14 the first 7^n bytes of each rank table hold all ranks of its leg. A success writes the
/// plan's bytes into the plan room. Nothing else is touched.
fn expect(group: &mut Group, legs: &Legs, rooms: Rooms, solution: &Result<Solution, Refusal>) {
    let mut lent = lend(legs, &mut group.rng);
    let mut ranks = Room::of(rooms.ranks, &mut group.rng);
    let mut ranks2 = Room::of(rooms.ranks2, &mut group.rng);
    let mut plan = Room::of(rooms.plan, &mut group.rng);
    let mut left = [&ranks, &ranks2, &plan].map(|room| room.lent_before().to_vec());
    let word = ffi::find_two(&mut lent, &mut ranks, &mut ranks2, &mut plan);

    let expected = match solution {
        Ok(solution) => solution.in_rooms(rooms.ranks, rooms.ranks2, rooms.plan),
        Err(refusal) => Err(*refusal),
    };
    let expected_word = written(solution, &expected, &mut left);
    let [ranks_left, ranks2_left, plan_left] = &left;
    let kept = ranks.holds(ranks_left) && ranks2.holds(ranks2_left) && plan.holds(plan_left) && only_read(&lent);
    group.case(word == expected_word && kept, || {
        let rooms = [("first rank table", &ranks), ("second rank table", &ranks2), ("plan room", &plan)];
        let more: String = rooms.iter().zip(&left).map(|((name, room), left)| told_room(name, room, left)).collect();
        let read = if only_read(&lent) { "" } else { "\n        what was to be read was written" };
        format!(
            "{}\n        expected {}\n        got      {}{more}{read}",
            shown_legs(legs),
            told_two(expected_word),
            told_two(word)
        )
    });
    group.came_to(expected);
}

/// Makes what the rooms held what they are to hold, and gives the word that is due.
fn written(
    solution: &Result<Solution, Refusal>,
    expected: &Result<&Found, Refusal>,
    [ranks, ranks2, plan]: &mut [Vec<u8>; 3],
) -> u64 {
    if let (Ok(solution), true) = (solution, expected.as_ref().err().is_none_or(|refusal| refusal.number == 14)) {
        ranks[..solution.ranks.len()].copy_from_slice(&solution.ranks);
        ranks2[..solution.ranks2.len()].copy_from_slice(&solution.ranks2);
    }
    match expected {
        Ok(Found::Reach { height, plan: bytes }) => {
            plan[..bytes.len()].copy_from_slice(bytes);
            u64::from(*height) << 16 | bytes.len() as u64
        }
        Ok(Found::Cannot) => 0,
        Err(refusal) => refusal.word(),
    }
}

fn lend(legs: &Legs, rng: &mut Rng) -> TwoLegs {
    let mut room = |bytes: &[u8]| Room::holding(bytes, &[0, 1, 255], rng);
    let first = &legs.first;
    TwoLegs {
        book: room(&first.book),
        masks: [first.team, first.known, first.values, first.held],
        make: room(&first.make),
        learn: room(&first.learn),
        team2: legs.team,
        make2: room(&legs.make),
        learn2: room(&legs.learn),
    }
}

fn only_read(lent: &TwoLegs) -> bool {
    [&lent.book, &lent.make, &lent.learn, &lent.make2, &lent.learn2].iter().all(|room| room.untouched())
}

fn told_room(name: &str, room: &Room, left: &[u8]) -> String {
    match (0..left.len()).find(|&i| room.lent()[i] != left[i]) {
        Some(i) => format!("\n        byte {i} of the {name} is {} and not {}", room.lent()[i], left[i]),
        None if !room.holds(left) => format!("\n        something beside the {name} was written"),
        None => String::new(),
    }
}

fn told_two(word: u64) -> String {
    match word {
        0 => "cannot".to_string(),
        _ if word >> 32 == 0 => format!("reach {} with a plan of {} bytes", word >> 16, word & 0xffff),
        _ => told(word),
    }
}

fn shown_legs(legs: &Legs) -> String {
    let first = crate::finding::shown_question(&legs.first);
    format!("{first}; then team {:08b}, make {}, learn {}", legs.team, sparse(&legs.make), shown(&legs.learn))
}
