//! Random questions of two legs, each n, and every book of one setting and two posts; what came out of them is counted.

use crate::finder::NEVER;
use crate::knowledge::Knowledge;
use crate::legs::{self, Forwards, Legs};
use crate::question::Question;
use crate::report::{Group, Subject};
use crate::tables::{letter, rights, table};

use super::made::any_legs;
use super::readings::Seen;
use super::{compare, shown_legs};

/// How many random questions of each n from 1 to 7. At n = 7 each leg has 823,543 ranks.
const QUESTIONS: [usize; 7] = [1_000, 2_000, 1_500, 200, 20, 4, 1];

/// Other readings of the request are worked out beside the right one up to this n.
const READ_MOST: usize = 4;

pub fn test(subject: &mut Subject) {
    let mut seen = Seen::default();
    subject.group("every book of one setting and two posts, one after the other", |group| all_small(group, &mut seen));
    for n in 1..=7 {
        subject.group(&format!("random questions, n = {n}"), |group| random(group, n, &mut seen));
    }
    subject.group("each kind of case came out of them", |group| seen.all_came(group));
}

fn random(group: &mut Group, n: usize, seen: &mut Seen) {
    for _ in group.times(QUESTIONS[n - 1]) {
        let legs = any_legs(&mut group.rng, n);
        let solution = compare(group, &legs).unwrap_or_else(|refusal| panic!("a sound question was {refusal}"));
        if n <= READ_MOST {
            seen.count(&legs, &solution);
        }
    }
}

/// The tables of one setting: `0`, `~a`, `a` and `1`.
const SMALL: [u128; 4] = [0, 1, 2, 3];

/// Known and values of one setting.
const STARTS: [(u8, u8); 3] = [(0, 0), (1, 0), (1, 1)];

/// Each rule of both posts is one of the four, and so is what each leg makes; a is to be learnt by each or not. Whether it is
/// known and held is drawn.
fn all_small(group: &mut Group, seen: &mut Seen) {
    let learns = [vec![], table(1, letter(0)).to_vec()];
    for book in 0..256usize {
        let rule = |_, post, look| table(1, SMALL[book >> (4 * post + 2 * usize::from(look)) & 3]);
        let book = crate::books::written(1, 2, &rights(1, 2, rule));
        for goals in 0..64usize {
            let (make, make2) = (SMALL[goals >> 2 & 3], SMALL[goals & 3]);
            let (learn, learn2) = (learns[goals >> 4 & 1].clone(), learns[goals >> 5 & 1].clone());
            let (known, values) = group.rng.one_of(&STARTS);
            let held = group.rng.one_of(&[0, 1]);
            let (book, make) = (book.clone(), table(1, make).to_vec());
            let first = Question { book, team: 1, known, values, held, make, learn };
            let legs = Legs { first, team: 2, make: table(1, make2).to_vec(), learn: learn2 };
            let solution = compare(group, &legs).unwrap_or_else(|refusal| panic!("a sound question was {refusal}"));
            seen.count(&legs, &solution);
        }
    }
}

pub fn own_ranks(group: &mut Group) {
    for _ in group.times(40) {
        for n in [1, 1, 2, 2, 3] {
            let legs = any_legs(&mut group.rng, n);
            let asked = legs.read().unwrap_or_else(|refusal| panic!("a sound question was {refusal}"));
            let solution = legs::find(&legs).unwrap_or_else(|refusal| panic!("a sound question was {refusal}"));
            let mut forwards = Forwards::default();
            for (number, &rank) in solution.ranks.iter().enumerate() {
                let state = Knowledge::of_number(n, number);
                let least = (0..=(2 << n) - 2).find(|&height| forwards.works(&asked, &state, height));
                group.case(least.unwrap_or(usize::from(NEVER)) == usize::from(rank), || {
                    format!("state {number}, {}", shown_legs(&legs))
                });
            }
        }
    }
}
