//! Questions of two legs with answers worked out by hand: source 001's nested queries, and one for each way to read the
//! request wrongly.

use crate::finder::Found;
use crate::formula;
use crate::legs::{self, Legs};
use crate::question::Question;
use crate::questions::by_hand;
use crate::report::{Group, Subject};

use super::compare;

/// A case's name, its legs, and the plan, or none for "cannot".
type Marked = (&'static str, Legs, Option<(u8, &'static [u8])>);

pub fn test(subject: &mut Subject) {
    subject.group("source 001's queries 4.3, 4.4 and 6.2", |group| all(group, &nested()));
    subject.group("by hand, where another reading gives another answer", |group| all(group, &read_wrongly()));
}

fn all(group: &mut Group, marked: &[Marked]) {
    for (name, legs, answer) in marked {
        let expected = match answer {
            Some((height, plan)) => Found::Reach { height: *height, plan: plan.to_vec() },
            None => Found::Cannot,
        };
        let own = legs::find(legs).is_ok_and(|solution| solution.found == expected);
        group.case(own, || format!("this program's own answer to: {name}"));
        compare(group, legs).ok();
    }
}

/// A second leg for a question, in the words of a sheet.
fn then(first: Question, team: &str, make: &str, learn: &[&str]) -> Legs {
    let formula =
        |text: &str| formula::read(u64::from(first.book[0]), text.as_bytes()).unwrap_or_else(|_| panic!("{text}"));
    let team = team.split(' ').fold(0, |team, post| team | 1 << (post.parse::<u8>().unwrap() - 1));
    let (make, learn) = (formula(make).to_vec(), learn.iter().flat_map(|text| formula(text)).collect());
    Legs { first, team, make, learn }
}

/// Setting a: agent 1 is a reviewer of the paper; b: what another's review says; c: agent 1 has submitted a review. Post 1 is
/// agent 1, post 2 the chair. Agent 1 may read b where no review of its own is outstanding, may give up being reviewer, and
/// may submit a review once; the chair appoints reviewers.
const REVIEWS: &[&str] = &["read b 1 ~a|c", "write a 1 a", "write a 2 1", "write c 1 a&~c"];

/// Whether an agent is a member: the chair, post 2, may set it, and the agent itself where it is one.
const MEMBERS: &[&str] = &["write a 1 a", "write a 2 1"];

fn nested() -> Vec<Marked> {
    let reads = |known| by_hand(3, 2, REVIEWS, "1", known, "1", &["b"]);
    let member = |team, known, make| by_hand(1, 2, MEMBERS, team, known, make, &[]);
    vec![
        ("4.3, figure 7: read, then be appointed", then(reads("~a ~c"), "1 2", "c", &[]), Some((1, &[121, 0, 0]))),
        ("4.3 without the chair", then(reads("~a ~c"), "1", "c", &[]), None),
        (
            "6.2, strategy 4.1 of figure 8: give up, read",
            then(reads("a ~c"), "1 2", "c", &[]),
            Some((2, &[1, 121, 0, 0])),
        ),
        ("6.2 without the chair, its strategy 1.1", then(reads("a ~c"), "1", "c", &[]), Some((2, &[73, 121, 0, 0]))),
        ("4.4, promoted and resigned", then(member("2", "~a", "a"), "1", "~a", &[]), Some((1, &[58, 0]))),
        ("4.4, resigned and promoted again", then(member("1", "a", "~a"), "2", "a", &[]), Some((1, &[1, 0]))),
        ("4.4, nobody promotes himself", then(member("1", "a", "~a"), "1", "a", &[]), None),
    ]
}

fn read_wrongly() -> Vec<Marked> {
    let hides = &["write a 1 1", "read a 2 1"];
    let opens = &["write a 1 1", "write b 2 a"];
    let closes = &["write a 1 1", "write b 2 ~a"];
    let prepares = &["write a 1 1", "write b 1 1", "write c 2 a&b"];
    let reports = &["read b 1 1", "write a 2 b"];
    let mends = &["read b 1 1", "write a 2 b", "write b 1 1"];
    let makes_a = |n, rules: &[&str], team, known| by_hand(n, 2, rules, team, known, "a", &[]);
    let finds_b = |rules: &[&str]| by_hand(2, 2, rules, "1", "", "1", &["b"]);
    let prepared = then(makes_a(3, prepares, "1", "~a ~b ~c"), "2", "c", &[]);
    let held = Legs { first: Question { held: 2, ..prepared.first.clone() }, ..prepared.clone() };
    vec![
        ("a is set, and its very first value is gone", then(makes_a(1, hides, "1", ""), "2", "1", &["a"]), None),
        (
            "a is looked at before it is set",
            then(makes_a(1, hides, "1 2", ""), "2", "1", &["a"]),
            Some((2, &[114, 57, 0, 0])),
        ),
        (
            "a was false at the very first start, so a&b was",
            then(makes_a(2, &["write a 1 1"], "1", "~a"), "2", "1", &["a&b"]),
            Some((1, &[57, 0])),
        ),
        (
            "the first team opens b to the second",
            then(makes_a(2, opens, "1", "~a ~b"), "2", "b", &[]),
            Some((1, &[57, 0])),
        ),
        ("the first team closes b to the second", then(makes_a(2, closes, "1", "~a ~b"), "2", "b", &[]), None),
        (
            "both posts in the first team set b first",
            then(makes_a(2, closes, "1 2", "~a ~b"), "2", "b", &[]),
            Some((2, &[66, 57, 0])),
        ),
        ("the first team has more to do", prepared, Some((2, &[57, 65, 0]))),
        ("and can't, where b is held", held, None),
        ("one of two stops will not do", then(finds_b(reports), "2", "a", &[]), None),
        ("the bad stop is mended", then(finds_b(mends), "2", "a", &[]), Some((2, &[121, 65, 0, 0]))),
        ("nothing to do, and the second team can't", then(by_hand(1, 2, &[], "1", "", "1", &[]), "2", "a", &[]), None),
    ]
}
