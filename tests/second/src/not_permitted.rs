//! The cases for refusal 18's second number, from the words of requests, and for 32, from R-9's: each kind of act, at every digit of the setting
//! acted on and of a setting that the rule speaks of, with rules that are true at all fitting valuations, false at all
//! and neither. Each group tests itself: it has come to all of them, and to nothing else.
//!
//! One post may do anything and leads to the digits. Another has the rule, and does the act.

use std::collections::BTreeSet;

use crate::books::written;
use crate::checking::expect;
use crate::formula::{self, Table};
use crate::knowledge::Judgement::{self, FalseAtAll, Neither, TrueAtAll};
use crate::knowledge::{Act, Kind, Knowledge, DIGITS, KINDS, SETTINGS_MOST};
use crate::plan::check;
use crate::question::Question;
use crate::refusal::Refusal;
use crate::report::Group;
use crate::rng::Rng;
use crate::tables::{any_table, rights, table};

/// The column of `RULES` for a digit: nobody knows the present value, or it is false, or true.
const COLUMN: [usize; 7] = [0, 1, 2, 1, 2, 1, 2];

/// Rules that speak of a setting s, and what they come to where it is unknown, false or true now. A setting u stays
/// unknown.
const RULES: &[(&str, [Judgement; 3])] = &[
    ("s", [Neither, FalseAtAll, TrueAtAll]),
    ("~s", [Neither, TrueAtAll, FalseAtAll]),
    ("s|~s", [TrueAtAll, TrueAtAll, TrueAtAll]),
    ("s&~s", [FalseAtAll, FalseAtAll, FalseAtAll]),
    ("s&u", [Neither, FalseAtAll, Neither]),
    ("~s&u", [Neither, Neither, FalseAtAll]),
    ("s|u", [Neither, Neither, TrueAtAll]),
    ("~s|~u", [Neither, TrueAtAll, Neither]),
    ("s&u|~s&~u", [Neither, Neither, Neither]),
    ("s&u|~s&u|~u", [TrueAtAll, TrueAtAll, TrueAtAll]),
    ("s&(u|~u)", [Neither, FalseAtAll, TrueAtAll]),
    ("(s|u)&~u&~s", [FalseAtAll, FalseAtAll, FalseAtAll]),
];

#[derive(Clone, Copy)]
enum Step {
    Set(bool),
    /// A look, on the branch of what was seen.
    Seen(bool),
}

/// How a digit comes about: what is known of the setting at the start, and the steps from there.
type Way = (Option<bool>, &'static [Step]);

const WAYS: [&[Way]; 7] = {
    use Step::{Seen, Set};
    [
        &[(None, &[])],
        &[(None, &[Set(false)]), (None, &[Set(true), Set(false)])],
        &[(None, &[Set(true)]), (None, &[Set(false), Set(true)])],
        &[(Some(false), &[]), (None, &[Seen(false)]), (None, &[Seen(false), Set(true), Set(false)])],
        &[(Some(false), &[Set(true)]), (None, &[Seen(false), Set(true)])],
        &[(Some(true), &[Set(false)]), (None, &[Seen(true), Set(false)])],
        &[(Some(true), &[]), (None, &[Seen(true)]), (Some(true), &[Set(false), Set(true)])],
    ]
};

/// What this program's own check came to: the act's kind, the digits of the setting acted on and of the one spoken of, the
/// judgement on the rule, and the refusal's number and second number, or none where the act is permitted. The setting acted
/// on is held in all cases of a group or in none.
type CameTo = (Kind, usize, usize, Judgement, Told);

type Told = Option<(u32, Option<u32>)>;

/// In request R-3's words: 0 for a look at a known setting, 1 surely false, 2 not known, judged in that order. In R-7's
/// words: a plan that sets a held setting gets second number 3, judged first. In R-9's words: where the team knows the
/// present value, setting that same value is no longer an act; 32, after 18 at the same byte.
fn told(kind: Kind, digit: usize, judgement: Judgement, held: bool) -> Told {
    match (kind, digit, judgement) {
        (Kind::Set(_), _, _) if held => Some((18, Some(3))),
        (Kind::Look, 1..=6, _) => Some((18, Some(0))),
        (_, _, FalseAtAll) => Some((18, Some(1))),
        (_, _, Neither) => Some((18, Some(2))),
        (Kind::Set(false), 1 | 3 | 5, TrueAtAll) => Some((32, None)),
        (Kind::Set(true), 2 | 4 | 6, TrueAtAll) => Some((32, None)),
        (_, _, TrueAtAll) => None,
    }
}

/// The rule speaks of another setting than the one acted on.
pub fn every_digit(group: &mut Group) {
    let digits: Vec<[usize; 2]> = (0..49).map(|pair| [pair / 7, pair % 7]).collect();
    let mut came_to = BTreeSet::new();
    for _ in group.times(1) {
        for [acted_digit, spoken_digit] in &digits {
            for &to_acted in WAYS[*acted_digit] {
                for &to_spoken in WAYS[*spoken_digit] {
                    let n = group.rng.between(3, SETTINGS_MOST);
                    let [acted, spoken, unknown] = mixed(&mut group.rng, n)[..3] else { unreachable!() };
                    let ways = vec![(acted, to_acted), (spoken, to_spoken)];
                    each_rule(group, &Scene { n, acted, spoken, unknown, ways, held: false }, &mut came_to);
                }
            }
        }
    }
    each_was_come_to(group, &digits, &came_to, false);
}

/// The setting acted on is held: what is known of it comes from the start and from looks alone, so its digit is 0, 3 or 6.
pub fn held(group: &mut Group) {
    let digits: Vec<[usize; 2]> =
        [0, 3, 6].iter().flat_map(|&acted| (0..7).map(move |spoken| [acted, spoken])).collect();
    let mut came_to = BTreeSet::new();
    for _ in group.times(1) {
        for [acted_digit, spoken_digit] in &digits {
            let without_sets = |way: &&Way| way.1.iter().all(|step| matches!(step, Step::Seen(_)));
            for &to_acted in WAYS[*acted_digit].iter().filter(without_sets) {
                for &to_spoken in WAYS[*spoken_digit] {
                    let n = group.rng.between(3, SETTINGS_MOST);
                    let [acted, spoken, unknown] = mixed(&mut group.rng, n)[..3] else { unreachable!() };
                    let ways = vec![(acted, to_acted), (spoken, to_spoken)];
                    each_rule(group, &Scene { n, acted, spoken, unknown, ways, held: true }, &mut came_to);
                }
            }
        }
    }
    each_was_come_to(group, &digits, &came_to, true);
}

/// The rule speaks of the setting acted on itself.
pub fn own_digit(group: &mut Group) {
    let digits: Vec<[usize; 2]> = (0..7).map(|digit| [digit, digit]).collect();
    let mut came_to = BTreeSet::new();
    for _ in group.times(5) {
        for &way in WAYS.iter().copied().flatten() {
            let n = group.rng.between(2, SETTINGS_MOST);
            let [acted, unknown] = mixed(&mut group.rng, n)[..2] else { unreachable!() };
            let ways = vec![(acted, way)];
            each_rule(group, &Scene { n, acted, spoken: acted, unknown, ways, held: false }, &mut came_to);
        }
    }
    each_was_come_to(group, &digits, &came_to, false);
}

/// All numbers below `count` in a drawn order.
fn mixed(rng: &mut Rng, count: usize) -> Vec<usize> {
    let mut numbers: Vec<usize> = (0..count).collect();
    for i in 0..count {
        numbers.swap(i, rng.between(i, count - 1));
    }
    numbers
}

/// The settings that matter, and how their digits come about.
struct Scene {
    n: usize,
    acted: usize,
    spoken: usize,
    unknown: usize,
    ways: Vec<(usize, Way)>,
    held: bool,
}

fn each_rule(group: &mut Group, scene: &Scene, came_to: &mut BTreeSet<CameTo>) {
    for (text, judgements) in RULES {
        for kind in KINDS {
            let [free, post] = mixed(&mut group.rng, 8)[..2] else { unreachable!() };
            let act = Act { kind, setting: scene.acted, post };
            let question = scene.question(&mut group.rng, free, act, scene.rule(text));
            let lead = scene.lead(&question, free);
            let (acted, spoken) = (lead.digit(scene.acted), lead.digit(scene.spoken));
            let judgement = judgements[COLUMN[spoken]];
            let refused = |(number, second)| Refusal { number, place: lead.bytes.len() as u32, second };
            let expected = told(kind, acted, judgement, scene.held).map_or(Ok(()), |numbers| Err(refused(numbers)));
            let plan = lead.then(act);
            let own = check(&question, &plan);
            group.case(own == expected, || {
                format!("this program's own check of {text}, {kind:?} at digits {acted} and {spoken}")
            });
            expect(group, &question, &plan, expected);
            came_to.insert((kind, acted, spoken, judgement, own.err().map(|refusal| (refusal.number, refusal.second))));
        }
    }
}

impl Scene {
    /// The table of a rule of `RULES`.
    fn rule(&self, text: &str) -> Table {
        let letter = |setting: usize| ((b'a' + setting as u8) as char).to_string();
        let text = text.replace('s', &letter(self.spoken)).replace('u', &letter(self.unknown));
        formula::read(self.n as u64, text.as_bytes()).unwrap_or_else(|refusal| panic!("{text} was {refusal}"))
    }

    /// The act has the rule. The free post may do anything, all other rules and what is known of all other settings are
    /// drawn, and every stop is settled. Of the settings that no step leads through any may be held.
    fn question(&self, rng: &mut Rng, free: usize, act: Act, rule: Table) -> Question {
        let n = self.n;
        let m = rng.between(free.max(act.post) + 1, 8);
        let rights = rights(n, m, |setting, post, look| {
            let has_rule = (setting, post, look) == (act.setting, act.post, act.kind == Kind::Look);
            match post {
                _ if has_rule => rule,
                _ if post == free => table(n, u128::MAX),
                _ => any_table(rng, n),
            }
        });
        let others = !(1 << self.acted | 1 << self.spoken | 1 << self.unknown) & (u8::MAX >> (8 - n));
        let mut known = rng.byte() & others;
        let mut values = rng.byte() & known;
        for &(setting, (start, _)) in &self.ways {
            known |= u8::from(start.is_some()) << setting;
            values |= u8::from(start == Some(true)) << setting;
        }
        let (book, make) = (written(n, m, &rights), table(n, u128::MAX).to_vec());
        let held = rng.byte() & others | u8::from(self.held) << self.acted;
        Question { book, team: 1 << free | 1 << act.post, known, values, held, make, learn: vec![] }
    }

    fn lead(&self, question: &Question, free: usize) -> Lead {
        let start = Knowledge::at_start(self.n, question.known, question.values);
        let mut lead = Lead { bytes: vec![], state: start, waiting: 0 };
        for &(setting, (_, steps)) in &self.ways {
            steps.iter().for_each(|&step| lead.go(setting, free, step));
        }
        lead
    }
}

/// The bytes that lead to an act, the knowledge there, and how many branches still wait for their plan.
struct Lead {
    bytes: Vec<u8>,
    state: Knowledge,
    waiting: usize,
}

impl Lead {
    fn go(&mut self, setting: usize, post: usize, step: Step) {
        let (kind, outcome) = match step {
            Step::Set(value) => (Kind::Set(value), 0),
            Step::Seen(value) => (Kind::Look, usize::from(value)),
        };
        let act = Act { kind, setting, post };
        self.bytes.push(act.byte());
        self.state = act.outcomes(&self.state)[outcome];
        match step {
            Step::Set(_) => {}
            Step::Seen(false) => self.waiting += 1,
            Step::Seen(true) => self.bytes.push(0), // the false outcome's plan comes first, and stops
        }
    }

    fn digit(&self, setting: usize) -> usize {
        DIGITS.iter().position(|&row| row == self.state.of_setting(setting)).expect("a row of the paper's table")
    }

    /// The act, and a stop on each branch that is left.
    fn then(&self, act: Act) -> Vec<u8> {
        let stops = act.outcomes(&self.state).len() + self.waiting;
        [&self.bytes[..], &[act.byte()], &vec![0; stops]].concat()
    }
}

/// At each of these digits each kind of act came to each judgement, with the numbers that it has there. Nothing else was
/// come to: no set had 18 with 0, and no look 32.
fn each_was_come_to(group: &mut Group, digits: &[[usize; 2]], came_to: &BTreeSet<CameTo>, held: bool) {
    let mut count = 0;
    for &[acted, spoken] in digits {
        for kind in KINDS {
            for judgement in [TrueAtAll, FalseAtAll, Neither] {
                let case = (kind, acted, spoken, judgement, told(kind, acted, judgement, held));
                group.case(came_to.contains(&case), || format!("never {case:?}"));
                count += 1;
            }
        }
    }
    group.case(came_to.len() == count, || format!("{} combinations, and not {count}", came_to.len()));
}
