//! Questions to ask: written by hand, hard ones, and random ones that have something to find.

use crate::books::written;
use crate::formula::{self, Table};
use crate::question::Question;
use crate::rng::Rng;
use crate::tables::{any_rights, any_table, conjunction, letter, rights, table};

/// A question in the words of a sheet: rights as `write a 2 ~c`, posts and settings as `1 2` and `a ~b`. Of the book all
/// other tables are zero, those of looks too: a book has no rights that are not stated.
pub fn by_hand(n: usize, m: usize, stated: &[&str], team: &str, known: &str, make: &str, learn: &[&str]) -> Question {
    let formula = |text: &str| formula::read(n as u64, text.as_bytes()).unwrap_or_else(|_| panic!("{text}"));
    let rule = |setting: usize, post: usize, look: bool| {
        let verb = if look { "read" } else { "write" };
        let words = format!("{verb} {} {} ", (b'a' + setting as u8) as char, post + 1);
        stated.iter().find_map(|line| line.strip_prefix(&words)).map_or([0; 16], formula)
    };
    let mut question = Question {
        book: written(n, m, &rights(n, m, rule)),
        team: team.split(' ').fold(0, |team, post| team | 1 << (post.parse::<u8>().unwrap() - 1)),
        known: 0,
        values: 0,
        held: 0,
        make: formula(make).to_vec(),
        learn: learn.iter().flat_map(|text| formula(text)).collect(),
    };
    for word in known.split_whitespace() {
        let bit = 1 << (word.trim_start_matches('~').as_bytes()[0] - b'a');
        question.known |= bit;
        question.values |= if word.starts_with('~') { 0 } else { bit };
    }
    question
}

/// A setting under another letter, and perhaps turned.
type Letters = Vec<(usize, bool)>;

pub fn plain_letters(n: usize) -> Letters {
    (0..n).map(|i| (i, true)).collect()
}

pub fn any_letters(rng: &mut Rng, n: usize) -> Letters {
    let mut letters = plain_letters(n);
    for i in 0..n {
        letters.swap(i, rng.between(i, n - 1));
        letters[i].1 = rng.chance(50);
    }
    letters
}

/// A rule of the book whose rank is the greatest there is, 2^(n+1) − 2: setting j may be looked at where all settings
/// before it are true; it may be set where the settings before j − 1 are true, j − 1 is false, and not all of j to
/// n − 1 are true.
fn climbing_rule(letters: &Letters, j: usize, look: bool) -> u128 {
    let all_true = |range: std::ops::Range<usize>| {
        range
            .map(|j| letters[j])
            .fold(u128::MAX, |bits, (i, turned)| bits & if turned { letter(i) } else { !letter(i) })
    };
    if look {
        all_true(0..j)
    } else if j == 0 {
        !all_true(0..letters.len())
    } else {
        all_true(0..j - 1) & !all_true(j - 1..j) & !all_true(j..letters.len())
    }
}

/// The book of greatest rank. Each rule is that of one drawn post of m, and the goal is that all are true.
pub fn climb(rng: &mut Rng, letters: &Letters, m: usize) -> Question {
    let n = letters.len();
    let mut tables = vec![[[[0; 16]; 2]; 8]; n];
    for j in 0..n {
        for look in [true, false] {
            tables[letters[j].0][rng.below(m)][usize::from(look)] = table(n, climbing_rule(letters, j, look));
        }
    }
    let goal = letters.iter().fold(u128::MAX, |bits, &(i, turned)| bits & if turned { letter(i) } else { !letter(i) });
    Question {
        book: written(n, m, &rights(n, m, |setting, post, look| tables[setting][post][usize::from(look)])),
        team: (u8::MAX >> (8 - m)),
        known: 0,
        values: 0,
        held: 0,
        make: table(n, goal).to_vec(),
        learn: vec![],
    }
}

/// The book of greatest rank with some rules drawn anew, and another goal and start perhaps.
pub fn spoilt_climb(rng: &mut Rng, n: usize) -> Question {
    let m = rng.between(1, 3);
    let letters = any_letters(rng, n);
    let climb = climb(rng, &letters, m);
    let mut tables = crate::book::read(&climb.book, usize::MAX).unwrap_or_else(|_| panic!("a sound book")).rights;
    for _ in 0..rng.below(3) {
        let at = rng.below(n) * 256 + rng.below(m) * 32 + rng.below(2) * 16;
        tables[at..at + 16].copy_from_slice(&any_table(rng, n));
    }
    let mut question = Question { book: written(n, m, &tables), ..climb };
    if rng.chance(30) {
        question.make = any_goal(rng, n).to_vec();
    }
    if rng.chance(30) {
        question.learn = any_learn(rng, n);
    }
    if rng.chance(30) {
        (question.known, question.values) = any_start(rng, n);
    }
    if rng.chance(30) {
        question.held = any_held(rng, n);
    }
    question
}

pub fn any_question(rng: &mut Rng, n: usize) -> Question {
    if rng.chance(25) {
        return spoilt_climb(rng, n);
    }
    let m = rng.between(1, 8);
    let rights = match rng.below(3) {
        0 => any_rights(rng, n, m),
        1 => thin_rights(rng, n, m, 60),
        _ => thin_rights(rng, n, m, 85),
    };
    any_question_of(rng, n, m, &rights)
}

pub fn any_question_of(rng: &mut Rng, n: usize, m: usize, rights: &[u8]) -> Question {
    let (make, learn) = any_make_and_learn(rng, n);
    let (known, values) = any_start(rng, n);
    let (team, held) = (any_team(rng, m), any_held(rng, n));
    Question { book: written(n, m, rights), team, known, values, held, make, learn }
}

/// A goal's tables: often something to learn, and then often nothing to make.
pub fn any_make_and_learn(rng: &mut Rng, n: usize) -> (Vec<u8>, Vec<u8>) {
    let learn = any_learn(rng, n);
    let nothing_to_make = !learn.is_empty() && rng.chance(50);
    let make = if nothing_to_make { table(n, u128::MAX) } else { any_goal(rng, n) };
    (make.to_vec(), learn)
}

/// Most rules are closed or ask for the values of many settings.
fn thin_rights(rng: &mut Rng, n: usize, m: usize, closed: u32) -> Vec<u8> {
    rights(n, m, |_, _, look| match rng.below(10) {
        _ if rng.chance(closed) => [0; 16],
        0 => any_table(rng, n),
        1..=3 if look => table(n, u128::MAX),
        _ => table(n, conjunction(rng, n, 60)),
    })
}

pub fn any_team(rng: &mut Rng, m: usize) -> u8 {
    let all = u8::MAX >> (8 - m);
    match rng.byte() & all {
        team if team != 0 && rng.chance(60) => team,
        _ => all,
    }
}

fn any_start(rng: &mut Rng, n: usize) -> (u8, u8) {
    let some = rng.byte();
    let known = rng.byte() & rng.one_of(&[0, some, u8::MAX]) & (u8::MAX >> (8 - n));
    (known, known & rng.byte())
}

/// Often none, else few more often than many.
pub fn any_held(rng: &mut Rng, n: usize) -> u8 {
    let few = rng.byte() & rng.byte();
    rng.byte() & rng.one_of(&[0, 0, few, few, u8::MAX]) & (u8::MAX >> (8 - n))
}

fn any_goal(rng: &mut Rng, n: usize) -> Table {
    if rng.chance(70) {
        table(n, conjunction(rng, n, 50))
    } else {
        any_table(rng, n)
    }
}

fn any_learn(rng: &mut Rng, n: usize) -> Vec<u8> {
    let count = rng.one_of(&[0, 0, 0, 1, 1, 1, 2, 3, 4]);
    (0..count).flat_map(|_| any_learn_table(rng, n)).collect()
}

pub fn any_learn_table(rng: &mut Rng, n: usize) -> Table {
    match rng.below(3) {
        0 => any_table(rng, n),
        1 => table(n, letter(rng.below(n))),
        _ => table(n, letter(rng.below(n)) ^ letter(rng.below(n))),
    }
}
