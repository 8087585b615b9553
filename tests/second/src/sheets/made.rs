//! Sheets made at random, the longest ones, and the one with the greatest height.

use crate::formula::LENGTH_MOST;
use crate::grow::{sentence, SHAPES};
use crate::rng::Rng;
use crate::spoilt::{joined, Lines};

fn any_formula(rng: &mut Rng, n: usize) -> Vec<u8> {
    match rng.below(8) {
        0 | 1 => b"1".to_vec(),
        2 => rng.one_of(&[&b"0"[..], b"~1", b"a|~a"]).to_vec(),
        3..=5 => {
            let letters = (0..rng.between(1, 3)).map(|_| {
                let letter = b'a' + rng.below(n) as u8;
                if rng.chance(50) {
                    vec![letter]
                } else {
                    vec![b'~', letter]
                }
            });
            letters.collect::<Vec<_>>().join(&b'&')
        }
        _ => {
            let (shape, length) = (rng.one_of(SHAPES), rng.between(1, 20));
            sentence(rng, shape, n, length)
        }
    }
}

fn shuffled<T>(rng: &mut Rng, mut things: Vec<T>) -> Vec<T> {
    for i in 1..things.len() {
        things.swap(i, rng.below(i + 1));
    }
    things
}

/// All rights of n settings and m posts, each with this chance, in any order.
fn any_rights(rng: &mut Rng, n: usize, m: usize, percent: u32) -> Lines {
    let mut lines = Lines::new();
    for setting in 0..n {
        for post in 1..=m {
            for verb in ["read", "write"] {
                if rng.chance(percent) {
                    let words = format!("{verb} {} {post} ", (b'a' + setting as u8) as char);
                    lines.push([words.as_bytes(), &any_formula(rng, n)].concat());
                }
            }
        }
    }
    shuffled(rng, lines)
}

pub fn any_sheet(rng: &mut Rng, n: usize) -> Lines {
    let m = rng.one_of(&[1, 1, 2, 2, 3, 8]);
    let percent = rng.one_of(&[30, 70, 100]);
    any_sheet_of(rng, n, m, percent)
}

pub fn any_sheet_of(rng: &mut Rng, n: usize, m: usize, percent: u32) -> Lines {
    let rules = any_rules_of(rng, n, m, percent);
    [rules, any_question_of(rng, n, m)].concat()
}

/// The lines of a sheet before its team.
pub fn any_rules_of(rng: &mut Rng, n: usize, m: usize, percent: u32) -> Lines {
    let mut lines = vec![format!("size {n} {m}").into_bytes()];
    lines.extend(any_rights(rng, n, m, percent));
    lines
}

/// The lines of a sheet from its team on.
pub fn any_question_of(rng: &mut Rng, n: usize, m: usize) -> Lines {
    let mut lines = Lines::new();
    let posts = shuffled(rng, (1..=m).collect());
    let count = rng.between(1, m);
    lines.push(
        posts[..count].iter().fold(b"team".to_vec(), |line, post| [&line, format!(" {post}").as_bytes()].concat()),
    );
    let settings = shuffled(rng, (0..n).collect());
    let count = rng.below(n + 1);
    let known = settings[..count].iter().map(|&i| {
        let turned = if rng.chance(50) { "~" } else { "" };
        format!(" {turned}{}", (b'a' + i as u8) as char)
    });
    lines.push([b"known", known.collect::<String>().as_bytes()].concat());
    if rng.chance(40) {
        let settings = shuffled(rng, (0..n).collect());
        let count = rng.below(n + 1).min(rng.below(n + 1));
        lines.push(
            settings[..count].iter().fold(b"held".to_vec(), |line, &i| [&line[..], &[b' ', b'a' + i as u8]].concat()),
        );
    }
    lines.push([b"make ", &any_formula(rng, n)[..]].concat());
    for _ in 0..rng.one_of(&[0, 0, 1, 2, 3, 4]) {
        lines.push([b"ask ", &any_formula(rng, n)[..]].concat());
    }
    lines
}

/// A sheet of few and short lines, for damage at every byte of it.
pub fn small_sheet(rng: &mut Rng) -> Lines {
    loop {
        let n = rng.between(1, 3);
        let m = rng.between(1, 2);
        let lines = any_sheet_of(rng, n, m, 40);
        if joined(&lines).len() < 110 {
            return lines;
        }
    }
}

/// Every line that a sheet can have, each formula of 255 bytes: 22,607 bytes for five settings and eight posts.
pub fn longest_sheet(rng: &mut Rng, n: usize, m: usize) -> Vec<u8> {
    let mut lines = any_sheet_of(rng, n, m, 100);
    lines.truncate(1 + 2 * n * m);
    for line in &mut lines[1..] {
        let before = line.splitn(4, |&byte| byte == b' ').take(3).collect::<Vec<_>>().join(&b' ');
        *line = [&before[..], b" ", &long_formula(rng, n)].concat();
    }
    let posts = (1..=m).map(|post| format!(" {post}")).collect::<String>();
    let settings = (0..n).map(|i| format!(" ~{}", (b'a' + i as u8) as char)).collect::<String>();
    lines.push(format!("team{posts}").into_bytes());
    lines.push(format!("known{settings}").into_bytes());
    lines.push(format!("held{}", settings.replace('~', "")).into_bytes());
    lines.push([b"make ", &long_formula(rng, n)[..]].concat());
    for _ in 0..4 {
        lines.push([b"ask ", &long_formula(rng, n)[..]].concat());
    }
    joined(&lines)
}

fn long_formula(rng: &mut Rng, n: usize) -> Vec<u8> {
    let shape = rng.one_of(SHAPES);
    sentence(rng, shape, n, LENGTH_MOST)
}

/// The book of greatest rank (questions.rs) as a sheet: 2, 6, 14, 30 and 62 acts.
pub fn climb(n: usize) -> String {
    let letters: Vec<String> = (0..n).map(|i| ((b'a' + i as u8) as char).to_string()).collect();
    let mut sheet = format!("size {n} 1\n");
    for j in 0..n {
        let mut before = letters[..j].to_vec();
        before.push("1".to_string());
        sheet += &format!("read {} 1 {}\n", letters[j], before.join("&"));
        let mut set = letters[..j.saturating_sub(1)].to_vec();
        set.extend(letters[j.saturating_sub(1)..j].iter().map(|letter| format!("~{letter}")));
        set.push(format!("~({})", letters[j..].join("&")));
        sheet += &format!("write {} 1 {}\n", letters[j], set.join("&"));
    }
    sheet + &format!("team 1\nknown\nmake {}\n", letters.join("&"))
}
