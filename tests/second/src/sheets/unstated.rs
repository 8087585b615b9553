//! Rights that a sheet does not state: to every post from 1 to M, in the team or not, a look is open and a set closed
//! (request R-2). What is to be printed is worked out here, from what each sheet says of one setting.

use super::expect;
use crate::report::Group;
use crate::rng::Rng;
use crate::sheet::answer;

/// What a sheet says of a right.
#[derive(Clone, Copy, PartialEq, Eq)]
enum Said {
    Nothing,
    Never,
    Always,
}

const SAID: [Said; 3] = [Said::Nothing, Said::Never, Said::Always];

/// Of a setting, by post: what is said of the right to look at it, and of the right to set it.
type Rights = Vec<[Said; 2]>;

/// A sheet's rules, by setting.
struct Sheet {
    m: usize,
    settings: Vec<Rights>,
}

impl Sheet {
    fn any(rng: &mut Rng, n: usize, m: usize) -> Sheet {
        let settings = (0..n).map(|_| (0..m).map(|_| [rng.one_of(&SAID), rng.one_of(&SAID)]).collect()).collect();
        Sheet { m, settings }
    }

    fn silent(n: usize, m: usize) -> Sheet {
        Sheet { m, settings: vec![vec![[Said::Nothing; 2]; m]; n] }
    }

    fn lines(&self) -> String {
        let mut lines = format!("size {} {}\n", self.settings.len(), self.m);
        for (letter, rights) in ('a'..).zip(&self.settings) {
            for (post, said) in (1..).zip(rights) {
                for (verb, said) in ["read", "write"].iter().zip(said) {
                    match said {
                        Said::Nothing => {}
                        Said::Never => lines += &format!("{verb} {letter} {post} 0\n"),
                        Said::Always => lines += &format!("{verb} {letter} {post} 1\n"),
                    }
                }
            }
        }
        lines
    }

    /// Can this team learn the setting, make it true, and both? Of posts that may act the plan has the first.
    fn asked(&self, group: &mut Group, team: u8, setting: usize) {
        let first = |right: usize, open: &[Said]| {
            let may = |&post: &usize| team >> post & 1 == 1 && open.contains(&self.settings[setting][post][right]);
            (0..self.m).find(may).map(|post| post + 1)
        };
        let looks = first(0, &[Said::Nothing, Said::Always]);
        let sets = first(1, &[Said::Always]);
        let letter = (b'a' + setting as u8) as char;
        let learn = looks.map(|post| format!("reach 1\n0 look {letter} {post}\n1 stop\n1 stop\n"));
        let make = sets.map(|post| format!("reach 1\n0 set {letter} {post} 1\n1 stop\n"));
        let both = looks
            .zip(sets)
            .map(|(look, set)| format!("reach 2\n0 look {letter} {look}\n1 set {letter} {set} 1\n2 stop\n1 stop\n"));
        let posts: String = (0..self.m).filter(|post| team >> post & 1 == 1).map(|q| format!(" {}", q + 1)).collect();
        let goals = [
            (format!("make 1\nask {letter}\n"), learn),
            (format!("make {letter}\n"), make),
            (format!("make {letter}\nask {letter}\n"), both),
        ];
        for (goal, reached) in goals {
            let sheet = [&self.lines(), &format!("team{posts}\nknown\n"), &goal].map(String::as_str).concat();
            let printed = reached.unwrap_or("cannot\n".to_string());
            group.case(answer(sheet.as_bytes()) == printed, || format!("this program's own answer to {sheet:?}"));
            expect(group, sheet.as_bytes(), printed.len(), &printed);
        }
    }
}

fn teams(m: usize) -> impl Iterator<Item = u8> {
    1..=u8::MAX >> (8 - m)
}

/// One setting, up to three posts, every team.
pub fn every_mixture(group: &mut Group) {
    for m in 1..=3 {
        let mixtures = 9usize.pow(m as u32);
        for mixture in 0..mixtures {
            let said = |post: usize| mixture / 9usize.pow(post as u32) % 9;
            let rights = (0..m).map(|post| [SAID[said(post) / 3], SAID[said(post) % 3]]).collect();
            let sheet = Sheet { m, settings: vec![rights] };
            teams(m).for_each(|team| sheet.asked(group, team, 0));
        }
    }
}

/// No right stated, for every team; and each post alone, with all that is stated said of the others.
pub fn every_post(group: &mut Group) {
    for m in 1..=8 {
        for n in 1..=2 {
            let silent = Sheet::silent(n, m);
            teams(m).for_each(|team| silent.asked(group, team, n - 1));
        }
        for post in 0..m {
            for said in [Said::Never, Said::Always] {
                let mut others = Sheet::silent(2, m);
                for (_, rights) in others.settings[1].iter_mut().enumerate().filter(|(other, _)| *other != post) {
                    *rights = [said; 2];
                }
                let all = u8::MAX >> (8 - m);
                for team in [1 << post, all & !(1 << post), all].into_iter().filter(|&team| team != 0) {
                    others.asked(group, team, 0);
                    others.asked(group, team, 1);
                }
            }
        }
    }
}

pub fn any_mixture(group: &mut Group) {
    for (n, count) in [(1, 200), (2, 200), (3, 100), (4, 20), (5, 4)] {
        for _ in group.times(count) {
            let m = group.rng.between(1, 8);
            let sheet = Sheet::any(&mut group.rng, n, m);
            let team = group.rng.between(1, (1 << m) - 1) as u8;
            let setting = group.rng.below(n);
            sheet.asked(group, team, setting);
        }
    }
}
