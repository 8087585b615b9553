//! The cases for question texts put to books: what is printed, in rooms of any length, and all ranks are compared with
//! `text.rs`.

use crate::book::BLOCK;
use crate::books::{repaired, written};
use crate::ffi;
use crate::finder::Solution;
use crate::questions::{any_letters, by_hand, climb};
use crate::refusal::{refusal, Refusal};
use crate::report::{shown, sparse, Group, Subject};
use crate::rng::Rng;
use crate::room::Room;
use crate::sheet::printed;
use crate::sheets::made::{any_question_of, any_rules_of};
use crate::spoilt::{
    cut_short, every_byte, joined, line_faults, moved_lines, odd_lines, two_bytes, with_passed_over, Lines, Texts,
    ODD_LINES,
};
use crate::tables::any_rights;
use crate::text::{self, found, solution, TEXT_MOST};

/// Lines of the longest question: a team, what is known, what is held, a make and four asks.
const LINES_MOST: u32 = 8;

pub fn test(subject: &mut Subject) {
    subject.group("points settled by hand", points);
    for (n, count) in [(1, 300), (2, 400), (3, 200), (4, 60), (5, 15), (6, 4), (7, 2)] {
        subject.group(&format!("random questions, n = {n}"), |group| random(group, n, count));
    }
    subject.group("the longest answers, n up to 7", longest_answers);
    subject.group("out rooms of every length up to the answer's and past it", out_rooms);
    subject.group("rank tables of every length near the limit", rank_rooms);
    subject.group("odd lines at every place", |group| odd_lines::<Questions>(group, 6));
    subject.group("lines lost, doubled and in another order", |group| moved_lines::<Questions>(group, 60));
    subject.group("damaged at every byte", |group| every_byte::<Questions>(group, 5));
    subject.group("damaged at two bytes", |group| two_bytes::<Questions>(group, 6_000));
    subject.group("cut short at every byte", |group| cut_short::<Questions>(group, 20));
    subject.group("letters and digits past the size, for every n and m", past_the_size);
    subject.group("each fault in each line of the longest question", every_line);
    subject.group("damaged books", books);
    subject.group("several faults at once", faults);
    subject.group("lengths around 65,536", lengths);
    subject.group("random bytes and random lines", rubbish);
    for number in [1, 2, 3, 4] {
        subject.must_reach(number, 3..=LINES_MOST);
    }
    subject.must_reach(22, 1..=LINES_MOST + 1);
    subject.must_reach(22, TEXT_MOST as u32..=TEXT_MOST as u32 + 1);
    subject.must_reach(23, 1..=3);
    for number in [6, 8, 13, 24] {
        subject.must_reach(number, 0..=0);
    }
    subject.must_reach(7, 0..=7);
    subject.must_reach(9, 1..=7);
}

struct Questions;

impl Texts for Questions {
    type To = Vec<u8>;

    fn any(rng: &mut Rng) -> (Vec<u8>, Lines) {
        let (n, m) = (rng.between(1, 3), rng.between(1, 8));
        let lines = any_question_of(rng, n, m);
        (any_book(rng, n, m), with_passed_over(rng, &lines))
    }

    fn small(rng: &mut Rng) -> (Vec<u8>, Lines) {
        loop {
            let (n, m) = (rng.between(1, 3), rng.between(1, 3));
            let lines = any_question_of(rng, n, m);
            let lines = with_passed_over(rng, &lines);
            if joined(&lines).len() < 80 {
                return (any_book(rng, n, m), lines);
            }
        }
    }

    fn compare(group: &mut Group, book: &Vec<u8>, question: &[u8]) {
        compare(group, book, question);
    }
}

/// A book of rules that people write, or of any.
fn any_book(rng: &mut Rng, n: usize, m: usize) -> Vec<u8> {
    if rng.chance(30) {
        let rights = any_rights(rng, n, m);
        return written(n, m, &rights);
    }
    let percent = rng.one_of(&[30, 70, 100]);
    let rules = joined(&any_rules_of(rng, n, m, percent));
    text::book(&rules, usize::MAX).unwrap_or_else(|refusal| panic!("sound rules were {refusal}"))
}

/// One case: the library and this program on the same book and text, in rooms that are long enough or, at times, not.
fn compare(group: &mut Group, book: &[u8], question: &[u8]) {
    let solution = solution(book, question);
    let ranks = solution.as_ref().map_or(50, |solution| solution.ranks.len());
    let rank_room = match group.rng.below(10) {
        0 => group.rng.below(ranks),
        _ => ranks + group.rng.one_of(&[0, 1, 40]),
    };
    let length = printed(&found(&solution, rank_room)).len();
    let out_room = match group.rng.below(4) {
        0 => group.rng.below(length),
        _ => length + group.rng.one_of(&[0, 1, 50]),
    };
    expect(group, book, question, &solution, rank_room, out_room);
}

/// The length given is that of all that is printed; the out room holds as much of it as fits. After "reach" and
/// "cannot" the first 7^n bytes of the rank table hold all ranks. Nothing else is touched.
fn expect(
    group: &mut Group,
    book: &[u8],
    question: &[u8],
    solution: &Result<Solution, Refusal>,
    rank_room: usize,
    out_room: usize,
) {
    let mut lent_book = Room::holding(book, &[0, 1, 255], &mut group.rng);
    let mut text = Room::holding(question, b"\n#1a ", &mut group.rng);
    let mut ranks = Room::of(rank_room, &mut group.rng);
    let mut out = Room::of(out_room, &mut group.rng);
    let length = ffi::ask(&mut lent_book, &mut text, &mut ranks, &mut out);

    let found = found(solution, rank_room);
    let printed = printed(&found);
    let (mut ranks_left, mut out_left) = (ranks.lent_before().to_vec(), out.lent_before().to_vec());
    if let (Ok(solution), Ok(_)) = (solution, &found) {
        ranks_left[..solution.ranks.len()].copy_from_slice(&solution.ranks);
    }
    let fits = out_room.min(printed.len());
    out_left[..fits].copy_from_slice(&printed.as_bytes()[..fits]);
    let only_read = lent_book.untouched() && text.untouched();
    let right = length == printed.len() as u64 && out.holds(&out_left) && ranks.holds(&ranks_left) && only_read;
    group.case(right, || {
        let mut more = String::new();
        if let Some(k) = (0..rank_room).find(|&k| ranks.lent()[k] != ranks_left[k]) {
            more += &format!("\n        rank {k} is {} and not {}", ranks.lent()[k], ranks_left[k]);
        }
        if !(only_read && ranks.holds(ranks.lent()) && out.holds(out.lent())) {
            more += "\n        more was written";
        }
        format!(
            "{}\n        book {}\n        rank table of {rank_room}, out room of {out_room}\n        \
             expected {}, {printed:?}\n        got      {length}, {}{more}",
            shown(question),
            sparse(book),
            printed.len(),
            shown(out.lent())
        )
    });
    group.came_to(found);
}

const P6: &[&str] = &["write a 2 ~c", "write b 1 a", "read c 2 1", "write c 2 c"];
const P6_ANSWER: &str =
    "reach 4\n0 look c 2\n1 set a 2 1\n2 set b 1 1\n3 stop\n1 set c 2 0\n2 set a 2 1\n3 set b 1 1\n4 stop\n";

/// Questions to a stored book, that of P6 as paper 01 read it: three settings, two posts, and looks closed where P6 says
/// nothing of them. Request R-2: "Stored books mean what they meant."
const TO_P6: &[(&str, &str)] = &[
    ("team 1 2\nknown\nmake b\n", P6_ANSWER),
    ("# a note\n\nteam 1 2\n#\nknown\n\n\nmake b\n# the end\n", P6_ANSWER),
    ("team 1\nknown\nmake b\n", "cannot\n"),
    ("team 1 2\nknown\nmake b\nask a\n", "cannot\n"),
    ("team 1 2\nknown\nmake b\n\nask c\n", P6_ANSWER),
    ("team 2\nknown ~c\nmake ~c\nask c\nask c\n#\n\nask c\nask c\n\n#\n", "reach 0\n0 stop\n"),
    ("", "refused 22 1\n"),
    ("\n", "refused 22 2\n"),
    ("#", "refused 22 1\n"),
    ("#\n", "refused 22 2\n"),
    ("# a note\n\n", "refused 22 3\n"),
    (" \nteam 1\nknown\nmake b\n", "refused 22 1\n"),
    ("\r\nteam 1\nknown\nmake b\n", "refused 22 1\n"),
    ("team 1\r\nknown\r\nmake b\r\n", "refused 22 1\n"),
    ("size 3 2\nteam 1\nknown\nmake b\n", "refused 22 1\n"),
    ("read a 1 1\nteam 1\nknown\nmake b\n", "refused 22 1\n"),
    ("write a 1 1\nteam 1\nknown\nmake b\n", "refused 22 1\n"),
    ("team 1\nread a 1 1\nknown\nmake b\n", "refused 22 2\n"),
    ("team 1\nknown\nmake b\nsize 3 2\n", "refused 22 4\n"),
    ("team 1\nteam 2\nknown\nmake b\n", "refused 22 2\n"),
    ("known\nmake b\n", "refused 22 1\n"),
    ("team 3\nknown\nmake b\n", "refused 22 1\n"),
    ("team 1 2 1\nknown\nmake b\n", "refused 23 1\n"),
    ("team 1 1 3\nknown\nmake b\n", "refused 22 1\n"),
    ("#\nteam 1 1\n", "refused 23 2\n"),
    ("team 1 \nknown\nmake b\n", "refused 22 1\n"),
    ("team 1 # a note\nknown\nmake b\n", "refused 22 1\n"),
    ("team 1", "refused 22 1\n"),
    ("team 1\n", "refused 22 2\n"),
    ("team 1\n\n#\n", "refused 22 4\n"),
    ("team 1 2\nknown\nheld\nmake b\n", P6_ANSWER),
    ("team 1 2\nknown\n# keys\nheld c\nmake b\n", "cannot\n"),
    ("team 1 2\nknown ~c\nheld c\nmake b\n", "reach 2\n0 set a 2 1\n1 set b 1 1\n2 stop\n"),
    ("team 1 2\nknown ~c\nheld c b\nmake b\n", "cannot\n"),
    ("team 2\nknown\nheld c a b\nmake 1\nask c\n", "reach 1\n0 look c 2\n1 stop\n1 stop\n"),
    ("team 1\nheld a\nknown\nmake b\n", "refused 22 2\n"),
    ("team 1\nknown\nheld ~a\nmake b\n", "refused 22 3\n"),
    ("team 1\nknown\nheld d\nmake b\n", "refused 22 3\n"),
    ("team 1\nknown\nheld \nmake b\n", "refused 22 3\n"),
    ("team 1\nknown\nheld a\nheld b\nmake b\n", "refused 22 4\n"),
    ("team 1\nknown\nheld\n", "refused 22 4\n"),
    ("team 1\nknown\nmake b\nheld a\n", "refused 22 4\n"),
    ("team 1\nknown a\n\nheld a b a\nmake b\n", "refused 23 4\n"),
    ("team 1\nknown\nheld a\nmake (\n", "refused 4 4\n"),
    ("team 1\nknown d\nmake b\n", "refused 22 2\n"),
    ("team 1\nknown c ~c\nmake b\n", "refused 23 2\n"),
    ("team 1\n\nknown ~a b ~a\nmake b\n", "refused 23 3\n"),
    ("team 1\nknown \nmake b\n", "refused 22 2\n"),
    ("team 1\nknown\n", "refused 22 3\n"),
    ("team 1\nknown\nmake b", "refused 22 3\n"),
    ("team 1\nknown\nmake b\n#", "refused 22 4\n"),
    ("team 1\nknown\nmake b\n ", "refused 22 4\n"),
    ("team 1\nknown\nmake b\n \n", "refused 22 4\n"),
    ("team 1\nknown\nmake b\n\r\n", "refused 22 4\n"),
    ("team 1\nknown\nmake b\n\n#\nmake b\n", "refused 22 6\n"),
    ("team 1\nknown\nmake\n", "refused 22 3\n"),
    ("team 1\nknown\nmake \n", "refused 1 3\n"),
    ("team 1\nknown\nmake #\n", "refused 2 3\n"),
    ("team 1\nknown\nmake d\n", "refused 3 3\n"),
    ("team 1\nknown\n#\n\nmake (\n", "refused 4 5\n"),
    ("team 1\nknown\nmake b\nask\n", "refused 22 4\n"),
    ("team 1\nknown\nmake b\nask \n", "refused 1 4\n"),
    ("team 1\nknown\nmake b\nask b\nask g\n", "refused 3 5\n"),
    ("team 1\nknown\nmake b\nask b\nask b\nask b\nask b\nask (\n", "refused 22 8\n"),
    ("team 1\nknown\nmake b\nask b\nask b\nask b\nask (\nask b\n", "refused 4 7\n"),
];

/// Questions to the book that the same rules make now, and what is printed.
const TO_P6_NOW: &[(&str, &str)] = &[
    ("team 1 2\nknown\nmake b\n", P6_ANSWER_NOW),
    ("team 2\nknown\nmake 1\nask a\nask b\nask c\n", LOOKS_OF_TWO),
    ("team 1\nknown\nmake b\n", "cannot\n"),
    ("team 1 2\nknown\nmake b\nask a\n", P8_ANSWER_NOW),
    ("team 1 2\nknown\nmake b\nask c\n", P6_ANSWER_NOW),
];
const P6_ANSWER_NOW: &str =
    "reach 4\n0 look c 1\n1 set a 2 1\n2 set b 1 1\n3 stop\n1 set c 2 0\n2 set a 2 1\n3 set b 1 1\n4 stop\n";
const P8_ANSWER_NOW: &str = "reach 5\n0 look a 1\n1 look c 1\n2 set a 2 1\n3 set b 1 1\n4 stop\n2 set c 2 0\n\
    3 set a 2 1\n4 set b 1 1\n5 stop\n1 set b 1 1\n2 stop\n";
const LOOKS_OF_TWO: &str = "reach 3\n0 look a 2\n1 look b 2\n2 look c 2\n3 stop\n3 stop\n2 look c 2\n3 stop\n3 stop\n\
    1 look b 2\n2 look c 2\n3 stop\n3 stop\n2 look c 2\n3 stop\n3 stop\n";

fn points(group: &mut Group) {
    let book = by_hand(3, 2, P6, "1", "", "1", &[]).book;
    let mut points: Vec<(Vec<u8>, &str, &str)> =
        TO_P6.iter().map(|&(text, answer)| (book.clone(), text, answer)).collect();
    let rules = ["size 3 2", &P6.join("\n"), ""].join("\n");
    let now = text::book(rules.as_bytes(), usize::MAX).unwrap_or_else(|refusal| panic!("P6's rules were {refusal}"));
    points.extend(TO_P6_NOW.iter().map(|&(text, answer)| (now.clone(), text, answer)));
    let book = |n, m| by_hand(n, m, &["write a 1 1", "read b 1 a"], "1", "", "1", &[]).book;
    points.extend([
        (
            book(7, 8),
            "team 1 8\nknown g ~f\nmake a&g&~f\nask b\n",
            "reach 2\n0 set a 1 1\n1 look b 1\n2 stop\n2 stop\n",
        ),
        (book(6, 1), "team 1\nknown ~e\nmake a&~e\n", "reach 1\n0 set a 1 1\n1 stop\n"),
        (book(6, 1), "team 1\nknown g\nmake a\n", "refused 22 2\n"),
        (book(6, 1), "team 1\nknown\nmake g\n", "refused 3 3\n"),
        (book(7, 7), "team 8\nknown\nmake a\n", "refused 22 1\n"),
        (vec![], "", "refused 6 0\n"),
        (vec![0; 511], "team 1\nknown\nmake a\n", "refused 6 0\n"),
        (vec![0; 1_024], "", "refused 7 0\n"),
    ]);
    for (book, text, answer) in points {
        let solution = solution(&book, text.as_bytes());
        let own = printed(&found(&solution, usize::MAX));
        group.case(own == answer, || format!("this program's own answer to {text:?}: {own:?}"));
        let ranks = solution.as_ref().map_or(0, |solution| solution.ranks.len());
        expect(group, &book, text.as_bytes(), &solution, ranks, answer.len() + 9);
    }
}

fn random(group: &mut Group, n: usize, count: usize) {
    for _ in group.times(count) {
        let m = group.rng.one_of(&[1, 2, 3, 8]);
        let book = any_book(&mut group.rng, n, m);
        let lines = any_question_of(&mut group.rng, n, m);
        let lines = with_passed_over(&mut group.rng, &lines);
        compare(group, &book, &joined(&lines));
    }
}

/// The book of greatest rank, and the text of its question.
fn climbing(rng: &mut Rng, n: usize) -> (Vec<u8>, String) {
    let letters = any_letters(rng, n);
    let goal: Vec<String> =
        letters.iter().map(|&(i, value)| [if value { "" } else { "~" }, &letter(i)].concat()).collect();
    (climb(rng, &letters, 1).book, format!("team 1\nknown\nmake {}\n", goal.join("&")))
}

fn letter(i: usize) -> String {
    ((b'a' + i as u8) as char).to_string()
}

/// The greatest rank there is, 2^(n+1) − 2, with its plan.
fn longest_answers(group: &mut Group) {
    for n in 1..=7 {
        let (book, text) = climbing(&mut group.rng, n);
        let text = text.as_bytes();
        let solution = solution(&book, text);
        let (ranks, printed) = (7usize.pow(n as u32), printed(&found(&solution, usize::MAX)));
        let first = format!("reach {}\n", (2 << n) - 2);
        group.case(printed.starts_with(&first), || format!("n {n}: {printed:.40}"));
        for out_room in [0, 1, 7, 100, printed.len() - 1, printed.len(), printed.len() + 1, printed.len() + 20_000] {
            expect(group, &book, text, &solution, ranks, out_room);
        }
        for rank_room in [0, 1, ranks / 7, ranks - 1, ranks + 1, ranks + 1_000] {
            expect(group, &book, text, &solution, rank_room, 20);
            expect(group, &book, &[text, b"#"].concat(), &refusal(22, 4), rank_room, 20);
        }
    }
}

fn out_rooms(group: &mut Group) {
    for n in [2, 3] {
        for _ in group.times(4) {
            let (book, text) = match group.rng.below(2) {
                0 => climbing(&mut group.rng, n),
                _ => (any_book(&mut group.rng, n, 2), "team 2 1\n#\nknown\nmake a|b\n".to_string()),
            };
            let text = text.as_bytes();
            let solution = solution(&book, text);
            for out_room in 0..=printed(&found(&solution, usize::MAX)).len() + 3 {
                expect(group, &book, text, &solution, 7usize.pow(n as u32), out_room);
                expect(group, &book, text, &solution, 6, out_room);
            }
        }
    }
    let book = any_book(&mut group.rng, 7, 8);
    for refused in [&b"#"[..], b"team 1 1\n", b"team 1\nknown\nmake h\n", &vec![b'\n'; TEXT_MOST + 1]] {
        for out_room in 0..=20 {
            let solution = solution(&book, refused);
            expect(group, &book, refused, &solution, 40, out_room);
            expect(group, &book[1..], refused, &refusal(6, 0), 40, out_room);
        }
    }
}

/// 13 comes after the lines.
fn rank_rooms(group: &mut Group) {
    for n in 1..=6 {
        let ranks = 7usize.pow(n as u32);
        let m = group.rng.between(1, 8);
        let book = any_book(&mut group.rng, n, m);
        let text = joined(&any_question_of(&mut group.rng, n, m));
        let faulty = [&text[..], b"make a\n"].concat();
        let (sound, refused) = (solution(&book, &text), solution(&book, &faulty));
        let length = printed(&found(&sound, usize::MAX)).len();
        for rank_room in (0..=10).chain([ranks / 7]).chain(ranks.saturating_sub(9)..=ranks + 9) {
            expect(group, &book, &text, &sound, rank_room, length);
            expect(group, &book, &faulty, &refused, rank_room, 20);
        }
    }
}

fn past_the_size(group: &mut Group) {
    for n in 1..=7 {
        for m in 1..=8 {
            let book = written(n, m, &vec![0; 256 * n]);
            for byte in 0..=255u8 {
                let texts = [
                    [b"team ", &[byte][..], b"\n"].concat(),
                    [b"team 1\nknown ", &[byte][..], b"\n"].concat(),
                    [b"team 1\nknown ~", &[byte][..], b"\n"].concat(),
                    [b"team 1\nknown\nheld ", &[byte][..], b"\n"].concat(),
                    [b"team 1\nknown\nmake ", &[byte][..], b"\nask\n"].concat(),
                    [b"team 1\nknown\nmake 1\nask ", &[byte][..], b"\n "].concat(),
                ];
                let text = &texts[group.rng.below(texts.len())];
                compare(group, &book, text);
                if n < 3 || byte.is_ascii_alphanumeric() {
                    texts.iter().for_each(|text| compare(group, &book, text));
                }
            }
        }
    }
}

fn every_line(group: &mut Group) {
    for n in 1..=7 {
        let book = any_book(&mut group.rng, n, 8);
        let lines: Lines =
            [&b"team 1 2 3 4 5 6 7 8"[..], b"known ~a", b"held a", b"make a", b"ask a", b"ask 1", b"ask ~a", b"ask 0"]
                .map(|line| line.to_vec())
                .to_vec();
        let past = (n < 7).then_some(b'a' + n as u8);
        for line in 0..lines.len() {
            let mut faults = line_faults(&lines[line], past);
            let misplaced =
                [&b"size 1 1"[..], b"read a 1 1", b"write a 1 1", b"team 1", b"known", b"held", b"make a", b"ask a"];
            let due = lines[line].split(|&byte| byte == b' ').next().unwrap_or_default();
            // where `held` may come `make` may, and then the `make` of the next line is out of place
            let may_come = |other: &[u8]| other.starts_with(due) || due == b"held" && other.starts_with(b"make");
            faults.extend(misplaced.iter().filter(|line| !may_come(line)).map(|line| (line.to_vec(), 22)));
            match line {
                0 => faults.extend([
                    (b"team 1 8 1".to_vec(), 23),
                    (b"team 9".to_vec(), 22),
                    (b"team 1 1 9".to_vec(), 22),
                ]),
                1 => faults.extend([(b"known a ~a".to_vec(), 23), (b"known a a ~".to_vec(), 22)]),
                2 => {
                    faults.extend([(b"held a a".to_vec(), 23), (b"held ~a".to_vec(), 22), (b"held a a h".to_vec(), 22)])
                }
                _ => {}
            }
            for (new, number) in faults {
                let mut lines = lines.clone();
                lines[line] = new;
                refused(group, &book, &joined(&lines), number, line + 1);
                let before = with_passed_over(&mut group.rng, &lines[..line]);
                let place = before.len() + 1;
                refused(group, &book, &joined(&[&before[..], &lines[line..]].concat()), number, place);
            }
            for (more, place) in [("", line + 1), ("\n#", line + 2), ("\n \n", line + 2), ("\n\n\r", line + 3)] {
                let text = [&joined(&lines[..line])[..], &lines[line], more.as_bytes()].concat();
                refused(group, &book, &text, 22, place);
            }
            if line < 3 {
                refused(group, &book, &joined(&lines[..line]), 22, line + 1);
            }
        }
        for more in ["ask a\n", "ask a", "#", " ", "\r\n", "make a\n", "read a 1 1\n"] {
            refused(group, &book, &[&joined(&lines)[..], more.as_bytes()].concat(), 22, lines.len() + 1);
        }
    }
}

/// A case that is refused so, whatever this program's own reading says.
fn refused(group: &mut Group, book: &[u8], text: &[u8], number: u32, place: usize) {
    expect(group, book, text, &refusal(number, place), 60, 20);
}

/// The book's refusals come first, with its own places.
fn books(group: &mut Group) {
    for n in 1..=7 {
        for _ in group.times(40) {
            let m = group.rng.between(1, 8);
            let sound = any_book(&mut group.rng, n, m);
            let text = joined(&any_question_of(&mut group.rng, n, m));
            for block in 0..=n {
                let mut book = sound.clone();
                let place = block * BLOCK + group.rng.below(BLOCK);
                book[place] ^= 1 << group.rng.below(8);
                let mended = repaired(&book);
                for book in [book, mended] {
                    let text = group.rng.one_of(&[&text[..], b"", b"size 1 1\n", b"team 1 1\n"]);
                    if n < 4 || text::question(&book, text).is_err() {
                        compare(group, &book, text);
                    }
                }
            }
            let length = group.rng.one_of(&[0, 1, BLOCK - 1, BLOCK, sound.len() - 1, sound.len() - BLOCK]);
            compare(group, &sound[..length], &text);
            compare(group, &[&sound[..], &sound].concat(), &text);
            compare(group, &[&sound[..], &[0]].concat(), &text);
        }
    }
}

/// Each fault is there or not: of the book, of the text's length, of a line, of the rank table.
fn faults(group: &mut Group) {
    for _ in group.times(1_500) {
        let n = group.rng.between(1, 3);
        let m = group.rng.between(1, 8);
        let mut book = any_book(&mut group.rng, n, m);
        let lines = any_question_of(&mut group.rng, n, m);
        let mut lines = with_passed_over(&mut group.rng, &lines);
        if group.rng.chance(25) {
            let place = group.rng.below(book.len());
            book[place] ^= 1 << group.rng.below(8);
            if group.rng.chance(70) {
                book = repaired(&book);
            }
        }
        if group.rng.chance(40) {
            let place = group.rng.below(lines.len());
            lines[place] = group.rng.one_of(ODD_LINES).to_vec();
        }
        let mut text = joined(&lines);
        if group.rng.chance(15) {
            text.resize(TEXT_MOST + group.rng.below(2), b'\n');
        }
        let solution = solution(&book, &text);
        let rank_room = 7usize.pow(n as u32) - group.rng.one_of(&[0, 0, 1]);
        let out_room = group.rng.one_of(&[0, 13, 200]);
        expect(group, &book, &text, &solution, rank_room, out_room);
    }
}

/// Notes and empty lines make questions of any length that are answered.
fn lengths(group: &mut Group) {
    let book = by_hand(3, 2, P6, "1", "", "1", &[]).book;
    let sound = b"team 1 2\nknown\nmake b\n";
    for length in [TEXT_MOST - 1, TEXT_MOST, TEXT_MOST + 1, TEXT_MOST + 2, 98_304, 131_072, 131_072 + 23] {
        for start in [&sound[..], b"", b"team 1 1\n", b"team 1\nknown\nmake ", b"size 3 2\n"] {
            for byte in [b'\n', b'#', b' ', b'a', 255] {
                let mut text = start.to_vec();
                text.resize(length, byte);
                compare(group, &book, &text);
                text[length - 1] = b'\n';
                compare(group, &book, &text);
                text[start.len()] = b'#';
                compare(group, &book, &text);
            }
        }
        let note = [b"#", &vec![b'a'; length - sound.len() - 2][..], b"\n"].concat();
        for text in [[&sound[..], &note].concat(), [&note[..], sound].concat()] {
            let solution = solution(&book, &text);
            let expected = if length > TEXT_MOST { "refused 24 0\n" } else { P6_ANSWER };
            let own = printed(&found(&solution, usize::MAX));
            group.case(own == expected, || format!("{length} bytes: {own:?}"));
            expect(group, &book, &text, &solution, 343, 200);
            expect(group, &book[..book.len() - 1], &text, &refusal(6, 0), 343, 200);
        }
    }
    refused(group, &book, &vec![b'\n'; TEXT_MOST], 22, TEXT_MOST + 1);
    refused(group, &book, &[&vec![b'\n'; TEXT_MOST - 1][..], b" "].concat(), 22, TEXT_MOST);
}

fn rubbish(group: &mut Group) {
    for _ in group.times(1_500) {
        let n = group.rng.between(1, 3);
        let book = any_book(&mut group.rng, n, 2);
        let length = group.rng.between(1, 200);
        let bytes = group.rng.bytes(length);
        compare(group, &book, &bytes);
        compare(group, &bytes, &book);
        let bytes = group.rng.bytes_of(b"teamknownheldmakeask#123abc~&|() \n\n", length);
        compare(group, &book, &bytes);
        compare(group, &book, &[b"team 1\nknown\n", &bytes[..]].concat());
        let count = group.rng.between(1, 8);
        let lines: Lines = (0..count).map(|_| group.rng.one_of(ODD_LINES).to_vec()).collect();
        compare(group, &book, &[b"team 1\n", &joined(&lines)[..]].concat());
    }
}
