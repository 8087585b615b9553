//! The cases for plan texts. No function of the library reads them, so three files are handed to the built program
//! `program_check`, and what it prints is compared with `plan_text.rs`. A case is a start of the program.

use std::fs;
use std::path::{Path, PathBuf};
use std::process::{self, Command, Stdio};

use crate::books::{repaired, written};
use crate::checking::always;
use crate::damage::{deleted, inserted, replaced};
use crate::ffi;
use crate::knowledge::{Act, Kind};
use crate::plan::PLAN_MOST;
use crate::plan_text::{check, PLAN_TEXT_MOST};
use crate::plans::permitted;
use crate::questions::{by_hand, climb, plain_letters};
use crate::refusal::Refusal;
use crate::report::{shown, Group, Subject};
use crate::rng::Rng;
use crate::room::Room;
use crate::sheet::plan_lines;
use crate::sheets::made::{any_question_of, any_rules_of};
use crate::spoilt::{joined, Lines};
use crate::tables::{rights, table};
use crate::text::{self, TEXT_MOST};

/// Acts before a fault, one by one.
const ROW: u32 = 8;

pub fn test(subject: &mut Subject) {
    let files = Files::new();
    subject.group("points settled by hand", |group| points(group, &files));
    subject.group("what is printed for a reach, n up to 7", |group| printed_plans(group, &files));
    subject.group("every act, with any heights and depths", |group| every_act(group, &files));
    subject.group("rows of sets with a fault at every place", |group| rows(group, &files));
    subject.group("odd lines", |group| odd_lines(group, &files));
    subject.group("damaged bytes", |group| damaged_bytes(group, &files));
    subject.group("lines lost, doubled, exchanged and cut short", |group| moved_lines(group, &files));
    subject.group("32,640 acts and 524,288 bytes, and more", |group| lengths(group, &files));
    subject.group("several faults at once", |group| faults(group, &files));
    for number in [6, 8, 16, 24] {
        subject.must_reach(number, 0..=0);
    }
    subject.must_reach(7, 0..=1);
    subject.must_reach(9, 1..=1);
    for number in [17, 19, 20, 32] {
        subject.must_reach(number, 0..=ROW);
    }
    for second in 0..=2 {
        subject.must_reach_second(18, second, 0..=ROW);
    }
    subject.must_reach(21, 1..=1 + ROW);
    subject.must_reach(22, 1..=10);
    subject.must_reach(22, PLAN_MOST as u32 + 3..=PLAN_MOST as u32 + 3);
}

/// A book, a question and a plan in a folder of their own, which goes at the end.
struct Files {
    folder: PathBuf,
}

impl Files {
    fn new() -> Files {
        let folder = std::env::temp_dir().join(format!("second-{}", process::id()));
        fs::create_dir_all(&folder).unwrap_or_else(|error| panic!("{}: {error}", folder.display()));
        Files { folder }
    }

    /// What the program prints.
    fn checked(&self, contents: [&[u8]; 3]) -> Result<Vec<u8>, String> {
        let files = ["book", "question", "plan"].map(|name| self.folder.join(name));
        for (file, bytes) in files.iter().zip(contents) {
            fs::write(file, bytes).map_err(|error| format!("{}: {error}", file.display()))?;
        }
        let (program, start) = (in_project("target/bin/program_check"), in_project("tests/x86/start"));
        if !program.is_file() {
            return Err(format!("{} is not there: run `command/build program_check` first", program.display()));
        }
        let mut command = Command::new(if cfg!(target_arch = "x86_64") { &program } else { &start });
        if !cfg!(target_arch = "x86_64") {
            command.arg(&program);
        }
        let output = command.args(files).stdin(Stdio::null()).output();
        output.map(|output| output.stdout).map_err(|error| format!("{}: {error}", program.display()))
    }
}

impl Drop for Files {
    fn drop(&mut self) {
        fs::remove_dir_all(&self.folder).ok();
    }
}

fn in_project(path: &str) -> PathBuf {
    Path::new(concat!(env!("CARGO_MANIFEST_DIR"), "/../..")).join(path)
}

fn compare(group: &mut Group, files: &Files, book: &[u8], question: &[u8], plan: &[u8]) {
    expect(group, files, [book, question, plan], check(book, question, plan));
}

fn expect(group: &mut Group, files: &Files, contents: [&[u8]; 3], expected: Result<(), Refusal>) {
    let line = expected.err().map_or("yes\n".to_string(), |refusal| format!("{refusal}\n"));
    let printed = files.checked(contents);
    let [book, question, plan] = contents;
    group.case(printed.as_ref().is_ok_and(|printed| printed == line.as_bytes()), || {
        let told = printed.map_or_else(|trouble| trouble, |printed| shown(&printed));
        format!(
            "plan {}\n        question {}\n        book of {} bytes\n        expected {line:?}\n        \
             got      {told}",
            shown(plan),
            shown(question),
            book.len()
        )
    });
    group.came_to(expected);
}

const P6: &[&str] = &["write a 2 ~c", "write b 1 a", "read c 2 1", "write c 2 c"];
const P6_QUESTION: &[u8] = b"# P6\nteam 1 2\nknown\nmake b\n";
const P6_PLAN: &str =
    "reach 4\n0 look c 2\n1 set a 2 1\n2 set b 1 1\n3 stop\n1 set c 2 0\n2 set a 2 1\n3 set b 1 1\n4 stop\n";

fn p6_book() -> Vec<u8> {
    by_hand(3, 2, P6, "1", "", "1", &[]).book
}

/// First lines that are not `reach H`.
const NOT_REACH: &[&str] = &[
    "", "\n", "reach", "reach\n", "reach \n", "reach 4", "reach  4\n", "reach 4 \n", " reach 4\n", "Reach 4\n",
    "reach x\n", "reach -1\n", "reach +1\n", "reach 4a\n", "reach 4 5\n", "reach\t4\n", "reach 4\r\n", "cannot\n",
    "refused 22 1\n", "4\n", "# a note\n", "\0\n",
];

/// Lines that stand for no plan byte.
const NO_BYTE: &[&str] = &[
    "", " ", "#", "# a note", "\r", "reach 4", "cannot", "stop", "0", "0 ", " stop", " 0 stop", "0  stop", "0 stop ",
    "0 stop\r", "0\tstop", "x stop", "-1 stop", "+1 stop", "0x stop", "1.5 stop", "0 Stop", "0 stops", "0 sto",
    "0 stop 1", "0 look", "0 look c", "0 look c ", "0 look c  2", "0 look  c 2", "0 look c 2 ", "0 look c 2 1",
    "0 look c 0", "0 look c 9", "0 look c 12", "0 look h 1", "0 look C 2", "0 look cc 2", "0 look ~c 2", "0 look 2 c",
    "look c 2", "0 set a 1", "0 set a 1 ", "0 set a 1 2", "0 set a 1 01", "0 set a 1 ~", "0 set a 1 1 ",
    "0 set a 1  1", "0 set a 9 1", "0 set h 1 1", "0 set a 1 1 1", "0 read a 1", "0 write a 1 1", "0 set a 1\0 1",
];

/// Lines after `reach 4` for P6, and what is printed.
const TO_P6: &[(&str, &str)] = &[
    ("", "refused 20 0\n"),
    ("0 stop\n", "refused 19 0\n"),
    ("0 stop", "refused 22 2\n"),
    ("0 look c 2\n", "refused 20 1\n"),
    ("0 look c 1\n", "refused 18 0 1\n"),
    ("0 look d 2\n", "refused 17 0\n"),
    ("0 look g 8\n", "refused 17 0\n"),
    ("0 look c 3\n", "refused 17 0\n"),
    ("0 set g 8 1\n", "refused 17 0\n"),
    ("0 look a 1\n", "refused 18 0 1\n"),
    ("0 set b 1 1\n", "refused 18 0 2\n"),
    ("0 set a 2 1\n", "refused 18 0 2\n"),
    ("0 look c 2\n1 look c 2\n", "refused 18 1 0\n"),
    ("0 look c 2\n1 look c 1\n", "refused 18 1 0\n"),
    ("0 look c 2\n1 set c 2 0\n", "refused 18 1 1\n"),
    ("0 look c 2\n1 set b 1 1\n", "refused 18 1 2\n"),
    ("0 look c 2\n1 set a 2 1\n2 set b 1 1\n3 stop\n1 set a 2 1\n", "refused 18 4 1\n"),
    ("0 look c 2\n1 set a 2 1\n2 set a 2 1\n", "refused 32 2\n"),
    ("0 look c 2\n1 set a 2 1\n2 set b 1 1\n3 stop\n1 set c 2 1\n", "refused 32 4\n"),
    ("0 look c 2\n1 set a 2 1\n2 stop\n", "refused 19 2\n"),
    ("0 look c 2\n1 set a 2 1\n2 look d 1\n", "refused 17 2\n"),
    ("0 look c 2\n1 set a 2 1\n2 set c 1 1\n3 x\n", "refused 22 5\n"),
];

fn points(group: &mut Group, files: &Files) {
    let book = p6_book();
    let (first, rest) = P6_PLAN.split_at("reach 4\n".len());
    let mut points = vec![
        (P6_PLAN.to_string(), "yes\n".to_string()),
        (P6_PLAN[..P6_PLAN.len() - 1].to_string(), "refused 22 9\n".to_string()),
        ([P6_PLAN, "4 stop\n"].concat(), "refused 21 8\n".to_string()),
        ([P6_PLAN, "\n"].concat(), "refused 22 10\n".to_string()),
        ([P6_PLAN, "4 stop"].concat(), "refused 22 10\n".to_string()),
        ([P6_PLAN, "#\n"].concat(), "refused 22 10\n".to_string()),
        (["\n", P6_PLAN].concat(), "refused 22 1\n".to_string()),
        (["# a note\n", P6_PLAN].concat(), "refused 22 1\n".to_string()),
        (["reach 0\n", rest].concat(), "yes\n".to_string()),
        (["reach 007\n", rest].concat(), "yes\n".to_string()),
        (["reach 99999999999999999999999999999999999999999\n", rest].concat(), "yes\n".to_string()),
        (P6_PLAN.replace("\n1 ", "\n0 ").replace("\n3 ", "\n18446744073709551616 "), "yes\n".to_string()),
        (P6_PLAN.replace("\n0 ", "\n0000 "), "yes\n".to_string()),
    ];
    points.extend(NOT_REACH.iter().map(|&reach| (reach.to_string(), "refused 22 1\n".to_string())));
    points.extend(TO_P6.iter().map(|(lines, printed)| ([first, lines].concat(), printed.to_string())));
    let held = b"team 1 2\nknown\nheld c\nmake b\n";
    expect(group, files, [&book, held, P6_PLAN.as_bytes()], Err(Refusal::at(18, 4).with_second(3)));
    for (plan, printed) in points {
        let own = check(&book, P6_QUESTION, plan.as_bytes());
        let line = own.err().map_or("yes\n".to_string(), |refusal| format!("{refusal}\n"));
        group.case(line == printed, || format!("this program's own answer to {plan:?}: {line:?}"));
        expect(group, files, [&book, P6_QUESTION, plan.as_bytes()], own);
    }
}

/// What the library prints, where it is a reach. A plan has at most 2^n × (2^(n+1) − 1) bytes, and so many lines.
fn reached(group: &mut Group, book: &[u8], question: &[u8]) -> Option<Vec<u8>> {
    let n = book.len() / 512 - 1;
    let mut lent_book = Room::holding(book, &[0], &mut group.rng);
    let mut text = Room::holding(question, b"\n", &mut group.rng);
    let mut ranks = Room::of(7usize.pow(n as u32), &mut group.rng);
    let mut out = Room::of(20 + ((1 << n) * ((2 << n) - 1)) * "254 set a 1 1\n".len(), &mut group.rng);
    let length = ffi::ask(&mut lent_book, &mut text, &mut ranks, &mut out) as usize;
    let printed = out.lent().get(..length)?.to_vec();
    printed.starts_with(b"reach ").then_some(printed)
}

/// A book and a question of random rules.
fn any_pair(rng: &mut Rng, n: usize) -> (Vec<u8>, Vec<u8>) {
    let m = rng.one_of(&[1, 2, 3, 8]);
    let rules = joined(&any_rules_of(rng, n, m, 70));
    let book = text::book(&rules, usize::MAX).unwrap_or_else(|refusal| panic!("sound rules were {refusal}"));
    (book, joined(&any_question_of(rng, n, m)))
}

/// A book, a question and its plan as it is printed, of `least` lines or more.
fn any_reached(group: &mut Group, sizes: &[usize], least: usize) -> (Vec<u8>, Vec<u8>, Vec<u8>) {
    loop {
        let n = group.rng.one_of(sizes);
        let (book, question) = any_pair(&mut group.rng, n);
        if let Some(plan) = reached(group, &book, &question) {
            if plan.iter().filter(|&&byte| byte == b'\n').count() >= least {
                return (book, question, plan);
            }
        }
    }
}

/// The same lines with other numbers: the height and the depths are not judged.
fn renumbered(rng: &mut Rng, plan: &[u8], digits: usize) -> Vec<u8> {
    let mut lines: Lines = plan.split_inclusive(|&byte| byte == b'\n').map(|line| line.to_vec()).collect();
    for (i, line) in lines.iter_mut().enumerate() {
        let place = usize::from(i == 0);
        let mut words: Vec<Vec<u8>> = line.split(|&byte| byte == b' ').map(|word| word.to_vec()).collect();
        let length = rng.between(1, digits);
        words[place] = rng.bytes_of(b"0123456789", length);
        if i == 0 {
            words[place].push(b'\n');
        }
        *line = words.join(&b' ');
    }
    lines.concat()
}

fn printed_plans(group: &mut Group, files: &Files) {
    for (n, count) in [(1, 10), (2, 14), (3, 14), (4, 6), (5, 4), (6, 2), (7, 1)] {
        for _ in group.times(count) {
            let (book, question, plan) = any_reached(group, &[n], 2);
            expect(group, files, [&book, &question, &plan], Ok(()));
            let other = renumbered(&mut group.rng, &plan, 30);
            expect(group, files, [&book, &question, &other], Ok(()));
        }
    }
    for n in 1..=7 {
        let letters = plain_letters(n);
        let book = climb(&mut group.rng, &letters, 8).book;
        let goal: Vec<String> = (0..n).map(|i| ((b'a' + i as u8) as char).to_string()).collect();
        let question = format!("team 1 2 3 4 5 6 7 8\nknown\nmake {}\n", goal.join("&")).into_bytes();
        let plan = reached(group, &book, &question).unwrap_or_default();
        let first = format!("reach {}\n", (2 << n) - 2);
        group.case(plan.starts_with(first.as_bytes()), || format!("n {n}: {}", shown(&plan)));
        expect(group, files, [&book, &question, &plan], Ok(()));
        let other = renumbered(&mut group.rng, &plan, 3);
        expect(group, files, [&book, &question, &other], Ok(()));
        let short = plan.len() - 1;
        compare(group, files, &book, &question, &plan[..short]);
        let lines = plan.iter().filter(|&&byte| byte == b'\n').count();
        let cut = plan[..short].iter().rposition(|&byte| byte == b'\n').map_or(0, |end| end + 1);
        let too_soon = Refusal::at(20, lines as u32 - 2);
        expect(group, files, [&book, &question, &plan[..cut]], Err(too_soon));
    }
}

/// The book where every rule is `1`, and a question that is settled at once.
fn open(n: usize, m: usize) -> (Vec<u8>, Vec<u8>) {
    let team: String = (1..=m).map(|post| format!(" {post}")).collect();
    let book = written(n, m, &rights(n, m, |_, _, _| table(n, u128::MAX)));
    (book, format!("team{team}\nknown\nmake 1\n").into_bytes())
}

fn every_act(group: &mut Group, files: &Files) {
    let (book, question) = open(7, 8);
    let asked = text::question(&book, &question).and_then(|question| question.read());
    let asked = asked.unwrap_or_else(|refusal| panic!("a sound question was {refusal}"));
    let mut seen = [false; 169];
    let least = group.times(12).len();
    for count in 0..10 * least {
        if count >= least && seen.iter().all(|&seen| seen) {
            break;
        }
        let plan = permitted(&mut group.rng, &asked, &asked.start, 40, 7).bytes();
        plan.iter().for_each(|&byte| seen[usize::from(byte)] = true);
        let text = ["reach 40\n", &plan_lines(&plan)].concat();
        let text = renumbered(&mut group.rng, text.as_bytes(), 3);
        expect(group, files, [&book, &question, &text], Ok(()));
    }
    group.case(seen.iter().all(|&seen| seen), || "an act never stood in a plan".to_string());
    let (book, question) = open(4, 3);
    for _ in group.times(40) {
        let kind = group.rng.one_of(&[Kind::Look, Kind::Set(false), Kind::Set(true)]);
        let byte = Act { kind, setting: group.rng.below(7), post: group.rng.below(8) }.byte();
        let looks = usize::from(kind == Kind::Look);
        let plan = [&[byte, 0][..], &vec![0; looks]].concat();
        let text = ["reach 1\n", &plan_lines(&plan)].concat();
        compare(group, files, &book, &question, text.as_bytes());
    }
}

/// Acts that are not permitted by the book of `always`, wherever sets of a lead, and 18's second number.
const NEVER_PERMITTED: [(&str, u32); 5] =
    [("0 look a 1\n", 0), ("0 set b 1 1\n", 1), ("0 look c 1\n", 1), ("0 look b 1\n", 2), ("0 set c 1 0\n", 2)];

/// The lines of so many sets, each to the other value, the last of them to this one. `set` is a line without its value.
fn turns(set: &str, last: bool, count: usize) -> String {
    let value = |place: usize| u8::from(last ^ ((count - place) % 2 == 0));
    (0..count).map(|place| format!("{set} {}\n", value(place))).collect()
}

/// A question whose goal is that a is true, known at the start to be so that each of `turns` changes something.
fn question_for(last: bool, count: usize) -> Vec<u8> {
    let sign = if last ^ (count % 2 == 1) { "" } else { "~" };
    format!("team 1\nknown {sign}a\nmake a\n").into_bytes()
}

/// The last line has the fault; the byte in line i + 2 is byte i.
fn rows(group: &mut Group, files: &Files) {
    let book = always().book;
    for place in 0..=ROW {
        let question = &question_for(false, place as usize);
        let row = ["reach 1\n", &turns("0 set a 1", false, place as usize)].concat();
        for (last, number) in
            [("0 set g 8 1\n", 17), ("0 stop\n", 19), ("", 20), ("0 stop ", 22), ("0 set a 1 0\n", 32)]
        {
            let plan = [&row, last].concat();
            let place = if number == 22 { place + 2 } else { place };
            expect(group, files, [&book, question, plan.as_bytes()], Err(Refusal::at(number, place)));
        }
        for (last, second) in NEVER_PERMITTED {
            let plan = [&row, last].concat();
            let expected = Refusal::at(18, place).with_second(second);
            expect(group, files, [&book, question, plan.as_bytes()], Err(expected));
        }
        let plan = ["reach 1\n", &turns("0 set a 1", true, place as usize), "0 stop\n0 stop\n"].concat();
        let known = question_for(true, place as usize);
        expect(group, files, [&book, &known, plan.as_bytes()], Err(Refusal::at(21, place + 1)));
    }
}

/// The line is put in at a drawn place, or stands for the one that was there.
fn odd_lines(group: &mut Group, files: &Files) {
    let (book, lines) = (p6_book(), split(P6_PLAN.as_bytes()));
    for &odd in NO_BYTE {
        let place = group.rng.between(1, lines.len());
        let mut more = lines.clone();
        more.insert(place, odd.as_bytes().to_vec());
        expect(group, files, [&book, P6_QUESTION, &joined(&more)], Err(Refusal::at(22, place as u32 + 1)));
    }
    for place in 0..=lines.len() {
        let odd = group.rng.one_of(NO_BYTE).as_bytes().to_vec();
        let mut more = lines.clone();
        more.insert(place, odd);
        compare(group, files, &book, P6_QUESTION, &joined(&more));
        if place < lines.len() {
            more.remove(place + 1);
            compare(group, files, &book, P6_QUESTION, &joined(&more));
        }
    }
}

fn split(text: &[u8]) -> Lines {
    text.strip_suffix(b"\n").unwrap_or(text).split(|&byte| byte == b'\n').map(|line| line.to_vec()).collect()
}

fn damaged_bytes(group: &mut Group, files: &Files) {
    for _ in group.times(150) {
        let (book, question, plan) = any_reached(group, &[1, 2, 3], 3);
        let place = group.rng.below(plan.len());
        let byte = group.rng.one_of(b" \n\n#\t\r\0\xff0123456789abcdgh~stoplke");
        let damaged = match group.rng.below(3) {
            0 => replaced(&plan, place, byte),
            1 => inserted(&plan, place, byte),
            _ => deleted(&plan, place),
        };
        compare(group, files, &book, &question, &damaged);
    }
}

fn moved_lines(group: &mut Group, files: &Files) {
    for _ in group.times(20) {
        let (book, question, plan) = any_reached(group, &[2, 3, 4], 4);
        let lines = split(&plan);
        let (place, other) = (group.rng.between(1, lines.len() - 1), group.rng.between(1, lines.len() - 1));
        let mut fewer = lines.clone();
        fewer.remove(place);
        let mut doubled = lines.clone();
        doubled.insert(other, lines[place].clone());
        let mut exchanged = lines.clone();
        exchanged.swap(place, other);
        for lines in [fewer, doubled, exchanged, lines[..place].to_vec(), lines[place..].to_vec()] {
            compare(group, files, &book, &question, &joined(&lines));
        }
    }
}

/// 22 comes before 16: the text is judged before the plan.
fn lengths(group: &mut Group, files: &Files) {
    let (book, question) = open(7, 8);
    let row = |count: usize, end: &str| ["reach 0\n", &turns("0 set g 8", true, count), end].concat().into_bytes();
    let refused = |number, place| Err(Refusal::at(number, place));
    let cases = [
        (row(PLAN_MOST - 1, "0 stop\n"), Ok(())),
        (row(PLAN_MOST, ""), refused(20, PLAN_MOST as u32)),
        (row(PLAN_MOST, "0 stop\n"), refused(16, 0)),
        (row(PLAN_MOST + 1, ""), refused(16, 0)),
        (row(PLAN_MOST + 1, "0 stop"), refused(22, PLAN_MOST as u32 + 3)),
        (row(PLAN_MOST + 1, "0 stops\n0 stop\n"), refused(22, PLAN_MOST as u32 + 3)),
        (row(PLAN_MOST - 1, "0 stop\n\n"), refused(22, PLAN_MOST as u32 + 2)),
        (vec![b'\n'; PLAN_TEXT_MOST], refused(22, 1)),
        (vec![b'\n'; PLAN_TEXT_MOST + 1], refused(24, 0)),
        ([&b"reach 0\n"[..], &b"0 stop\n".repeat(74_898)].concat()[..PLAN_TEXT_MOST].to_vec(), refused(22, 74_899)),
        ([&b"reach 0\n"[..], &b"0 stop\n".repeat(74_897)].concat(), refused(16, 0)),
    ];
    for (plan, expected) in cases {
        let own = check(&book, &question, &plan);
        group.case(own == expected, || format!("{} bytes: this program's own answer", plan.len()));
        expect(group, files, [&book, &question, &plan], expected);
    }
    let p6 = p6_book();
    for length in [PLAN_TEXT_MOST - 1, PLAN_TEXT_MOST, PLAN_TEXT_MOST + 1, PLAN_TEXT_MOST + 2, 1 << 20] {
        let zeros = "0".repeat(length - P6_PLAN.len());
        for plan in [
            P6_PLAN.replace("reach ", &["reach ", &zeros].concat()),
            P6_PLAN.replacen("4 stop", &[&zeros, "4 stop"].concat(), 1),
        ] {
            assert_eq!(plan.len(), length);
            let expected = if length > PLAN_TEXT_MOST { refused(24, 0) } else { Ok(()) };
            expect(group, files, [&p6, P6_QUESTION, plan.as_bytes()], expected);
        }
    }
}

/// Each fault is there or not: of the book, of the question, of the plan's text, of the plan.
fn faults(group: &mut Group, files: &Files) {
    for _ in group.times(120) {
        let (mut book, mut question, mut plan) = any_reached(group, &[1, 2], 2);
        if group.rng.chance(30) {
            match group.rng.below(8) {
                0 => book = book[..book.len() - group.rng.one_of(&[1, 512])].to_vec(),
                1 => book[0] ^= 4,
                2 => book[512 + 300] ^= 4,
                _ => {
                    let place = group.rng.below(book.len());
                    book[place] ^= 1 << group.rng.below(8);
                }
            }
            if group.rng.chance(60) {
                book = repaired(&book);
            }
        }
        if group.rng.chance(30) {
            let odd: &[u8] = group.rng.one_of(&[b"", b"#", b"team 1 1\n", b"size 1 1\n", b"team 1\nknown\nmake (\n"]);
            question = odd.to_vec();
        }
        if group.rng.chance(10) {
            question.resize(TEXT_MOST + group.rng.below(2), b'\n');
        }
        if group.rng.chance(40) {
            let mut lines = split(&plan);
            let place = group.rng.below(lines.len());
            lines[place] =
                group.rng.one_of(&[&b"0 stop"[..], b"0 look a 1", b"0 set g 8 1", b"0", b"1 set a 1 1"]).to_vec();
            plan = joined(&lines);
        }
        if group.rng.chance(10) {
            plan.resize(PLAN_TEXT_MOST + group.rng.below(2), b'\n');
        }
        compare(group, files, &book, &question, &plan);
    }
    let (book, question) = open(1, 1);
    for (spoilt, mended) in [(vec![0; 10], false), (replaced(&book, 0, 2), true), (replaced(&book, 900, 1), true)] {
        let spoilt = if mended { repaired(&spoilt) } else { spoilt };
        compare(group, files, &spoilt, &question, b"reach 0\n0 stop\n");
    }
    for place in [0, 600] {
        compare(group, files, &replaced(&book, place, 7), &question, b"");
    }
}
