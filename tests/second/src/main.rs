//! The second program: paper 01, issue 18's texts and requests written again, independently, and compared with
//! the proved library on many inputs, valid and damaged, to the last bit of every result and every lent byte.
//! ../README.md tells how it is run.
//!
//! An area of the library is two files: what the paper says (`formula.rs`) and the cases to try (`formulas.rs`). It
//! has a line in `AREAS` once its functions are in the library.

mod book;
mod books;
mod checking;
mod damage;
mod fast;
mod fast_check;
mod fast_replay;
mod ffi;
mod finder;
mod finding;
mod formula;
mod formulas;
mod grow;
mod knowledge;
mod legs;
mod lines;
mod not_permitted;
mod plan;
mod plan_text;
mod plan_texts;
mod plans;
mod question;
mod questions;
mod refusal;
mod replay;
mod replaying;
mod report;
mod rng;
mod room;
mod run;
mod salvage;
mod salvaging;
mod secrets;
mod sentences;
mod sheet;
mod sheets;
mod shifts;
mod spoilt;
mod tables;
mod text;
mod texts;
mod two_legs;
mod unchanged;

use std::process::ExitCode;
use std::sync::atomic::{AtomicUsize, Ordering::Relaxed};
use std::thread;

use report::{Group, Report, Subject};

const USAGE: &str = "usage: second [--seed S] [--more K] [--only PART]\n\
    K times as many random cases; only areas with PART in their name\n\
    or: second --answer FILE\n\
    this program's own answer to a sheet";

/// A part of the library: the functions that its cases call.
struct Area {
    name: &'static str,
    functions: &'static [&'static str],
    test: fn(&mut Subject),
}

/// A thread's stack, as large as a program's own often is.
const STACK: usize = 8 << 20;

const AREAS: &[Area] = &[
    Area { name: "formulas", functions: &["pj_formula_read"], test: formulas::test },
    Area { name: "reading books", functions: &["pj_book_read"], test: books::reading },
    Area { name: "writing books", functions: &["pj_book_write"], test: books::writing },
    Area { name: "salvaging books", functions: &["pj_book_salvage"], test: salvaging::test },
    Area { name: "finding", functions: &["pj_find", "pj_find_plain"], test: finding::test },
    Area { name: "two legs", functions: &["pj_find_two"], test: two_legs::test },
    Area { name: "checking plans", functions: &["pj_plan_check"], test: checking::test },
    Area { name: "secrets", functions: &["pj_find"], test: secrets::test },
    Area { name: "sheets", functions: &["pj_sheet"], test: sheets::test },
    Area { name: "rules texts", functions: &["pj_rules"], test: texts::rules::test },
    Area { name: "question texts", functions: &["pj_ask"], test: texts::questions::test },
    Area { name: "sheets cut in two", functions: &["pj_sheet", "pj_rules", "pj_ask"], test: texts::cut::test },
    Area { name: "plan texts", functions: &["pj_ask"], test: plan_texts::test },
    Area { name: "replaying shifts", functions: &["pj_replay"], test: replaying::test },
];

fn main() -> ExitCode {
    let mut seed = 1;
    let mut more = 1;
    let mut only = String::new();
    let mut words = std::env::args().skip(1);
    while let Some(word) = words.next() {
        let value = words.next();
        let number = value.as_ref().and_then(|word| word.parse::<u64>().ok());
        match (word.as_str(), number, value) {
            ("--seed", Some(number), _) => seed = number,
            ("--more", Some(number), _) if number > 0 => more = number as usize,
            ("--answer", _, Some(sheet)) => return own_answer(&sheet),
            ("--only", _, Some(part)) if AREAS.iter().any(|area| area.name.contains(&part)) => only = part,
            _ => {
                eprintln!("{USAGE}");
                return ExitCode::from(2);
            }
        }
    }
    println!("second program: seed {seed}, more {more}");
    let report = Report::new(seed, more);
    report.subject("library", |subject| subject.group("each of its functions has its cases here", each_has_cases));
    let areas: Vec<&Area> = AREAS.iter().filter(|area| area.name.contains(&only)).collect();
    side_by_side(&areas, &report);
    if report.close() {
        ExitCode::SUCCESS
    } else {
        ExitCode::FAILURE
    }
}

/// The areas, as many at a time as there are processors. A group draws its random numbers by its own name, so its cases
/// are the same in any order.
fn side_by_side(areas: &[&Area], report: &Report) {
    let next = AtomicUsize::new(0);
    let turns = || {
        while let Some(area) = areas.get(next.fetch_add(1, Relaxed)) {
            report.subject(area.name, area.test);
        }
    };
    let processors = thread::available_parallelism().map_or(1, |count| count.get());
    thread::scope(|scope| {
        for _ in 0..processors.min(areas.len()) {
            thread::Builder::new().stack_size(STACK).spawn_scoped(scope, turns).expect("a thread");
        }
    });
}

/// The library is not asked.
fn own_answer(sheet: &str) -> ExitCode {
    match std::fs::read(sheet) {
        Ok(bytes) => {
            print!("{}", sheet::answer(&bytes));
            ExitCode::SUCCESS
        }
        Err(error) => {
            eprintln!("{sheet}: {error}");
            ExitCode::from(2)
        }
    }
}

/// `build.rs` hands on the names in the archive's index. A function of an area that is not in it fails the link.
fn each_has_cases(group: &mut Group) {
    for name in env!("PJ_FUNCTIONS").split(' ').filter(|name| name.starts_with("pj_")) {
        let tested = AREAS.iter().any(|area| area.functions.contains(&name));
        group.case(tested, || format!("{name} is in the library, and no area of main.rs has it"));
    }
}
