//! What was tried and how it went. A subject (formulas, books ..) has groups of cases; a group is one test, passed
//! if it had cases and each of them came out right. A subject also keeps count of the refusals that its cases gave,
//! since a refusal that is never provoked is not tested. Subjects may be tried side by side, so each line names its own.

use std::collections::BTreeMap;
use std::ops::RangeInclusive;
use std::sync::atomic::{AtomicUsize, Ordering::Relaxed};

use crate::refusal::Refusal;
use crate::rng::Rng;

const FAILURES_SHOWN: usize = 3;
const BYTES_SHOWN: usize = 320;

/// How often each refusal was given, by its number and second number, then by its place.
type Reached = BTreeMap<(u32, Option<u32>), BTreeMap<u32, usize>>;

pub struct Report {
    seed: u64,
    more: usize,
    passed: AtomicUsize,
    failed: AtomicUsize,
}

impl Report {
    /// `more` multiplies the random cases of every group.
    pub fn new(seed: u64, more: usize) -> Report {
        Report { seed, more, passed: AtomicUsize::new(0), failed: AtomicUsize::new(0) }
    }

    pub fn subject(&self, name: &'static str, tests: impl FnOnce(&mut Subject)) {
        let mut subject = Subject { report: self, name, reached: BTreeMap::new(), accepted: 0 };
        tests(&mut subject);
        if subject.accepted > 0 {
            println!("        {name}: accepted: {} cases", counted(subject.accepted));
        }
        for (&(number, second), places) in &subject.reached {
            let (refusal, cases) = (named(number, second), counted(places.values().sum()));
            println!("        {name}: {refusal}: {cases} cases at {} places", counted(places.len()));
        }
    }

    /// Prints the closing line, and tells whether all went well.
    pub fn close(self) -> bool {
        let (passed, failed) = (self.passed.into_inner(), self.failed.into_inner());
        println!("{passed} passed, {failed} failed");
        failed == 0 && passed > 0
    }
}

pub struct Subject<'a> {
    report: &'a Report,
    name: &'static str,
    reached: Reached,
    accepted: usize,
}

impl Subject<'_> {
    pub fn group(&mut self, name: &str, cases: impl FnOnce(&mut Group)) {
        let name = format!("{}: {name}", self.name);
        let rng = Rng::named(self.report.seed, &name);
        let more = self.report.more;
        let mut group = Group { name, rng, more, cases: 0, failures: 0, reached: Reached::new(), accepted: 0 };
        cases(&mut group);
        self.accepted += group.accepted;
        for (refusal, places) in group.reached {
            let so_far = self.reached.entry(refusal).or_default();
            places.into_iter().for_each(|(place, count)| *so_far.entry(place).or_default() += count);
        }
        let (name, cases) = (group.name, counted(group.cases));
        if group.failures == 0 && group.cases > 0 {
            self.report.passed.fetch_add(1, Relaxed);
            println!("passed  {name}: {cases} cases");
        } else {
            self.report.failed.fetch_add(1, Relaxed);
            println!("FAILED  {name}: {} of {cases} cases", counted(group.failures));
        }
    }

    /// A test of the tests so far: this refusal, which has no second number, was given at each of these places.
    pub fn must_reach(&mut self, number: u32, places: RangeInclusive<u32>) {
        self.reached_at_each(number, None, places);
    }

    /// The same of a refusal with this second number.
    pub fn must_reach_second(&mut self, number: u32, second: u32, places: RangeInclusive<u32>) {
        self.reached_at_each(number, Some(second), places);
    }

    fn reached_at_each(&mut self, number: u32, second: Option<u32>, places: RangeInclusive<u32>) {
        let reached = self.reached.get(&(number, second)).cloned().unwrap_or_default();
        let refusal = named(number, second);
        let name = if places.start() == places.end() {
            format!("{refusal} was reached, at {}", places.start())
        } else {
            format!("{refusal} was reached at each place from {} to {}", places.start(), places.end())
        };
        self.group(&name, |group| group.each_is_among(&reached, places, &refusal));
    }
}

pub struct Group {
    name: String,
    pub rng: Rng,
    more: usize,
    cases: usize,
    failures: usize,
    reached: Reached,
    accepted: usize,
}

impl Group {
    /// How often to draw random cases: so many times, or a multiple of it in a longer run.
    pub fn times(&self, count: usize) -> std::ops::Range<usize> {
        0..count * self.more
    }

    pub fn case(&mut self, right: bool, told: impl FnOnce() -> String) {
        self.cases += 1;
        if !right {
            self.failures += 1;
            if self.failures <= FAILURES_SHOWN {
                println!("wrong:  {}: {}", self.name, told());
            }
        }
    }

    /// What the case was to come to, for the count of refusals.
    pub fn came_to<T>(&mut self, outcome: Result<T, Refusal>) {
        match outcome {
            Ok(_) => self.accepted += 1,
            Err(Refusal { number, place, second }) => {
                *self.reached.entry((number, second)).or_default().entry(place).or_default() += 1;
            }
        }
    }

    /// A test of this group's own cases so far: this refusal, which has no second number, was given at each of these places.
    pub fn must_reach(&mut self, number: u32, places: RangeInclusive<u32>) {
        self.reached_at_each(number, None, places);
    }

    /// The same of the refusal with this second number.
    pub fn must_reach_second(&mut self, number: u32, second: u32, places: RangeInclusive<u32>) {
        self.reached_at_each(number, Some(second), places);
    }

    fn reached_at_each(&mut self, number: u32, second: Option<u32>, places: RangeInclusive<u32>) {
        let reached = self.reached.get(&(number, second)).cloned().unwrap_or_default();
        self.each_is_among(&reached, places, &named(number, second));
    }

    fn each_is_among(&mut self, reached: &BTreeMap<u32, usize>, places: RangeInclusive<u32>, refusal: &str) {
        for place in places {
            self.case(reached.contains_key(&place), || format!("{refusal} never at {place}"));
        }
    }
}

fn named(number: u32, second: Option<u32>) -> String {
    match second {
        None => format!("refusal {number}"),
        Some(second) => format!("refusal {number} with {second}"),
    }
}

/// Bytes as people read them: their count, then text where they are text, and in hexadecimal.
pub fn shown(bytes: &[u8]) -> String {
    let some = &bytes[..bytes.len().min(BYTES_SHOWN)];
    let hex: Vec<String> = some.iter().map(|byte| format!("{byte:02x}")).collect();
    let dots = if some.len() < bytes.len() { " .." } else { "" };
    format!("{} bytes \"{}\"{dots} = {}{dots}", bytes.len(), some.escape_ascii(), hex.join(" "))
}

/// Long bytes, most of them zero: their count, then each that is not zero with its place.
pub fn sparse(bytes: &[u8]) -> String {
    let some: Vec<String> =
        (0..bytes.len()).filter(|&i| bytes[i] != 0).map(|i| format!("{i}:{:02x}", bytes[i])).collect();
    let dots = if some.len() > BYTES_SHOWN { " .." } else { "" };
    format!("{} bytes {}{dots}", bytes.len(), some[..some.len().min(BYTES_SHOWN)].join(" "))
}

/// 31000 as 31,000.
fn counted(count: usize) -> String {
    let digits = count.to_string();
    let threes: Vec<&str> =
        digits.as_bytes().rchunks(3).rev().map(|three| std::str::from_utf8(three).unwrap()).collect();
    threes.join(",")
}
