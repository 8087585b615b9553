//! The proved finder beside tests/second's plain one of the same design, in one run: seven settings, eight posts,
//! teams of every size, nothing known. Answers, ranks and plans have to be the same. Before each call, outside the time taken,
//! the rank table and the plan room are filled with 170, so both are in memory and neither holds a rank. Then the proved
//! replay beside a plain one, on shifts of a million records, and the proved plan check beside a plain one, on plans of
//! 32,640 bytes. Last the second finder, by the number of settings and by height.

mod asked;
#[path = "../../tests/second/src/book.rs"]
#[allow(dead_code)]
mod book;
mod checked;
#[path = "../../tests/second/src/fast.rs"]
mod fast;
#[path = "../../tests/second/src/fast_check.rs"]
mod fast_check;
#[path = "../../tests/second/src/fast_replay.rs"]
mod fast_replay;
#[cfg(linked)]
mod heights;
#[cfg(linked)]
mod proved;
mod recorded;
#[path = "../../tests/second/src/refusal.rs"]
#[allow(dead_code)]
mod refusal;
#[path = "../../tests/second/src/rng.rs"]
#[allow(dead_code)]
mod rng;

use std::time::{Duration, Instant};

use asked::Asked;
use checked::Checked;
use recorded::{Recorded, RECORDS};
use rng::Rng;

const STATES: usize = 823_543;
const PLAN: usize = 32_640;
/// The most bytes that pj_ask prints.
#[cfg(linked)]
const ANSWER: usize = 456_970;
/// How many rules in a hundred are closed: dense, middling and sparse books.
const CLOSED: [u32; 3] = [15, 50, 85];
const TURNS: usize = 7;
/// A shift is run in a few milliseconds.
const SHIFT_TURNS: usize = 41;
/// A plan is checked in a few milliseconds.
const CHECK_TURNS: usize = 15;

type Check = fn(&Checked) -> u64;

type Replay = fn(&[u8], u64, &[u8], &mut [u64; 2]) -> u64;

type Finder = fn(&Asked, &mut [u8], &mut [u8]) -> u64;

/// What a finder answered and left in its rooms, and how long it took.
struct Found {
    word: u64,
    ranks: Vec<u8>,
    plan: Vec<u8>,
    time: Duration,
}

fn plain(asked: &Asked, ranks: &mut [u8], plan: &mut [u8]) -> u64 {
    fast::find(&asked.book, asked.team, 0, 0, 0, &asked.make, &[], ranks, plan)
}

fn timed(finder: Finder, asked: &Asked) -> Found {
    let mut ranks = vec![170; STATES];
    let mut plan = vec![170; PLAN];
    let begun = Instant::now();
    let word = finder(asked, &mut ranks, &mut plan);
    Found { word, time: begun.elapsed(), ranks, plan }
}

/// The least of some turns for each finder, the finders taking turns.
fn least(finders: &[Finder], asked: &Asked) -> Vec<Duration> {
    let mut times = vec![Duration::MAX; finders.len()];
    for _ in 0..TURNS {
        let found: Vec<Found> = finders.iter().map(|&finder| timed(finder, asked)).collect();
        for (time, one) in times.iter_mut().zip(&found) {
            *time = one.time.min(*time);
            let same = one.word == found[0].word && one.ranks == found[0].ranks && one.plan == found[0].plan;
            assert!(same, "the finders differ");
        }
    }
    times
}

/// The sum of the least times of each finder over some questions.
fn total(finders: &[Finder], questions: &[Asked]) -> Vec<Duration> {
    let mut sums = vec![Duration::ZERO; finders.len()];
    for asked in questions {
        for (sum, time) in sums.iter_mut().zip(least(finders, asked)) {
            *sum += time;
        }
    }
    sums
}

/// A line for the times of some questions: a question's mean, and the ratio.
fn line(name: &str, count: usize, sums: &[Duration]) {
    let milliseconds = |time: &Duration| time.as_secs_f64() * 1e3 / count as f64;
    let plain = milliseconds(&sums[0]);
    match sums.get(1).map(milliseconds) {
        Some(proved) => println!("{name}: plain {plain:.2} ms, proved {proved:.2} ms, ratio {:.2}", proved / plain),
        None => println!("{name}: plain {plain:.2} ms"),
    }
}

/// The least times of `pj_find` and of `pj_ask` on the same questions, summed: reading the text and printing the plan is what
/// the second does more.
#[cfg(linked)]
fn asked_as_text(questions: &[Asked]) -> [Duration; 2] {
    let mut sums = [Duration::ZERO; 2];
    for asked in questions {
        let mut least = [Duration::MAX; 2];
        let text = asked.text();
        for _ in 0..TURNS {
            let found = timed(proved::find, asked);
            least[0] = found.time.min(least[0]);
            let mut ranks = vec![170; STATES];
            let mut out = vec![170; ANSWER];
            let begun = Instant::now();
            let length = proved::ask(&asked.book, text.as_bytes(), &mut ranks, &mut out);
            least[1] = begun.elapsed().min(least[1]);
            assert!(ranks == found.ranks && length <= ANSWER as u64, "the two differ");
        }
        for (sum, time) in sums.iter_mut().zip(least) {
            *sum += time;
        }
    }
    sums
}

/// The least of some turns for each replay, the replays taking turns. Nothing is at fault, and both reach the same.
fn least_of_shift(replays: &[Replay], recorded: &Recorded) -> Vec<Duration> {
    let Recorded { book, start, shift } = recorded;
    let mut times = vec![Duration::MAX; replays.len()];
    let mut left = None;
    for _ in 0..SHIFT_TURNS {
        for (time, replay) in times.iter_mut().zip(replays) {
            let mut reached = [170, 170];
            let begun = Instant::now();
            let word = replay(book, *start, shift, &mut reached);
            *time = begun.elapsed().min(*time);
            assert!(word == 0 && reached[0] == RECORDS as u64, "a fault in a faultless shift");
            assert!(reached[1] == *left.get_or_insert(reached[1]), "the replays differ");
        }
    }
    times
}

/// A line for the times of a shift.
fn shift_line(name: &str, times: &[Duration]) {
    let told = |time: &Duration| {
        let seconds = time.as_secs_f64();
        format!("{:.2} ms, {:.0} million records a second", seconds * 1e3, RECORDS as f64 / seconds / 1e6)
    };
    let plain = told(&times[0]);
    match times.get(1) {
        Some(proved) => {
            let ratio = proved.as_secs_f64() / times[0].as_secs_f64();
            println!("{name}: plain {plain}, proved {}, ratio {ratio:.2}", told(proved));
        }
        None => println!("{name}: plain {plain}"),
    }
}

fn plain_check(checked: &Checked) -> u64 {
    let Checked { book, team, known, values, make, plan } = checked;
    fast_check::check(book, [*team, *known, *values, 0], make, &[], plan)
}

/// The least of some turns for each check, the checks taking turns. Each says yes.
fn least_of_plan(checks: &[Check], checked: &Checked) -> Vec<Duration> {
    let mut times = vec![Duration::MAX; checks.len()];
    for _ in 0..CHECK_TURNS {
        for (time, check) in times.iter_mut().zip(checks) {
            let begun = Instant::now();
            let word = check(checked);
            *time = begun.elapsed().min(*time);
            assert!(word == 0, "a plan that works was refused");
        }
    }
    times
}

fn main() {
    #[cfg(linked)]
    let (finders, replays): (&[Finder], &[Replay]) = (&[plain, proved::find], &[fast_replay::replay, proved::replay]);
    #[cfg(not(linked))]
    let (finders, replays): (&[Finder], &[Replay]) = (&[plain], &[fast_replay::replay]);
    #[cfg(linked)]
    let checks: &[Check] = &[plain_check, proved::check];
    #[cfg(not(linked))]
    let checks: &[Check] = &[plain_check];
    if finders.len() == 1 {
        println!("the proved library is for x86-64 and this is another processor: the plain finder alone");
    }
    println!("n = 7, m = 8; a question's mean of the least of {TURNS} turns");
    let mut rng = Rng::named(1, "bench");
    let mut random = vec![Duration::ZERO; finders.len()];
    for closed in CLOSED {
        let questions: Vec<Asked> =
            (1..=asked::M).map(|posts| asked::random(&mut rng, asked::N, posts, closed)).collect();
        let sums = total(finders, &questions);
        line(&format!("{} random books, {closed} % of the rules closed, teams of 1 to 8", asked::M), asked::M, &sums);
        for (all, sum) in random.iter_mut().zip(sums) {
            *all += sum;
        }
    }
    line("all random books", CLOSED.len() * asked::M, &random);
    line("the book of rank 254", 1, &total(finders, &[asked::hard(asked::N)]));
    #[cfg(linked)]
    {
        let mut questions: Vec<Asked> =
            (1..=asked::M).map(|posts| asked::random(&mut rng, asked::N, posts, CLOSED[1])).collect();
        questions.push(asked::hard(asked::N));
        let [find, ask] = asked_as_text(&questions);
        println!(
            "{} questions as text: pj_ask to pj_find, ratio {:.3}",
            questions.len(),
            ask.as_secs_f64() / find.as_secs_f64()
        );
    }
    println!("shifts of {RECORDS} records, the least of {SHIFT_TURNS} turns");
    let mut rng = Rng::named(1, "shifts");
    shift_line("every rule open", &least_of_shift(replays, &recorded::open(&mut rng)));
    shift_line("rules that ask for several settings", &least_of_shift(replays, &recorded::of_several(&mut rng)));
    println!("plans of {} bytes, one setting set again and again, the least of {CHECK_TURNS} turns", checked::BYTES);
    for known in checked::counts() {
        line(&format!("{known} known, every rule open"), 1, &least_of_plan(checks, &checked::open(known)));
        line(&format!("{known} known, rules that ask for them"), 1, &least_of_plan(checks, &checked::of_known(known)));
    }
    #[cfg(linked)]
    heights::table();
}
