//! How the time of the second finder, which has no rank table, grows: by the number of settings, and by the height that it
//! comes to. Each of its answers has to be the first finder's.

use std::time::{Duration, Instant};

use crate::asked::{self, Asked};
use crate::proved;
use crate::rng::Rng;
use crate::{CLOSED, PLAN, STATES};

/// How many random questions there are of n settings; with seven a question may take half a second.
const QUESTIONS: [usize; 8] = [0, 5000, 5000, 20_000, 5000, 1000, 300, 120];
/// A question's time is the least of some turns.
const TURNS: usize = 3;
/// The lowest heights of the columns, and after them the column of "cannot".
const FROM: [u64; 5] = [0, 2, 4, 8, 16];

/// What the second finder says, the least height or that there is none, and how long it took.
fn timed(asked: &Asked) -> (Option<u64>, Duration) {
    let (mut height, mut time) = (None, Duration::MAX);
    for _ in 0..TURNS {
        let begun = Instant::now();
        height = proved::find_plain(asked).checked_sub(1);
        time = begun.elapsed().min(time);
    }
    let (mut ranks, mut plan) = (vec![170; STATES], vec![170; PLAN]);
    let found = proved::find(asked, &mut ranks, &mut plan);
    assert!(height == (found != 0).then_some(found >> 16), "the two finders differ");
    (height, time)
}

fn column(height: Option<u64>) -> usize {
    height.map_or(FROM.len(), |height| FROM.iter().filter(|&&from| from <= height).count() - 1)
}

fn milliseconds(time: Duration) -> String {
    format!("{:.2}", time.as_secs_f64() * 1e3)
}

/// A row: how many questions came to each column, and the longest time of one.
fn row(n: usize) {
    let mut rng = Rng::named(n as u64, "heights");
    let (mut counts, mut longest) = ([0; FROM.len() + 1], [Duration::ZERO; FROM.len() + 1]);
    for turn in 0..QUESTIONS[n] {
        let asked = asked::random(&mut rng, n, 1 + turn % asked::M, CLOSED[turn % CLOSED.len()]);
        let (height, time) = timed(&asked);
        let at = column(height);
        counts[at] += 1;
        longest[at] = longest[at].max(time);
    }
    let cell = |at: usize| match counts[at] {
        0 => " - |".to_string(),
        count => format!(" {} ({count}) |", milliseconds(longest[at])),
    };
    let (climb, open) = (timed(&asked::hard(n)), timed(&asked::open_in_vain(n)));
    assert!(climb.0 == Some((2 << n) - 2) && open.0.is_none(), "the greatest rank, and a goal that can't be made");
    let cells: String = (0..=FROM.len()).map(cell).collect();
    println!("| {n} |{cells} {} | {} |", milliseconds(climb.1), milliseconds(open.1));
}

pub fn table() {
    println!(
        "the second finder: the longest time of a random question in ms, and of how many, by the height it comes to"
    );
    println!("| n | 0 to 1 | 2 to 3 | 4 to 7 | 8 to 15 | 16 and on | cannot | greatest rank | all open, make `0` |");
    println!("|---|---|---|---|---|---|---|---|---|");
    (1..=asked::N).for_each(row);
}
