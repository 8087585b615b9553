//! A quick plain finder, to measure the proved one by: the same design, in ordinary Rust. It stands by itself, so that
//! bench/ can take this one file; `fast_replay.rs` and `fast_check.rs` lean on it. The cases here only compare it with
//! `finder.rs`.
//!
//! What is permitted depends on the present side alone (unknown, false or true for each setting), so each rule is
//! judged once for each of the 3^n sides. States where the goal is settled get rank 0; then each round pushes from
//! the states that were found last to those that lead to them.

pub const BLOCK: usize = 512;
const CHECKED: usize = 508;
const MOST: usize = 7;
const NEVER: u8 = 255;
const SIDES: usize = 2_187;

/// By digit: its present side, its start side (0 unknown, 1 false, 2 true), and the digits that a set takes to it.
const PRESENT: [usize; 7] = [0, 1, 2, 1, 2, 1, 2];
const START: [usize; 7] = [0, 0, 0, 1, 1, 2, 2];
const SET_FROM: [&[usize]; 7] = [&[], &[0, 1, 2], &[0, 1, 2], &[3, 4], &[3, 4], &[5, 6], &[5, 6]];
const SET: [[usize; 2]; 7] = [[1, 2], [1, 2], [1, 2], [3, 4], [3, 4], [5, 6], [5, 6]];
const SEEN: [usize; 2] = [3, 6];
const POWERS: [usize; 8] = [1, 7, 49, 343, 2_401, 16_807, 117_649, 823_543];
const THREES: [usize; 8] = [1, 3, 9, 27, 81, 243, 729, 2_187];

/// The same arguments and the same word as the library's `pj_find`.
#[allow(clippy::too_many_arguments)]
pub fn find(
    book: &[u8],
    team: u8,
    known: u8,
    values: u8,
    held: u8,
    make: &[u8],
    learn: &[u8],
    ranks: &mut [u8],
    plan: &mut [u8],
) -> u64 {
    match sound(book, [team, known, values, held], make, learn) {
        Err(word) => word,
        Ok(n) if ranks.len() < POWERS[n] => refused(13, 0),
        Ok(n) => {
            let rights = Rights { n, team, held, book };
            let may = rights.permissions();
            mark(n, make, learn, &mut ranks[..POWERS[n]]);
            spread(n, &may, &mut ranks[..POWERS[n]]);
            let finder = Finder { rights, may, ranks };
            let start = (0..n).map(|i| if known >> i & 1 == 1 { SEEN[usize::from(values >> i & 1)] } else { 0 });
            finder.answer(start.enumerate().map(|(i, digit)| digit * POWERS[i]).sum(), plan)
        }
    }
}

pub fn refused(number: u64, place: usize) -> u64 {
    number << 32 | place as u64
}

/// Refusals 6 to 9, or n and m.
pub fn sound_book(book: &[u8]) -> Result<(usize, usize), u64> {
    let blocks = book.len() / BLOCK;
    if book.len() % BLOCK != 0 || !(2..=8).contains(&blocks) {
        return Err(refused(6, 0));
    }
    for (place, block) in book.chunks_exact(BLOCK).enumerate() {
        let (mut s, mut t) = (1u16, 0u16);
        for &byte in &block[..CHECKED] {
            s = s.wrapping_add(u16::from(byte));
            t = t.wrapping_add(s);
        }
        if block[CHECKED..CHECKED + 2] != s.to_le_bytes() || block[CHECKED + 2..] != t.to_le_bytes() {
            return Err(refused(7, place));
        }
    }
    let (n, m) = (usize::from(book[0]), usize::from(book[1]));
    if n != blocks - 1 || !(1..=8).contains(&m) || book[2..CHECKED].iter().any(|&byte| byte != 0) {
        return Err(refused(8, 0));
    }
    let past = past(n);
    for (place, block) in book.chunks_exact(BLOCK).enumerate().skip(1) {
        let tables_end = 32 * m;
        let within = block[..tables_end].chunks_exact(16).all(|table| number(table) & past == 0);
        if !within || block[tables_end..CHECKED].iter().any(|&byte| byte != 0) {
            return Err(refused(9, place));
        }
    }
    Ok((n, m))
}

/// The bits of a table at or past 2^n.
fn past(n: usize) -> u128 {
    if n == MOST {
        0
    } else {
        u128::MAX << (1u32 << n)
    }
}

/// Refusals 6 to 12 and 31, or n. The masks are team, known, values and held.
pub fn sound(book: &[u8], masks: [u8; 4], make: &[u8], learn: &[u8]) -> Result<usize, u64> {
    let [team, known, values, held] = masks;
    let (n, m) = sound_book(book)?;
    let past = past(n);
    if team == 0 || u32::from(team) >> m != 0 {
        return Err(refused(10, 0));
    }
    if u32::from(known) >> n != 0 || values & !known != 0 {
        return Err(refused(11, 0));
    }
    if u32::from(held) >> n != 0 {
        return Err(refused(31, 0));
    }
    let tables = make.len() == 16 && learn.len() % 16 == 0 && learn.len() <= 64;
    if !tables || number(make) & past != 0 || learn.chunks_exact(16).any(|table| number(table) & past != 0) {
        return Err(refused(12, 0));
    }
    Ok(n)
}

fn number(table: &[u8]) -> u128 {
    u128::from_le_bytes(table.try_into().unwrap())
}

/// For each side, a bit for each setting that some post of the team may set, and may look at.
struct May {
    set: [u8; SIDES],
    look: [u8; SIDES],
}

struct Rights<'a> {
    n: usize,
    team: u8,
    held: u8,
    book: &'a [u8],
}

impl Rights<'_> {
    fn rule(&self, setting: usize, post: usize, set: bool) -> u128 {
        let at = BLOCK * (1 + setting) + 32 * post + if set { 16 } else { 0 };
        number(&self.book[at..at + 16])
    }

    fn posts(&self) -> impl Iterator<Item = usize> + '_ {
        (0..8).filter(|post| self.team >> post & 1 == 1)
    }

    fn permissions(&self) -> May {
        let mut may = May { set: [0; SIDES], look: [0; SIDES] };
        for setting in 0..self.n {
            for post in self.posts() {
                for (set, bits) in [(true, &mut may.set), (false, &mut may.look)] {
                    let rule = self.rule(setting, post, set);
                    let held = set && self.held >> setting & 1 == 1;
                    if rule != 0 && !held {
                        let holds = judged(self.n, rule);
                        for (bits, holds) in bits.iter_mut().zip(&holds[..THREES[self.n]]) {
                            *bits |= u8::from(holds & 1 != 0) << setting;
                        }
                    }
                }
            }
        }
        may
    }
}

/// At each side, bit 0: the rule is true at every fitting valuation; bit 1: false at every one. A side with nothing
/// unknown has one valuation; another is judged from two higher ones, where its first unknown setting is known.
fn judged(n: usize, rule: u128) -> [u8; SIDES] {
    let mut judged = [0; SIDES];
    for side in (0..THREES[n]).rev() {
        let (mut rest, mut v, mut unknown) = (side, 0, None);
        for i in 0..n {
            match rest % 3 {
                0 => {
                    unknown = Some(i);
                    break;
                }
                value => v |= (value - 1) << i,
            }
            rest /= 3;
        }
        judged[side] = match unknown {
            Some(i) => judged[side + THREES[i]] & judged[side + 2 * THREES[i]],
            None if rule >> v & 1 == 1 => 1,
            None => 2,
        };
    }
    judged
}

/// 0 where the goal is settled, 255 elsewhere.
fn mark(n: usize, make: &[u8], learn: &[u8], ranks: &mut [u8]) {
    let made = judged(n, number(make));
    let mut learnt = [true; SIDES];
    for table in learn.chunks_exact(16) {
        let one_value = judged(n, number(table));
        for (learnt, judged) in learnt.iter_mut().zip(one_value) {
            *learnt &= judged != 0;
        }
    }
    mark_below(n, 0, 0, &made, &learnt, ranks);
}

/// The ranks of all states with the same digits from `n` on, which make up these two sides.
fn mark_below(n: usize, present: usize, start: usize, made: &[u8], learnt: &[bool], ranks: &mut [u8]) {
    if n == 0 {
        ranks[0] = if made[present] & 1 != 0 && learnt[start] { 0 } else { NEVER };
        return;
    }
    let i = n - 1;
    for (digit, ranks) in ranks.chunks_exact_mut(POWERS[i]).enumerate() {
        let (present, start) = (present + PRESENT[digit] * THREES[i], start + START[digit] * THREES[i]);
        mark_below(i, present, start, made, learnt, ranks);
    }
}

/// Rounds h = 1, 2, ..: from each state of rank h − 1 to those whose permitted act leads to it.
fn spread(n: usize, may: &May, ranks: &mut [u8]) {
    for h in 1..NEVER {
        let mut found = false;
        for base in (0..ranks.len()).step_by(STRIDE) {
            let end = ranks.len().min(base + STRIDE);
            if has(&ranks[base..end], h - 1) {
                found = true;
                for state in base..end {
                    if ranks[state] == h - 1 {
                        push(n, may, ranks, state, h);
                    }
                }
            }
        }
        if !found {
            return;
        }
    }
}

/// Ranks that are looked through at once: a whole row of them is compared without a branch.
const STRIDE: usize = 128;

fn has(ranks: &[u8], rank: u8) -> bool {
    match <&[u8; STRIDE]>::try_from(ranks) {
        Ok(row) => row.iter().fold(0, |any, &one| any | u8::from(one == rank)) != 0,
        Err(_) => ranks.contains(&rank),
    }
}

fn push(n: usize, may: &May, ranks: &mut [u8], state: usize, h: u8) {
    let mut digits = [0; MOST];
    let mut side = 0;
    let mut rest = state;
    for i in 0..n {
        digits[i] = rest % 7;
        side += PRESENT[digits[i]] * THREES[i];
        rest /= 7;
    }
    for i in 0..n {
        let digit = digits[i];
        let (state_0, side_0) = (state - digit * POWERS[i], side - PRESENT[digit] * THREES[i]);
        for &from in SET_FROM[digit] {
            let before = state_0 + from * POWERS[i];
            if ranks[before] == NEVER && may.set[side_0 + PRESENT[from] * THREES[i]] >> i & 1 == 1 {
                ranks[before] = h;
            }
        }
        if SEEN.contains(&digit) && ranks[state_0] == NEVER && may.look[side_0] >> i & 1 == 1 {
            let other = state_0 + (SEEN[0] + SEEN[1] - digit) * POWERS[i];
            if ranks[other] < h {
                ranks[state_0] = h;
            }
        }
    }
}

struct Finder<'a> {
    rights: Rights<'a>,
    may: May,
    ranks: &'a [u8],
}

impl Finder<'_> {
    fn answer(&self, start: usize, plan: &mut [u8]) -> u64 {
        let height = self.ranks[start];
        if height == NEVER {
            return 0;
        }
        let length = self.length(start);
        if length > plan.len() {
            return refused(14, 0);
        }
        self.write(start, plan, 0);
        u64::from(height) << 16 | length as u64
    }

    fn length(&self, state: usize) -> usize {
        match self.next(state) {
            None => 1,
            Some((_, [one, other])) if one == other => 1 + self.length(one),
            Some((_, [one, other])) => 1 + self.length(one) + self.length(other),
        }
    }

    /// Writes the state's plan at a place, and gives the place after it.
    fn write(&self, state: usize, plan: &mut [u8], at: usize) -> usize {
        let Some((byte, [one, other])) = self.next(state) else {
            plan[at] = 0;
            return at + 1;
        };
        plan[at] = byte;
        let next = self.write(one, plan, at + 1);
        if one == other {
            next
        } else {
            self.write(other, plan, next)
        }
    }

    /// The smallest act byte that leads to lower ranks alone, and its two outcomes (the same one twice for a set).
    fn next(&self, state: usize) -> Option<(u8, [usize; 2])> {
        let rank = self.ranks[state];
        if rank == 0 {
            return None;
        }
        let digit = |i: usize| state / POWERS[i] % 7;
        let side: usize = (0..self.rights.n).map(|i| PRESENT[digit(i)] * THREES[i]).sum();
        for kind in 0..3 {
            for i in 0..self.rights.n {
                let to = |new: usize| state - digit(i) * POWERS[i] + new * POWERS[i];
                let outcomes = match kind {
                    2 if digit(i) != 0 => continue,
                    2 => [to(SEEN[0]), to(SEEN[1])],
                    value => [to(SET[digit(i)][value]); 2],
                };
                let may = if kind == 2 { &self.may.look } else { &self.may.set };
                if may[side] >> i & 1 == 1 && outcomes.iter().all(|&outcome| self.ranks[outcome] < rank) {
                    return Some(((1 + (kind * 7 + i) * 8 + self.first_post(i, kind != 2, side)) as u8, outcomes));
                }
            }
        }
        unreachable!("a rank with no act below it")
    }

    fn first_post(&self, setting: usize, set: bool, side: usize) -> usize {
        let fitting = fitting(self.rights.n, side);
        let mut posts = self.rights.posts();
        posts.find(|&post| fitting & !self.rights.rule(setting, post, set) == 0).unwrap()
    }
}

/// The valuations that fit a side, a bit for each.
fn fitting(n: usize, side: usize) -> u128 {
    let (known, values) = (0..n).fold((0, 0), |(known, values), i| match side / THREES[i] % 3 {
        0 => (known, values),
        value => (known | 1 << i, values | (value - 1) << i),
    });
    (0..1usize << n).filter(|v| v & known == values).fold(0, |bits, v| bits | 1 << v)
}
