//! Memory that is lent to the library, bytes or words: guards on both sides of it, and a copy of what all held before.

use crate::rng::Rng;

/// Bytes on each side of what is lent. host/host.c has the same number.
pub const GUARD: usize = 32;
/// The same in words.
pub const GUARD_WORDS: usize = GUARD / 8;

pub struct Room {
    before: Vec<u8>,
    now: Vec<u8>,
}

impl Room {
    /// Room for `size` bytes, with random bytes in it.
    pub fn of(size: usize, rng: &mut Rng) -> Room {
        let now = rng.bytes(GUARD + size + GUARD);
        Room { before: now.clone(), now }
    }

    /// The given bytes between guards of bytes that could go on with them, to be read or left alone.
    pub fn holding(bytes: &[u8], alphabet: &[u8], rng: &mut Rng) -> Room {
        let mut now = rng.bytes_of(alphabet, GUARD);
        now.extend_from_slice(bytes);
        now.extend(rng.bytes_of(alphabet, GUARD));
        Room { before: now.clone(), now }
    }

    pub fn lent(&self) -> &[u8] {
        &self.now[GUARD..self.now.len() - GUARD]
    }

    pub fn lent_before(&self) -> &[u8] {
        &self.before[GUARD..self.before.len() - GUARD]
    }

    /// All of it with its guards: for the two ends of a call alone.
    pub fn whole_mut(&mut self) -> &mut Vec<u8> {
        &mut self.now
    }

    pub fn untouched(&self) -> bool {
        self.now == self.before
    }

    /// What is lent holds exactly these bytes, and nothing outside it has changed.
    pub fn holds(&self, bytes: &[u8]) -> bool {
        let end = self.now.len() - GUARD;
        self.lent() == bytes && self.now[..GUARD] == self.before[..GUARD] && self.now[end..] == self.before[end..]
    }
}

/// Words that are lent, at an address that is right for words.
pub struct Words {
    before: Vec<u64>,
    now: Vec<u64>,
}

impl Words {
    /// So many words, with random bits in them.
    pub fn of(count: usize, rng: &mut Rng) -> Words {
        let now: Vec<u64> = (0..GUARD_WORDS + count + GUARD_WORDS).map(|_| rng.number()).collect();
        Words { before: now.clone(), now }
    }

    pub fn lent(&self) -> &[u64] {
        &self.now[GUARD_WORDS..self.now.len() - GUARD_WORDS]
    }

    pub fn lent_before(&self) -> &[u64] {
        &self.before[GUARD_WORDS..self.before.len() - GUARD_WORDS]
    }

    /// All of it with its guards: for the two ends of a call alone.
    #[cfg(not(hosted))]
    pub fn whole_mut(&mut self) -> &mut Vec<u64> {
        &mut self.now
    }

    /// What is lent holds exactly these words, and nothing outside it has changed.
    pub fn holds(&self, words: &[u64]) -> bool {
        let end = self.now.len() - GUARD_WORDS;
        let outside = |all: &[u64]| [&all[..GUARD_WORDS], &all[end..]].concat();
        self.lent() == words && outside(&self.now) == outside(&self.before)
    }

    /// The same memory as bytes, for a route that takes no words.
    #[cfg(hosted)]
    pub fn bytes(&self) -> Room {
        let now: Vec<u8> = self.now.iter().flat_map(|word| word.to_le_bytes()).collect();
        Room { before: now.clone(), now }
    }

    /// What the bytes of the same memory are now.
    #[cfg(hosted)]
    pub fn take(&mut self, bytes: &Room) {
        self.now = bytes.now.chunks(8).map(|word| u64::from_le_bytes(word.try_into().unwrap())).collect();
    }
}
