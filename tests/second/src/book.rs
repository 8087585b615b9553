//! Books, from paper 01's section on them and its refusals 5 to 9 and 15 alone.
//!
//! A block's two numbers are taken as totals and not run along, and what must be zero is judged bit by bit.

use crate::refusal::{refusal, Refusal};

pub const BLOCK: usize = 512;
/// Bytes of a block that its check is over.
pub const CHECKED: usize = 508;
/// Table bytes of a setting: 8 posts, for each a look and a set table of 16 bytes.
pub const TABLES: usize = 256;

#[derive(Clone, PartialEq, Eq)]
pub struct Book {
    pub n: usize,
    pub m: usize,
    pub rights: Vec<u8>,
}

/// The book, or the first refusal in the paper's order: 6, 7 (lowest block), 8, 9 (lowest), 15.
pub fn read(book: &[u8], room: usize) -> Result<Book, Refusal> {
    let blocks: Vec<&[u8]> = book.chunks(BLOCK).collect();
    if book.len() % BLOCK != 0 || !(2..=8).contains(&blocks.len()) {
        return refusal(6, 0);
    }
    if let Some(block) = blocks.iter().position(|block| stored_check(block) != check(&block[..CHECKED])) {
        return refusal(7, block);
    }
    let (head, settings) = (blocks[0], &blocks[1..]);
    let (n, m) = (usize::from(head[0]), usize::from(head[1]));
    if n != settings.len() || !(1..=8).contains(&m) || head[2..CHECKED].iter().any(|&byte| byte != 0) {
        return refusal(8, 0);
    }
    if let Some(setting) = settings.iter().position(|block| !has_only_rights(&block[..CHECKED], n, m)) {
        return refusal(9, 1 + setting);
    }
    if room < n * TABLES {
        return refusal(15, 0);
    }
    Ok(Book { n, m, rights: settings.iter().flat_map(|block| block[..TABLES].to_vec()).collect() })
}

/// The book's bytes, or the first refusal in the paper's order: 5, 8 (m only), 6, 9, 15.
pub fn write(n: u64, m: u64, rights: &[u8], room: usize) -> Result<Vec<u8>, Refusal> {
    if !(1..=7).contains(&n) {
        return refusal(5, 0);
    }
    if !(1..=8).contains(&m) {
        return refusal(8, 0);
    }
    let (n, m) = (n as usize, m as usize);
    if rights.len() != TABLES * n {
        return refusal(6, 0);
    }
    if let Some(setting) = rights.chunks(TABLES).position(|tables| !has_only_rights(tables, n, m)) {
        return refusal(9, 1 + setting);
    }
    if room < BLOCK * (1 + n) {
        return refusal(15, 0);
    }
    let head = block(&[n as u8, m as u8]);
    Ok([head].into_iter().chain(rights.chunks(TABLES).map(block)).flatten().collect())
}

/// Each byte is added to s, which starts at 1. s is added to t after each of the 508: the 1 counts 508 times, and a
/// byte from its own turn on.
pub fn check(bytes: &[u8]) -> (u16, u16) {
    assert_eq!(bytes.len(), CHECKED);
    let mut s: u64 = 1;
    let mut t: u64 = CHECKED as u64;
    for (i, &byte) in bytes.iter().enumerate() {
        s += u64::from(byte);
        t += u64::from(byte) * (CHECKED - i) as u64;
    }
    ((s % 65_536) as u16, (t % 65_536) as u16)
}

/// Two 16-bit numbers, low byte first.
fn stored_check(block: &[u8]) -> (u16, u16) {
    let number = |at| u16::from_le_bytes([block[at], block[at + 1]]);
    (number(508), number(510))
}

/// A block that starts with these bytes, is zero up to its check and has a right check.
pub fn block(start: &[u8]) -> Vec<u8> {
    let mut block = start.to_vec();
    block.resize(CHECKED, 0);
    let (s, t) = check(&block);
    block.extend(s.to_le_bytes());
    block.extend(t.to_le_bytes());
    block
}

/// Tables of posts that don't exist, bits past 2^n, and all bytes past the tables are zero.
pub fn has_only_rights(setting: &[u8], n: usize, m: usize) -> bool {
    let is_right = |byte: usize, bit: usize| byte / 32 < m && byte % 16 * 8 + bit < 1 << n;
    setting.iter().enumerate().all(|(byte, &bits)| (0..8).all(|bit| bits >> bit & 1 == 0 || is_right(byte, bit)))
}
