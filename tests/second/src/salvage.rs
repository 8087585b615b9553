//! A damaged book back on its feet, from request R-6's words and issue 24's alone.

use crate::book::{self, BLOCK, CHECKED};
use crate::refusal::{refusal, Refusal};

/// The salvaged book, and a mark for each setting whose block was replaced.
pub struct Salvaged {
    pub bytes: Vec<u8>,
    pub marks: u8,
}

/// The salvaged book, or the first refusal in the request's order: 6, 30, 15.
pub fn salvage(damaged: &[u8], room: usize) -> Result<Salvaged, Refusal> {
    if !matches!(damaged.len(), 1024 | 1536 | 2048 | 2560 | 3072 | 3584 | 4096) {
        return refusal(6, 0);
    }
    let blocks: Vec<&[u8]> = damaged.chunks(BLOCK).collect();
    let (head, settings) = (blocks[0], &blocks[1..]);
    let (n, m) = (settings.len(), usize::from(head[1]));
    // the head block that a book of this length and this m would have
    if !(1..=8).contains(&m) || head != book::block(&[n as u8, m as u8]) {
        return refusal(30, 0);
    }
    if room < damaged.len() {
        return refusal(15, 0);
    }
    let mut salvaged = Salvaged { bytes: head.to_vec(), marks: 0 };
    for (i, &block) in settings.iter().enumerate() {
        let sound = book::block(&block[..CHECKED]) == block && book::has_only_rights(&block[..CHECKED], n, m);
        salvaged.marks |= u8::from(!sound) << i;
        salvaged.bytes.extend(if sound { block.to_vec() } else { book::block(&[]) });
    }
    Ok(salvaged)
}
