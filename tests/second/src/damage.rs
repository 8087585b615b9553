//! Ways to damage a text at a place.

pub fn replaced(text: &[u8], place: usize, byte: u8) -> Vec<u8> {
    let mut damaged = text.to_vec();
    damaged[place] = byte;
    damaged
}

pub fn inserted(text: &[u8], place: usize, byte: u8) -> Vec<u8> {
    let mut damaged = text.to_vec();
    damaged.insert(place, byte);
    damaged
}

pub fn deleted(text: &[u8], place: usize) -> Vec<u8> {
    let mut damaged = text.to_vec();
    damaged.remove(place);
    damaged
}

/// The bytes at the two places change places.
pub fn swapped(text: &[u8], place: usize, other: usize) -> Vec<u8> {
    let mut damaged = text.to_vec();
    damaged.swap(place, other);
    damaged
}
