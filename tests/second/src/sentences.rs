//! All short sentences there are, made by the grammar's rules from the shortest up: a check of this program's own
//! reader that no reading is needed for.

use std::collections::HashSet;

/// The bytes that matter to what is a sentence: one of each kind.
pub const KINDS: &[u8] = b"a~&|()";

/// All sentences over `KINDS` of at most `most` bytes.
pub fn up_to(most: usize) -> HashSet<Vec<u8>> {
    let mut units: Vec<Vec<Vec<u8>>> = vec![vec![]; most + 1];
    let mut products = units.clone();
    let mut sums = units.clone();
    for length in 1..=most {
        let mut all = if length == 1 { vec![b"a".to_vec()] } else { vec![] };
        all.extend(units[length - 1].iter().map(|unit| [b"~", &unit[..]].concat()));
        all.extend(sums[length.saturating_sub(2)].iter().map(|sum| [b"(", &sum[..], b")"].concat()));
        units[length] = all;
        products[length] = [units[length].clone(), joined(&products, b"&", &units, length)].concat();
        sums[length] = [products[length].clone(), joined(&sums, b"|", &products, length)].concat();
    }
    sums.into_iter().flatten().collect()
}

/// All texts of `length` bytes that are one of `fronts`, the joint and one of `backs`.
fn joined(fronts: &[Vec<Vec<u8>>], joint: &[u8], backs: &[Vec<Vec<u8>>], length: usize) -> Vec<Vec<u8>> {
    let mut all = Vec::new();
    for front_length in 1..length.saturating_sub(1) {
        for front in &fronts[front_length] {
            for back in &backs[length - 1 - front_length] {
                all.push([front, joint, back].concat());
            }
        }
    }
    all
}

/// All texts over `bytes` of at most `most` bytes, the empty one first.
pub fn all_texts(bytes: &[u8], most: usize) -> Vec<Vec<u8>> {
    let mut all = vec![vec![]];
    let mut first = 0;
    for _ in 0..most {
        let end = all.len();
        for i in first..end {
            for &byte in bytes {
                let longer = [&all[i][..], &[byte]].concat();
                all.push(longer);
            }
        }
        first = end;
    }
    all
}
