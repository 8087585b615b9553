//! Random sentences of an exact length: paper 01's grammar, used to write and not to read.

use crate::rng::Rng;

/// How likely each way of going on is, in percent, and how long a piece of a sum or product may be.
#[derive(Clone, Copy)]
pub struct Shape {
    pub name: &'static str,
    joins_sum: u32,
    joins_product: u32,
    negates: u32,
    piece_most: usize,
}

pub const SHAPES: &[Shape] = &[
    Shape { name: "mixed", joins_sum: 50, joins_product: 50, negates: 30, piece_most: 255 },
    Shape { name: "mixed, short pieces", joins_sum: 70, joins_product: 60, negates: 50, piece_most: 12 },
    Shape { name: "deep brackets", joins_sum: 4, joins_product: 4, negates: 4, piece_most: 8 },
    Shape { name: "long rows of ~", joins_sum: 4, joins_product: 4, negates: 97, piece_most: 60 },
    Shape { name: "long sums", joins_sum: 99, joins_product: 85, negates: 60, piece_most: 24 },
    Shape { name: "long products", joins_sum: 40, joins_product: 99, negates: 25, piece_most: 20 },
];

/// A sentence of `length` bytes, at least 1, with letters below n.
pub fn sentence(rng: &mut Rng, shape: Shape, n: usize, length: usize) -> Vec<u8> {
    let mut grower = Grower { rng, shape, n, text: Vec::with_capacity(length) };
    grower.sum(length);
    assert_eq!(grower.text.len(), length);
    grower.text
}

struct Grower<'a> {
    rng: &'a mut Rng,
    shape: Shape,
    n: usize,
    text: Vec<u8>,
}

impl Grower<'_> {
    fn sum(&mut self, length: usize) {
        for (i, piece) in self.pieces(length, self.shape.joins_sum).into_iter().enumerate() {
            if i > 0 {
                self.text.push(b'|');
            }
            self.product(piece);
        }
    }

    fn product(&mut self, length: usize) {
        for (i, piece) in self.pieces(length, self.shape.joins_product).into_iter().enumerate() {
            if i > 0 {
                self.text.push(b'&');
            }
            self.unit(piece);
        }
    }

    fn unit(&mut self, length: usize) {
        match length {
            1 => {
                let byte = self.atom();
                self.text.push(byte);
            }
            2 => self.negated(length),
            _ if self.rng.chance(self.shape.negates) => self.negated(length),
            _ => {
                self.text.push(b'(');
                self.sum(length - 2);
                self.text.push(b')');
            }
        }
    }

    fn negated(&mut self, length: usize) {
        self.text.push(b'~');
        self.unit(length - 1);
    }

    fn atom(&mut self) -> u8 {
        if self.rng.chance(5) {
            self.rng.one_of(b"01")
        } else {
            b'a' + self.rng.below(self.n) as u8
        }
    }

    /// Lengths of pieces that make up `length` bytes with one byte between every two of them.
    fn pieces(&mut self, length: usize, joins: u32) -> Vec<usize> {
        let mut pieces = Vec::new();
        let mut rest = length;
        while rest >= 3 && self.rng.chance(joins) {
            let piece = self.rng.between(1, self.shape.piece_most.min(rest - 2));
            pieces.push(piece);
            rest -= piece + 1;
        }
        pieces.push(rest);
        pieces
    }
}
