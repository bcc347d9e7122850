//! Generators: windows that follow the format, then damage; the limits on their edges; numbers on theirs.
pub mod arrays;
pub mod edges;
pub mod fast;
pub mod numbers;
pub mod padded;
pub mod readers;
pub mod refusals;
pub mod tables;
pub mod totals;

use crate::bits::Bits;
use crate::rng::Rng;

/// Packed numbers that can't be read.
pub const BAD: [&[u8]; 7] = [
    &[1, 1, 1, 1, 1],
    &[1, 1, 1, 1, 0x20],
    &[0xff; 5],
    &[0xff, 0xff, 0xff, 0xff, 0x20],
    &[3, 5, 7, 9, 0xfe],
    &[0xff, 0xff, 0xff, 0xff, 0x21],
    &[1],
];

pub const WIDTHS: [usize; 22] = [0, 0, 1, 3, 5, 7, 8, 8, 8, 9, 13, 16, 24, 31, 32, 32, 33, 63, 64, 65, 70, 128];

/// A packed number, padded in so many of a hundred.
pub fn put_packed(rng: &mut Rng, out: &mut Bits, value: u32, padded: u32) {
    let size = if rng.percent(padded) { rng.between(1, 5) } else { 1 };
    out.packed_as(value, size);
}

pub fn random_bits(rng: &mut Rng, n: usize) -> Bits {
    let mut b = Bits::new();
    let mut left = n;
    while left > 0 {
        let m = left.min(64);
        b.put(rng.next(), m);
        left -= m;
    }
    b
}

pub fn random_payload(rng: &mut Rng) -> Bits {
    let n = rng.pick(&WIDTHS);
    random_bits(rng, n)
}

/// Bits turned over, a cut, bits put in or taken out, or bits behind; often nothing.
pub fn damage(rng: &mut Rng, w: Bits) -> Bits {
    if w.len() == 0 {
        return w;
    }
    match rng.below(100) {
        0..30 => w,
        30..55 => w.opening(rng.below(w.len() + 1)),
        55..80 => {
            let mut w = w;
            for _ in 0..rng.pick(&[1, 1, 1, 2, 3]) {
                w.flip(rng.below(w.len()));
            }
            w
        }
        80..90 => {
            let n = rng.pick(&[1, 8, 8, 16]);
            w.with(rng.below(w.len() + 1), rng.next(), n)
        }
        90..95 => {
            let mut w = w;
            let n = rng.pick(&[1, 7, 8, 8, 9, 16]);
            let value = if rng.percent(50) { 0 } else { rng.next() };
            w.put(value, n);
            w
        }
        _ => {
            let at = rng.below(w.len());
            let n = rng.pick(&[1, 8, 8, 16]).min(w.len() - at);
            w.without(at, n)
        }
    }
}
