//! Copies of runs of bits into a buffer that is lent once.

use crate::bits::noise;
use crate::row::{side, Row, Sides};
use std::hint::black_box;
use vrf_bitio::BitReader;
use vrf_proved::lent::{self, Cursor};

/// The bytes that are copied from, kept for the whole run since the Rust's reader borrows them.
fn source(count: u64) -> &'static [u8] {
    noise(count as usize / 8 + 16).leak()
}

fn sides(count: u64, from: u64) -> Sides {
    let bytes = source(count);
    let all = bytes.len() as u64 * 8;
    let mut reader = BitReader::new(bytes);
    let cursor = Cursor {
        start: 0,
        pos: from,
        len: all,
    };
    let size = count.div_ceil(8) as usize;
    let (mut ours, mut theirs) = (vec![0; size], vec![0; size]);
    let skipped = reader.skip_bits(from).is_ok();
    let copied = reader.clone().copy_bits_to(&mut theirs, count).is_ok() && lent::copy_bits(bytes, cursor, count, &mut ours).result.is_ok();
    assert!(skipped && copied && ours == theirs, "the copies differ");
    Sides {
        units: 1,
        rust: side(move || {
            let done = black_box(&reader).clone().copy_bits_to(&mut theirs, black_box(count));
            let _ = black_box((done, &theirs));
        }),
        port: side(move || {
            let done = lent::copy_bits(black_box(bytes), black_box(cursor), black_box(count), &mut ours);
            let _ = black_box((done, &ours));
        }),
    }
}

pub fn rows() -> Vec<Row> {
    let mut rows = Vec::new();
    for (name, count) in [("20 bits", 20), ("1 KiB", 8 << 10), ("64 KiB", 8 << 16)] {
        for (place, from) in [("aligned", 0), ("not aligned", 3)] {
            rows.push(Row::new(format!("copy of {name}, {place}"), "copy", move || sides(count, from)));
        }
    }
    rows
}
