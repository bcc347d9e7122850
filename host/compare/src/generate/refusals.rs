//! Inputs for refusals that the Rust doesn't have: sizes on their edges and one past, broken tables, bad cursors.
use super::tables::random_rows;
use crate::merge::MergeCase;
use crate::refusals::{Lists, ReadCall, RefusalCase};
use crate::rng::Rng;
use crate::window::Window;
use vrf_proved::lent::{Cursor, LONGEST_WINDOW, NONE};

pub fn case(rng: &mut Rng) -> RefusalCase {
    match rng.below(10) {
        0..2 => too_long(rng),
        2..6 => {
            // A window with one leaf, so that a walk that isn't refused fills something.
            let window = Window {
                bytes: vec![2, 2, 4, 0x10, 0xab, 0, 0],
                bits: 56,
            };
            let lists = lists(rng);
            if rng.percent(30) {
                RefusalCase::Exact(window, lists)
            } else {
                RefusalCase::Struct(window, lists)
            }
        }
        _ => bad_read(rng),
    }
}

fn too_long(rng: &mut Rng) -> RefusalCase {
    let past = rng.pick(&[1, 1, 2, 8, 1 << 20, NONE - LONGEST_WINDOW]);
    let bits = LONGEST_WINDOW + past;
    let bytes = if rng.percent(30) {
        vec![0; (bits as usize).div_ceil(8).min(65_537)]
    } else {
        vec![2; rng.below(9)]
    };
    let window = Window { bytes, bits };
    match rng.below(6) {
        0 => RefusalCase::Struct(window, lists(rng)),
        1 => RefusalCase::Exact(window, lists(rng)),
        2 => RefusalCase::Objects(window),
        3 => RefusalCase::Fast(window, rng.percent(50)),
        4 => {
            let count = rng.pick(&[bits.into(), 1 << 40, u64::MAX]);
            RefusalCase::Movement(window.bytes, count)
        }
        _ => {
            let bytes = vec![0; rng.below(9)];
            let count = 8 * bytes.len() as u64 + 1 + rng.bits(18);
            RefusalCase::Movement(bytes, count)
        }
    }
}

/// Tables that are laid out, then often one thing changed: on the edge of a size or one past it, or a broken row.
fn lists(rng: &mut Rng) -> Lists {
    let (levels, rows, names) = random_rows(rng);
    let mut t = Lists {
        rows: rows.concat(),
        levels,
        root: rng.pick(&[0, NONE]),
        names,
        declared: vec![NONE, 0, 0, 1, 1, 0],
        pool: b"k".to_vec(),
    };
    if rng.percent(20) {
        return t;
    }
    match rng.below(16) {
        0 => t.rows.push(0),
        1 => t.rows.extend([levels, 0, 0, 0, 0]),
        2 => t.rows.extend([0, rng.pick(&[2, 3, NONE]), 0, 0, 0]),
        3 => t.rows.extend([0, 0, 9, levels, 0]),
        4 => t.rows.extend([0, 0, 9, 0, rng.pick(&[0, 1, NONE])]),
        5 => {
            let end = t.names.len() as u32;
            t.rows.extend([0, 1, 9, rng.pick(&[end, end + 1, NONE]), rng.pick(&[0, 1, NONE])]);
        }
        6 => {
            let start = t.names.len() as u32;
            t.names.extend([b'n'; 65]);
            t.rows.extend([0, 1, 9, start, rng.pick(&[64, 65])]);
        }
        7 => t.levels = rng.pick(&[64, 65, NONE]),
        8 => t.root = rng.pick(&[levels, levels - 1, NONE - 1]),
        9 => t.rows = [0, 0, 9, 0, 0].repeat(rng.pick(&[511, 512, 513])),
        10 => t.names.resize(rng.pick(&[65_536, 65_537]), b'n'),
        11 => t.declared.push(0),
        12 => t.declared = [NONE, 0].repeat(rng.pick(&[1023, 1024, 1025])),
        13 => t.declared.extend([rng.pick(&[0, 1, 2, NONE]), rng.pick(&[0, 1, 2, NONE])]),
        14 => {
            t.pool.resize(rng.pick(&[64, 65, 65_536, 65_537]), b'p');
            t.declared.extend([0, rng.pick(&[64, 65])]);
        }
        _ => {
            t.levels = 0;
            t.rows.clear();
            t.root = rng.pick(&[0, NONE]);
        }
    }
    t
}

fn bad_read(rng: &mut Rng) -> RefusalCase {
    let bytes: Vec<u8> = (0..rng.below(12)).map(|_| rng.next() as u8).collect();
    let available = 8 * bytes.len() as u64;
    if rng.percent(30) {
        // a good cursor, and a call that is refused before any read
        let len = rng.below(available as usize + 1) as u64;
        let cursor = Cursor {
            start: available - len,
            pos: rng.below(len as usize + 1) as u64,
            len,
        };
        let call = match rng.below(5) {
            0 => ReadCall::Bits(rng.pick(&[65, 66, 128, 1 << 32, u64::MAX])),
            1 => ReadCall::Rotation(rng.pick(&[0, 1, 7, 9, 15, 17, 32, 64, NONE])),
            2 => ReadCall::Serialized(0),
            3 => ReadCall::Vector(0),
            _ => ReadCall::Copy(rng.pick(&[2049, 1 << 20, u64::MAX])),
        };
        return RefusalCase::Read(call, bytes, cursor);
    }
    let n = rng.bits(7);
    let call = rng.pick(&[
        ReadCall::Bits(n),
        ReadCall::Packed,
        ReadCall::Serialized(n as u32),
        ReadCall::Copy(n),
        ReadCall::Copy(u64::MAX),
        ReadCall::Vector(n as u32),
        ReadCall::Normal,
        ReadCall::Rotation(8),
        ReadCall::Rotation(n as u32),
    ]);
    let len = rng.bits(7);
    let large = rng.pick(&[1 << 32, 1 << 63, u64::MAX - 7, u64::MAX]);
    let mut cursor = match rng.below(5) {
        0 => Cursor {
            start: 0,
            pos: len + 1 + rng.bits(5),
            len,
        },
        1 => Cursor {
            start: rng.bits(4),
            pos: 0,
            len: available + 1,
        },
        2 => Cursor { start: large, pos: 0, len },
        3 => Cursor {
            start: len,
            pos: 0,
            len: large,
        },
        _ => Cursor { start: 0, pos: large, len },
    };
    if cursor.pos <= cursor.len && cursor.start.checked_add(cursor.len).is_some_and(|end| end <= available) {
        cursor.pos = cursor.len + 1;
    }
    RefusalCase::Read(call, bytes, cursor)
}

pub fn merge(rng: &mut Rng) -> MergeCase {
    let mut counter = || match rng.below(10) {
        0..4 => 0,
        4..8 => rng.bits(30),
        8 => rng.next(),
        _ => u64::MAX - rng.bits(2),
    };
    MergeCase {
        left: std::array::from_fn(|_| counter()),
        right: std::array::from_fn(|_| counter()),
    }
}
