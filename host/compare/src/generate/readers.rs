//! Calls of the bit reader at any place of windows that start at any bit; counts on their edges; cursors that are not good.
use super::random_bits;
use crate::probes::ProbeCall;
use crate::reader::ReaderCase;
use crate::rng::Rng;
use vrf_proved::lent::{Cursor, LONGEST_WINDOW};

/// In `ProbeCall::all`: the first that takes a cursor, the first plain read.
const AT_A_CURSOR: usize = 2;
const READ: usize = 9;

/// Bytes, and a window of theirs that a read of so many bits just fits, or lacks a bit or more, or has room around.
fn placed(rng: &mut Rng, read: u64) -> (Vec<u8>, Cursor) {
    let start = if rng.percent(80) {
        rng.below(80) as u64
    } else {
        rng.below(600) as u64
    };
    let far = rng.below(200) as u64;
    let pos = rng.pick(&[0, 0, 1, 3, 7, 8, 13, 64, far]);
    let any = rng.below(150) as u64;
    let left = rng.pick(&[0, 0, 1, read.saturating_sub(1), read, read, read + 1, any, any, any]);
    let len = pos + left;
    let behind = rng.pick(&[0, 0, 1, 7, 9, 40]);
    let whole = (start + len) as usize + behind;
    (random_bits(rng, whole).bytes().to_vec(), Cursor { start, pos, len })
}

/// `read_bit`, `read_u8` to `read_u64`, `read_i32`.
pub fn read(rng: &mut Rng) -> ReaderCase {
    let call = rng.pick(&ProbeCall::all(0)[READ..]);
    let (mut bytes, cursor) = placed(rng, call.width().unwrap_or(0));
    spill(rng, &mut bytes, cursor);
    ReaderCase { call, bytes, cursor }
}

/// What stands behind the window, in its last byte, is random too.
fn spill(rng: &mut Rng, bytes: &mut [u8], c: Cursor) {
    let end = c.start + c.len;
    if !end.is_multiple_of(8)
        && let Some(byte) = bytes.get_mut((end / 8) as usize)
    {
        *byte ^= (rng.next() as u8) << (end % 8);
    }
}

/// `new` and `open`, what a reader says of itself, `skip_bits`, `skip_remaining`, `sub_reader`.
pub fn reader(rng: &mut Rng) -> ReaderCase {
    let (mut bytes, cursor) = placed(rng, 64);
    spill(rng, &mut bytes, cursor);
    let call = match rng.below(10) {
        0 => ProbeCall::New,
        1..3 => {
            if rng.percent(2) {
                bytes = vec![0x5a; rng.pick(&[65_535, 65_536, 65_537])];
            }
            let (all, longest) = (8 * bytes.len() as u64, u64::from(LONGEST_WINDOW));
            let any = rng.below(all as usize + 1) as u64;
            let edges = [0, all, all + 1, all.saturating_sub(1), longest, longest + 1, u64::MAX, any, any];
            ProbeCall::Open(rng.pick(&edges))
        }
        _ => {
            let left = cursor.len - cursor.pos;
            let any = rng.below(left as usize + 1) as u64;
            let count = rng.pick(&[
                0,
                left,
                left,
                left + 1,
                left + 64,
                1 << 32,
                u64::MAX - cursor.pos,
                u64::MAX,
                any,
                any,
                any,
            ]);
            rng.pick(&ProbeCall::all(count)[AT_A_CURSOR..READ])
        }
    };
    ReaderCase { call, bytes, cursor }
}

/// A cursor that is past its length, its bytes, or all numbers.
pub fn bad_cursor(rng: &mut Rng) -> ReaderCase {
    let (bytes, good) = placed(rng, 32);
    let available = 8 * bytes.len() as u64;
    let large = rng.pick(&[1 << 32, 1 << 61, 1 << 63, u64::MAX - 7, u64::MAX]);
    let step = rng.pick(&[1, 2, 8, 64]);
    let Cursor { start, pos, len } = good;
    let cursor = match rng.below(8) {
        0 => Cursor { pos: len + step, ..good },
        1 => Cursor { pos: large, ..good },
        2 => Cursor {
            len: available - start + step,
            ..good
        },
        3 => Cursor { len: large, ..good },
        4 => Cursor {
            start: available - len + step,
            ..good
        },
        5 => Cursor {
            start: large,
            pos: pos.min(1),
            len: len.max(1),
        },
        6 => Cursor {
            start: u64::MAX - len.max(1) + 1,
            pos,
            len: len.max(1),
        },
        _ => Cursor {
            start: large,
            pos: large,
            len: large,
        },
    };
    let count = rng.pick(&[0, 1, len, u64::MAX]);
    ReaderCase {
        call: rng.pick(&ProbeCall::all(count)[AT_A_CURSOR..]),
        bytes,
        cursor,
    }
}
