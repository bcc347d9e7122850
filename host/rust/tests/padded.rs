//! Packed numbers that take more bytes than they need: told of a single one, counted in every other answer, and nothing else changes but
//! the start.

mod common;

use common::{stats, Window};
use vrf_proved::fastarray::{decode_fast_array_delta, try_decode_fast_array_delta, ChecksumMode};
use vrf_proved::lent::{self, Cursor, Packed, Verdict};
use vrf_proved::*;

/// How many bytes each number of an array of one element with one field takes: count, index, handle, width, the element's zero, the array's.
type Sizes = [u32; 6];

/// Such an array. As an object array it holds 7.
fn array(sizes: Sizes) -> Window {
    let mut window = Window::default();
    for (place, (value, size)) in [1, 1, 2, 8, 0, 0].into_iter().zip(sizes).enumerate() {
        if place == 4 {
            window.push(14, 8);
        }
        window.padded(value, size);
    }
    window
}

/// How many padded numbers each of the three walks reads. Each of them has these counters but for what it counts as a field.
#[track_caller]
fn walks(window: &Window, padded: u32, counters: [u64; 7]) {
    let structs = try_decode_struct_array(&window.bytes, window.bits, None, &[]).unwrap();
    let exact = try_decode_struct_array_exact(&window.bytes, window.bits, &[]).unwrap();
    let objects = try_decode_object_ref_array(&window.bytes, window.bits).unwrap();
    assert_eq!((structs.padded, exact.padded, objects.padded), (padded, padded, padded));
    for counted in [structs.stats, exact.stats, objects.stats] {
        let fields_emitted = counted.fields_emitted;
        assert_eq!(
            counted,
            ArrayDecodeStats {
                fields_emitted,
                ..stats(counters)
            }
        );
    }
}

#[test]
fn a_number() {
    let shortest = [
        (0, 1),
        (127, 1),
        (128, 2),
        (16_383, 2),
        (16_384, 3),
        (2_097_151, 3),
        (2_097_152, 4),
        (268_435_455, 4),
        (268_435_456, 5),
        (u32::MAX, 5),
    ];
    for (value, needed) in shortest {
        for bytes in needed..=5 {
            let mut window = Window::of(0x1f, 5);
            window.padded(value, bytes);
            let len = u64::from(window.bits - 2);
            let read = lent::read_packed(&window.bytes, Cursor { start: 2, pos: 3, len });
            let packed = Packed {
                value: u64::from(value),
                bytes,
                padded: bytes > needed,
            };
            assert_eq!((read.result, read.position), (Ok(packed), len));
        }
    }
}

#[test]
fn every_place() {
    let plain = array([1; 6]);
    let mut counted = ArrayDecodeStats::default();
    let leaves = decode_struct_array(&plain.bytes, plain.bits, None, &[], &mut counted);
    for size in 2..=5 {
        let alone = (0..6).map(|place| {
            let mut sizes = [1; 6];
            sizes[place] = size;
            (sizes, 1)
        });
        for (sizes, padded) in alone.chain([([size; 6], 6)]) {
            let window = array(sizes);
            walks(&window, padded, [1, 0, 0, 0, 0, 0, 0]);
            let walk = try_decode_struct_array(&window.bytes, window.bits, None, &[]).unwrap();
            assert_eq!(
                (&walk.values[0].field, &walk.stats, walk.verdict),
                (&leaves[0], &counted, Verdict::Clean),
                "nothing else changes but the start"
            );
            let in_front = 8 * sizes[..4].iter().sum::<u32>();
            assert_eq!((walk.values.len(), walk.values[0].window_start), (1, in_front));
            assert_eq!(
                decode_struct_array(&window.bytes, window.bits, None, &[], &mut ArrayDecodeStats::default()),
                leaves
            );
            assert_eq!(decode_object_ref_array(&window.bytes, window.bits), [(0, 7)]);
        }
    }
}

/// Numbers in two bytes each, then some bits.
fn padded_then(numbers: &[u32], bits: u64, count: u32) -> Window {
    let mut window = Window::default();
    numbers.iter().for_each(|&number| window.padded(number, 2));
    window.push(bits, count);
    window
}

#[test]
fn turned_away_or_not_read() {
    let mut over = Window::default();
    over.padded(4097, 3);
    over.push(0x1ff, 9);
    walks(&over, 1, [0, 0, 1, 0, 0, 0, 0]);
    walks(&padded_then(&[1, 2], 0x1ff, 9), 2, [0, 0, 0, 1, 0, 0, 0]); // an index that isn't below the count
    walks(&padded_then(&[1, 1, 2, 10], 0x1ff, 9), 4, [1, 0, 0, 1, 0, 0, 0]); // a width past the window
    for bad in [0x01_0101_0101, 0x20_0101_0101] {
        walks(&padded_then(&[], bad, 40), 0, [0, 0, 0, 1, 0, 0, 0]);
        walks(&padded_then(&[1], bad, 40), 1, [0, 0, 0, 1, 0, 0, 0]);
        walks(&padded_then(&[1, 1], bad, 40), 2, [1, 0, 0, 1, 0, 0, 0]);
        walks(&padded_then(&[1, 1, 2], bad, 40), 3, [1, 0, 0, 1, 0, 0, 0]);
    }
    walks(&padded_then(&[1], 0x01, 15), 1, [0, 0, 0, 1, 0, 0, 0]); // a bit too few
    walks(&padded_then(&[1, 0], 0x01, 16), 2, [0, 0, 0, 0, 0, 16, 0]); // what stands behind the array
    let (nothing, no_objects) = (
        try_decode_struct_array(&[], 0, None, &[]).unwrap(),
        try_decode_object_ref_array(&[], 0).unwrap(),
    );
    assert_eq!((nothing.padded, no_objects.padded), (0, 0));
    let past = array([2; 6]);
    assert_eq!(
        try_decode_struct_array(&past.bytes, past.bits + 1, None, &[]).unwrap().padded,
        0,
        "past its bytes"
    );
}

#[test]
fn behind_the_last_field_and_element() {
    let mut fields = Window::default();
    fields.packed(1);
    fields.packed(1);
    for _ in 0..MAX_FIELDS_PER_ELEMENT {
        fields.field(1, &Window::default());
    }
    let mut elements = Window::default();
    elements.packed(MAX_ELEMENTS);
    for _ in 0..MAX_ELEMENTS {
        elements.packed(1);
        elements.packed(0);
    }
    for (front, seen, end) in [(&fields, 1, 1), (&elements, u64::from(MAX_ELEMENTS), 0)] {
        let behind = |value, size| {
            let mut window = front.clone();
            window.padded(value, size);
            window
        };
        walks(&behind(0, 1), 0, [seen, 0, 0, 0, 0, 0, end]);
        walks(&behind(0, 2), 1, [seen, 0, 0, 0, 0, 0, end]);
        walks(&behind(0, 5), 1, [seen, 0, 0, 0, 0, 0, end]);
        walks(&behind(1, 2), 0, [seen, 0, 1, 0, 0, 0, 0]); // put back
    }
}

/// Level 0 has an array of its own kind at handle 0.
static CYCLE: ArrayFieldSchema = ArrayFieldSchema {
    sub_arrays: &[(0, &CYCLE)],
    field_names: &[],
};

#[test]
fn every_level() {
    let mut window = array([2; 6]);
    for levels in 1..=13 {
        let walk = try_decode_struct_array(&window.bytes, window.bits, Some(&CYCLE), &[]).unwrap();
        assert_eq!((walk.padded, walk.stats.truncations), (6 * levels.min(12), u64::from(levels > 12)));
        let mut outer = padded_then(&[1, 1], 0, 0);
        outer.padded_field(0, &window, 3);
        outer.padded(0, 2);
        outer.padded(0, 2);
        window = outer;
    }
}

#[test]
fn objects() {
    let objects = |payload: &Window| {
        let window = Window::array(&[vec![(3, payload.clone()), (4, padded_then(&[7], 0, 0))]]);
        let walk = try_decode_object_ref_array(&window.bytes, window.bits).unwrap();
        (walk.values, walk.padded, walk.stats.errors)
    };
    assert_eq!(objects(&padded_then(&[300], 0, 0)), (vec![(0, 300)], 0, 0)); // it needs two bytes
    assert_eq!(objects(&padded_then(&[7], 0, 0)), (vec![(0, 7)], 1, 0));
    assert_eq!(objects(&padded_then(&[7], 0, 1)), (vec![], 1, 1)); // it doesn't fill its payload
    assert_eq!(objects(&Window::of(0x01, 15)), (vec![], 0, 1)); // it can't be read
}

#[test]
fn fast_arrays() {
    for (mode, flag) in [(ChecksumMode::Absent, 0), (ChecksumMode::Present, 1)] {
        let body = |size| {
            let mut window = Window::of(1, 1);
            [1, 0, 0, 2].iter().for_each(|&number| window.push(number, 32));
            for _ in 0..2 {
                window.push(9, 32);
                window.push(1, flag);
                window.padded_field(5, &Window::of(0x0001, 16), size);
                window.padded(0, size);
            }
            window
        };
        for size in 1..=5 {
            let window = body(size);
            let read = try_decode_fast_array_delta(&window.bytes, window.bits, mode).unwrap();
            assert_eq!(read.padded, if size > 1 { 6 } else { 0 });
            assert_eq!(decode_fast_array_delta(&window.bytes, window.bits, mode), Some(read.delta));
        }
    }
}

#[test]
fn movements() {
    let (rotation, location) = (RotatorQuantization::ByteComponents, VectorQuantization::RoundWholeNumber);
    for frame in 0..=5 {
        for handle in 0..=5 {
            let mut window = Window::of(u64::from(frame > 0) << 2 | u64::from(handle > 0) << 3, 4);
            for width in [3, 0] {
                window.push(8, 7);
                window.push(0x01_0101, 24); // in front of the numbers: what could be taken for the start of a longer form
                window.push(0, width);
            }
            if frame > 0 {
                window.padded(0, frame);
            }
            if handle > 0 {
                window.padded(5, handle);
            }
            let read = try_read_rep_movement(&window.bytes, window.bits, rotation, location).unwrap();
            assert_eq!(
                (read.padded, read.used),
                (u32::from(frame > 1) + u32::from(handle > 1), u64::from(window.bits))
            );
            let sent = (read.record.server_frame, read.record.server_physics_handle);
            assert_eq!(sent, ((frame > 0).then_some(0), (handle > 0).then_some(5)));
            assert_eq!(read_rep_movement(&window.bytes, window.bits, rotation, location), Ok(read.record));
        }
    }
}
