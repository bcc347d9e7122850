//! Where in the walked window each leaf's payload starts: in arrays inside one another, without payload, in kept tails. The numbers are
//! added up from the windows' parts.

mod common;

use common::{stats, Random, Window, A};
use vrf_proved::lent::{self, Cursor};
use vrf_proved::*;

/// Level 0 has an array of its own kind at handle 0.
static CYCLE: ArrayFieldSchema = ArrayFieldSchema {
    sub_arrays: &[(0, &CYCLE)],
    field_names: &[],
};

/// Handle, bits and start of every leaf.
fn starts(walk: &Decoded<PlacedField>) -> Vec<(u32, u32, u32)> {
    let leaf = |leaf: &PlacedField| (leaf.field.handle, leaf.field.bit_count, leaf.window_start);
    walk.values.iter().map(leaf).collect()
}

/// At each leaf's start stand the bits that are its payload.
#[track_caller]
fn stand_there(window: &Window, walk: &Decoded<PlacedField>) {
    for leaf in &walk.values {
        let cursor = Cursor {
            start: 0,
            pos: u64::from(leaf.window_start),
            len: u64::from(window.bits),
        };
        let mut there = vec![0; leaf.field.raw_bits.len()];
        let copied = lent::copy_bits(&window.bytes, cursor, u64::from(leaf.field.bit_count), &mut there);
        assert_eq!((copied.result, there), (Ok(()), leaf.field.raw_bits.clone()), "{leaf:?}");
    }
}

fn structs(window: &Window) -> Vec<(u32, u32, u32)> {
    let walk = try_decode_struct_array(&window.bytes, window.bits, Some(&CYCLE), &[]).unwrap();
    stand_there(window, &walk);
    starts(&walk)
}

fn exact(window: &Window) -> Vec<(u32, u32, u32)> {
    let walk = try_decode_struct_array_exact(&window.bytes, window.bits, &[]).unwrap();
    stand_there(window, &walk);
    starts(&walk)
}

#[test]
fn arrays_between_bytes() {
    let grandchild = Window::array(&[vec![(5, Window::of(1, 1))]]);
    let child = Window::array(&[vec![], vec![(3, Window::default()), (4, Window::of(0x15, 5)), (0, grandchild)]]);
    let window = Window::array(&[vec![
        (1, Window::of(5, 3)),
        (2, Window::default()),
        (0, child),
        (6, Window::of(3, 2)),
        (0, Window::default()),
        (7, Window::of(1, 1)),
    ]]);
    // the child starts at 51 + 24, where its width takes two bytes, and has 150 bits; the grandchild starts 85 bits into it
    let in_arrays = [
        (1, 3, 32),
        (2, 0, 51),
        (3, 0, 75 + 48),
        (4, 5, 75 + 64),
        (5, 1, 75 + 85 + 32),
        (6, 2, 225 + 16),
        (7, 1, 259 + 16),
    ];
    assert_eq!(structs(&window), in_arrays);
    assert_eq!(
        exact(&window),
        [(1, 3, 32), (2, 0, 51), (0, 150, 75), (6, 2, 241), (0, 0, 259), (7, 1, 275)]
    );
}

/// A window as an array in one element, behind a field of three bits; it starts at 43 and the bits of its width.
fn in_an_array(child: &Window) -> Window {
    Window::array(&[vec![(1, Window::of(5, 3)), (0, child.clone())]])
}

#[test]
fn a_tail_behind_a_count() {
    let mut tail = Window::default();
    tail.padded(4097, 3);
    tail.push(0x15, 5);
    assert_eq!(structs(&tail), [(u32::MAX, 5, 24)]);
    assert_eq!(exact(&tail), [(u32::MAX, 5, 24)]);
    assert_eq!(structs(&in_an_array(&tail)), [(1, 3, 32), (u32::MAX, 5, 51 + 24)]);
}

/// A number behind the last field or element is put back, and the tail begins with it.
#[test]
fn a_tail_behind_fields_or_elements() {
    let mut fields = Window::default();
    fields.packed(1);
    fields.packed(1);
    for _ in 0..MAX_FIELDS_PER_ELEMENT {
        fields.field(9, &Window::default());
    }
    let mut elements = Window::default();
    elements.packed(MAX_ELEMENTS);
    for _ in 0..MAX_ELEMENTS {
        elements.packed(1);
        elements.packed(0);
    }
    for (front, behind, width) in [(&fields, 2064, 16), (&elements, 65_552, 24)] {
        for size in [1, 2, 5] {
            let mut tail = front.clone();
            tail.padded(1, size);
            tail.push(5, 3);
            let last = (u32::MAX, 8 * size + 3, behind);
            assert_eq!(structs(&tail).last(), Some(&last));
            assert_eq!(exact(&tail).last(), Some(&last));
            let in_a_child = (u32::MAX, 8 * size + 3, 43 + width + behind);
            assert_eq!(structs(&in_an_array(&tail)).last(), Some(&in_a_child));
        }
    }
}

/// Twelve arrays inside one another are walked; the thirteenth is a leaf, and starts at its own count.
#[test]
fn the_deepest_arrays() {
    let mut window = Window::array(&[vec![(1, Window::of(0xab, 8))]]);
    let mut in_front = 0;
    for arrays in 1..=12 {
        let (handle, bits, start) = structs(&window)[0];
        assert_eq!((handle, bits, start), (1, 8, in_front + 32), "{arrays} arrays");
        in_front += if window.bits > 127 { 40 } else { 32 };
        window = Window::array(&[vec![(0, window)]]);
    }
    assert_eq!(structs(&window), [(0, 56, in_front)]);
}

#[test]
fn the_longest_window() {
    let mut window = Window::default();
    window.packed(1);
    window.packed(1);
    window.packed(2);
    window.packed(524_288 - 64);
    window.bytes.resize(65_536, 0xcd);
    window.bytes[65_534..].copy_from_slice(&[0x06, 0x00]);
    window.bits = 524_288;
    let last = [(1, 524_224, 48), (2, 0, 524_288)];
    assert_eq!((structs(&window), exact(&window)), (last.to_vec(), last.to_vec()));
}

/// Random windows, whole and damaged: leaves sit one behind the other, and their payloads stand there.
#[test]
fn payloads_stand_at_their_starts() {
    let mut random = Random(2);
    let mut leaves = 0;
    for _ in 0..400 {
        let window = random.array(&COMBAT_ROUNDS_SCHEMA, 6);
        let window = random.damaged(window);
        let walk = try_decode_struct_array(&window.bytes, window.bits, Some(&COMBAT_ROUNDS_SCHEMA), &[]).unwrap();
        stand_there(&window, &walk);
        let mut end = 0;
        for (_, bits, start) in starts(&walk) {
            assert!(end < start, "{window:?}");
            end = start + bits;
        }
        leaves += walk.values.len();
    }
    assert!(leaves > 400, "{leaves}");
}

/// The original's type and counters are what they were.
#[test]
fn the_originals_calls_tell_no_start() {
    let mut counted = ArrayDecodeStats::default();
    let FlattenedField {
        path,
        handle,
        bit_count,
        raw_bits,
    } = decode_struct_array(&A, 56, None, &[], &mut counted).remove(0);
    assert_eq!((path.as_str(), handle, bit_count, raw_bits), ("[0]._h1", 1, 8, vec![0xab]));
    assert_eq!(counted, stats([1, 1, 0, 0, 0, 0, 0]));
}
