//! The buffers behind the calls: they grow, keep nothing of the call before, and belong to a thread.

mod common;

use common::{stats, Random, Window, A};
use std::thread;
use vrf_proved::fastarray::{decode_fast_array_delta, ChecksumMode};
use vrf_proved::*;

/// So many elements, each with one field whose payload is the element's index, as a packed number.
fn counting(elements: u32) -> Window {
    let numbers = (0..elements).map(|index| {
        let mut payload = Window::default();
        payload.packed(index);
        vec![(index % 300, payload)]
    });
    Window::array(&numbers.collect::<Vec<_>>())
}

fn check_counting(elements: u32) {
    let window = counting(elements);
    let walk = try_decode_struct_array(&window.bytes, window.bits, None, &[]).unwrap();
    assert_eq!(walk.stats, stats([u64::from(elements), u64::from(elements), 0, 0, 0, 0, 0]));
    for (index, leaf) in (0..).zip(&walk.values) {
        let mut payload = Window::default();
        payload.packed(index);
        let expected = FlattenedField {
            path: format!("[{index}]._h{}", index % 300),
            handle: index % 300,
            bit_count: payload.bits,
            raw_bits: payload.bytes,
        };
        assert_eq!(leaf.field, expected);
    }
    let objects = try_decode_object_ref_array(&window.bytes, window.bits).unwrap();
    assert_eq!(objects.values, (0..elements).map(|index| (index, index)).collect::<Vec<_>>());
}

#[test]
fn large_windows_after_small_ones_and_small_ones_after_large_ones() {
    for elements in [1, 0, 3, 200, 2, 4096, 1, 300, 0] {
        check_counting(elements);
    }
}

#[test]
fn the_longest_window() {
    // one element whose only field takes nearly all of 524,288 bits
    let mut window = Window::default();
    window.packed(1);
    window.packed(1);
    window.packed(1);
    window.packed(524_288 - 64);
    assert_eq!(window.bits, 48);
    window.bytes.resize(65_536, 0);
    window.bytes[6..65_534].fill(0xa5);
    let walk = try_decode_struct_array(&window.bytes, 524_288, None, &[]).unwrap();
    assert_eq!(walk.stats, stats([1, 1, 0, 0, 0, 0, 0]));
    assert_eq!(walk.values[0].field.raw_bits, vec![0xa5; 65_528]);
}

/// A fast-array body with so many deleted ids and changed items; the item `n` has `n % 4` fields.
fn body(deletes: u32, items: u32, flags: bool) -> Window {
    let mut window = Window::of(1, 1);
    for number in [7, u32::MAX, deletes, items] {
        window.push(u64::from(number), 32);
    }
    for id in 0..deletes {
        window.push(u64::from(id | 1 << 31), 32);
    }
    for id in 0..items {
        window.push(u64::from(id), 32);
        window.push(1, u32::from(flags));
        for handle in 0..id % 4 {
            window.field(handle, &Window::of(u64::MAX, id % 40));
        }
        window.packed(0);
    }
    window
}

#[test]
fn fast_arrays_grow_too() {
    for (deletes, items) in [(1, 2), (0, 0), (2000, 3), (3, 2500), (0, 5)] {
        for mode in [ChecksumMode::Absent, ChecksumMode::Present] {
            let window = body(deletes, items, mode == ChecksumMode::Present);
            let delta = decode_fast_array_delta(&window.bytes, window.bits, mode).unwrap();
            let header = &delta.header;
            assert_eq!((header.array_replication_key, header.base_replication_key), (7, -1));
            assert_eq!((header.num_deletes, header.num_changed), (deletes, items));
            assert_eq!((delta.supports_delta_struct, delta.consumed_bits), (true, window.bits));
            let deleted: Vec<_> = (0..deletes as i32).map(|id| id + i32::MIN).collect();
            assert_eq!(delta.deleted_replication_ids, deleted);
            assert_eq!(delta.changed_items.len(), items as usize);
            for (id, item) in (0..).zip(&delta.changed_items) {
                assert_eq!((item.replication_id, item.fields.len()), (id, id as usize % 4));
                for (handle, field) in (0..).zip(&item.fields) {
                    assert_eq!((field.handle, field.payload_bit_count), (handle, id as u32 % 40));
                    let first = field.payload_bit_offset as usize;
                    let ones = (first..first + field.payload_bit_count as usize).all(|bit| window.bytes[bit / 8] >> (bit % 8) & 1 == 1);
                    assert!(ones, "the payload stands where the field says");
                }
            }
        }
    }
}

#[test]
fn threads_do_not_meet() {
    let windows: Vec<_> = (0..8)
        .map(|seed| {
            let mut random = Random(seed);
            (0..300).map(|_| random.array(&COMBAT_ROUNDS_SCHEMA, 5)).collect::<Vec<_>>()
        })
        .collect();
    let walk = |window: &Window| try_decode_struct_array(&window.bytes, window.bits, Some(&COMBAT_ROUNDS_SCHEMA), &[]).unwrap();
    let alone: Vec<Vec<_>> = windows.iter().map(|set| set.iter().map(walk).collect()).collect();
    thread::scope(|scope| {
        for (set, expected) in windows.iter().zip(&alone) {
            scope.spawn(move || {
                for _ in 0..20 {
                    for (window, expected) in set.iter().zip(expected) {
                        assert_eq!(walk(window), *expected);
                    }
                }
            });
        }
    });
}

/// Decodes when its thread ends.
struct Last(std::sync::mpsc::Sender<usize>);

impl Drop for Last {
    fn drop(&mut self) {
        let leaves = decode_struct_array(&A, 56, None, &[], &mut ArrayDecodeStats::default());
        self.0.send(leaves.len()).unwrap();
    }
}

thread_local! {
    static LAST: std::cell::RefCell<Option<Last>> = const { std::cell::RefCell::new(None) };
}

#[test]
fn a_thread_that_is_ending_can_still_call() {
    let (sender, receiver) = std::sync::mpsc::channel();
    let call = move || {
        LAST.with(|last| *last.borrow_mut() = Some(Last(sender)));
        check_counting(2);
    };
    thread::spawn(call).join().unwrap();
    assert_eq!(receiver.recv(), Ok(1));
}
