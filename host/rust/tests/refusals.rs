//! What the original cannot say: refusals leave no leaves and counters that are not clean, and the `try_` forms tell the number.

mod common;

use common::{stats, A};
use vrf_proved::fastarray::{decode_fast_array_delta, try_decode_fast_array_delta, ChecksumMode};
use vrf_proved::*;

const TOO_LONG: u32 = 524_289;

/// Runs a struct walk in both forms and gives the refusal's number. A refused walk counts one error more, and nothing else.
fn refusal(bits: u32, schema: Option<&ArrayFieldSchema>, declared: &[Option<&str>]) -> Option<u32> {
    let mut counted = stats([1, 2, 0, 5, 0, 0, 0]);
    let fields = decode_struct_array(&A, bits, schema, declared, &mut counted);
    match try_decode_struct_array(&A, bits, schema, declared) {
        Ok(walk) => {
            assert!(walk.values.iter().map(|leaf| &leaf.field).eq(&fields));
            None
        }
        Err(refusal) => {
            assert_eq!((fields.len(), counted), (0, stats([1, 2, 0, 6, 0, 0, 0])));
            Some(refusal.number)
        }
    }
}

fn leak<T>(value: T) -> &'static T {
    Box::leak(Box::new(value))
}

/// Levels in a row, each the only array of the one before it.
fn chain(levels: u32) -> &'static ArrayFieldSchema {
    let mut schema = leak(ArrayFieldSchema {
        sub_arrays: &[],
        field_names: &[],
    });
    for _ in 1..levels {
        let sub_arrays: &[_] = leak([(0, schema)]);
        schema = leak(ArrayFieldSchema {
            sub_arrays,
            field_names: &[],
        });
    }
    schema
}

/// One level with so many names.
fn names(count: u32, name: &'static str) -> ArrayFieldSchema {
    ArrayFieldSchema {
        sub_arrays: &[],
        field_names: Vec::leak((0..count).map(|handle| (handle, name)).collect()),
    }
}

#[test]
fn windows_that_are_too_long() {
    assert_eq!(refusal(TOO_LONG, None, &[]), Some(1));
    assert_eq!(
        refusal(TOO_LONG - 1, None, &[]),
        None,
        "past its bytes, which is an error of the walk"
    );

    let mut counted = ArrayDecodeStats::default();
    assert!(decode_struct_array_exact(&A, TOO_LONG, &[], &mut counted).is_empty());
    assert!(decode_object_ref_array_with_stats(&A, TOO_LONG, &mut counted).is_empty());
    assert_eq!(counted, stats([0, 0, 0, 2, 0, 0, 0]));
    assert_eq!(try_decode_struct_array_exact(&A, TOO_LONG, &[]).unwrap_err().number, 1);
    assert_eq!(try_decode_object_ref_array(&A, TOO_LONG).unwrap_err().number, 1);
}

#[test]
fn too_long_comes_before_broken_tables() {
    assert_eq!(refusal(TOO_LONG, None, &[None; 1025]), Some(1));
}

#[test]
fn declared_names_on_their_edges() {
    let (longest, too_long) = ("n".repeat(64), "n".repeat(65));
    assert_eq!(refusal(56, None, &[None; 1024]), None);
    assert_eq!(refusal(56, None, &[None; 1025]), Some(2));
    assert_eq!(refusal(56, None, &[Some(longest.as_str()); 1024]), None);
    assert_eq!(refusal(56, None, &[Some(longest.as_str()); 1025]), Some(2));
    assert_eq!(refusal(56, None, &[None, Some(&too_long)]), Some(2));
    assert_eq!(refusal(56, None, &[Some(&"é".repeat(33))]), Some(2), "66 bytes");
    assert_eq!(refusal(0, None, &[Some(&too_long)]), Some(2), "an empty window too");

    let walk = try_decode_struct_array(&A, 56, None, &[None, Some(&longest)]).unwrap();
    assert_eq!(walk.values[0].field.path, format!("[0].{longest}"));
    let mut counted = ArrayDecodeStats::default();
    assert!(decode_struct_array_exact(&A, 56, &[Some(&too_long)], &mut counted).is_empty());
    assert_eq!(counted, stats([0, 0, 0, 1, 0, 0, 0]));
}

#[test]
fn schemas_on_their_edges() {
    let longest: &'static str = leak("n".repeat(64));
    let too_long: &'static str = leak("n".repeat(65));
    assert_eq!(refusal(56, Some(chain(64)), &[]), None);
    assert_eq!(refusal(56, Some(chain(65)), &[]), Some(2));
    assert_eq!(refusal(56, Some(chain(10_000)), &[]), Some(2));
    assert_eq!(refusal(56, Some(&names(512, longest)), &[]), None);
    assert_eq!(refusal(56, Some(&names(513, "")), &[]), Some(2));
    assert_eq!(refusal(56, Some(&names(100_000, longest)), &[]), Some(2));
    assert_eq!(refusal(56, Some(&names(1, too_long)), &[]), Some(2));
}

#[test]
fn a_sum_that_is_too_large_stays_not_clean() {
    // a clean walk onto a counter that is full
    let mut counted = stats([u64::MAX, 3, 0, 0, 0, 0, 0]);
    assert_eq!(decode_struct_array(&A, 56, None, &[], &mut counted).len(), 1);
    assert_eq!(counted, stats([u64::MAX, 4, 0, u64::MAX, 0, 0, 0]));
    assert!(!counted.is_clean());

    // errors that are full: the original's release build would wrap to none
    let mut counted = stats([0, 0, 0, u64::MAX, 0, 0, 0]);
    counted.merge_from(&stats([1, 0, 0, 1, 0, 0, 0]));
    assert_eq!(counted, stats([1, 0, 0, u64::MAX, 0, 0, 0]));
    let _ = decode_struct_array(&A, TOO_LONG, None, &[], &mut counted);
    assert_eq!(counted.errors, u64::MAX);

    // each counter saturates for itself
    for counter in 0..7 {
        let (mut full, mut one, mut sum) = ([7; 7], [1; 7], [8; 7]);
        (full[counter], one[counter], sum[counter]) = (u64::MAX, 2, u64::MAX);
        sum[3] = u64::MAX;
        let mut counted = stats(full);
        assert_eq!(counted.try_merge_from(&stats(one)).unwrap_err().number, 4);
        assert_eq!(counted, stats(full), "a refused merge changes nothing");
        counted.merge_from(&stats(one));
        assert_eq!(counted, stats(sum));
    }
}

/// Every order of the sets, by exchanges.
fn orders(sets: &mut Vec<[u64; 7]>, from: usize, each: &mut impl FnMut(&[[u64; 7]])) {
    if from == sets.len() {
        return each(sets);
    }
    for i in from..sets.len() {
        sets.swap(from, i);
        orders(sets, from + 1, each);
        sets.swap(from, i);
    }
}

#[test]
fn totals_do_not_depend_on_the_order() {
    let largest = u64::MAX;
    let (a, b) = ([largest - 3, 0, 0, 0, 0, 0, 0], [1, 9, 0, 0, 0, 0, 0]);
    for (last, fits) in [([2, 0, 0, 0, 0, 7, 0], true), ([3, 0, 0, 0, 0, 7, 0], false)] {
        orders(&mut vec![a, b, last], 0, &mut |sets| {
            let (mut tried, mut added) = (ArrayDecodeStats::default(), ArrayDecodeStats::default());
            let said = sets.iter().try_for_each(|set| tried.try_merge_from(&stats(*set)));
            assert_eq!(
                said.map_err(|refusal| refusal.number),
                if fits { Ok(()) } else { Err(4) },
                "{sets:?}"
            );
            if fits {
                assert_eq!(tried, stats([largest, 9, 0, 0, 0, 7, 0]), "{sets:?}");
            }
            // the original's name can't refuse: the errors say so, in every order alike
            for set in sets {
                added.merge_from(&stats(*set));
            }
            assert_eq!(added, stats([largest, 9, 0, if fits { 0 } else { largest }, 0, 7, 0]), "{sets:?}");
        });
    }
}

#[test]
fn fast_arrays() {
    let zeros = vec![0; 65_537];
    assert_eq!(decode_fast_array_delta(&zeros, TOO_LONG, ChecksumMode::Absent), None);
    assert_eq!(
        try_decode_fast_array_delta(&zeros, TOO_LONG, ChecksumMode::Absent)
            .unwrap_err()
            .number,
        1
    );
    assert_eq!(decode_fast_array_delta(&zeros[..17], 129, ChecksumMode::Absent), None);
    assert_eq!(
        try_decode_fast_array_delta(&zeros[..17], 129, ChecksumMode::Absent)
            .unwrap_err()
            .number,
        6
    );
}

#[test]
fn movements() {
    let read = |bytes: &[u8], bits| {
        read_rep_movement(
            bytes,
            bits,
            RotatorQuantization::ShortComponents,
            VectorQuantization::RoundTwoDecimals,
        )
        .unwrap_err()
    };
    let long = read(&[0; 65_537], TOO_LONG);
    assert!(matches!(&long, DecodeError::Refused(refusal) if refusal.number == 1));
    assert_eq!(long.to_string(), "refusal 1: a bit count over 524,288");

    let past = BitError::InvalidBitLength {
        requested: 27,
        available: 16,
    };
    assert_eq!(read(&[0; 2], 27), DecodeError::BitIo(past));

    // width 0 and a clear top bit: three raw floats, here all ones, which are NaNs
    let mut nan = common::Window::of(0, 4);
    nan.push(0, 7);
    (0..3).for_each(|_| nan.push(u64::from(u32::MAX), 32));
    assert_eq!(
        read(&nan.bytes, nan.bits),
        DecodeError::NonFiniteComponent {
            context: "quantized vector"
        }
    );

    // a frame that is sent, as a packed number that goes on for too long, or ends too high
    let mut frame = common::Window::of(0b0100, 4);
    frame.push(0b000_0001, 7);
    frame.push(0, 3);
    frame.push(0, 3);
    frame.push(0b000_0001, 7);
    frame.push(0, 3);
    let position = u64::from(frame.bits);
    frame.push(u64::MAX, 40);
    assert_eq!(
        read(&frame.bytes, frame.bits),
        DecodeError::BitIo(BitError::MalformedIntPacked { position })
    );
    let mut high = frame.clone();
    let top = position as usize + 32;
    high.bytes[top / 8] &= !(1 << (top % 8));
    assert_eq!(
        read(&high.bytes, high.bits),
        DecodeError::BitIo(BitError::IntPackedOverflow { position })
    );
    assert_eq!(read(&high.bytes, high.bits).refusal().number, 9);
}
