//! The fourteen cases of the rules, through the calls under the original's names.

mod common;

use common::{stats, A};
use vrf_proved::*;

/// A window, its bits, and what the walk gives: path, handle, bits and payload of its only leaf, if it has one; the counters.
type Case<'a> = (Vec<u8>, u32, Option<(&'a str, u32, u32, u8)>, [u64; 7]);

const LEAF: Option<(&str, u32, u32, u8)> = Some(("[0]._h1", 1, 8, 0xab));

fn a_and(byte: u8) -> Vec<u8> {
    [&A[..], &[byte]].concat()
}

fn leaf_of(fields: &[FlattenedField]) -> Option<(&str, u32, u32, u8)> {
    assert!(fields.len() < 2);
    fields.first().map(|f| {
        assert_eq!(f.raw_bits.len(), 1);
        (f.path.as_str(), f.handle, f.bit_count, f.raw_bits[0])
    })
}

fn check(cases: &[Case<'_>], walk: impl Fn(&[u8], u32, &mut ArrayDecodeStats) -> Vec<FlattenedField>) {
    for (bytes, bits, leaf, counters) in cases {
        let mut counted = ArrayDecodeStats::default();
        let fields = walk(bytes, *bits, &mut counted);
        assert_eq!((leaf_of(&fields), counted), (*leaf, stats(*counters)), "{bytes:02x?}, {bits} bits");
    }
}

#[test]
fn struct_walks() {
    let cases = [
        (A.to_vec(), 56, LEAF, [1, 1, 0, 0, 0, 0, 0]),
        (A.to_vec(), 48, LEAF, [1, 1, 0, 0, 0, 0, 1]),
        (A.to_vec(), 40, LEAF, [1, 1, 0, 0, 0, 0, 1]),
        (A.to_vec(), 36, None, [1, 0, 0, 1, 0, 0, 0]),
        (a_and(0x00), 64, LEAF, [1, 1, 0, 0, 0, 0, 0]),
        (a_and(0x02), 64, LEAF, [1, 1, 0, 0, 0, 8, 0]),
        (a_and(0x01), 64, LEAF, [1, 1, 0, 1, 0, 0, 0]),
        (
            vec![0x03, 0x40, 0xab],
            24,
            Some(("._raw", u32::MAX, 8, 0xab)),
            [0, 1, 1, 0, 0, 0, 0],
        ),
        (vec![0x01, 0x40, 0x00], 24, None, [0; 7]),
        (vec![], 0, None, [0; 7]),
    ];
    check(&cases, |bytes, bits, stats| decode_struct_array(bytes, bits, None, &[], stats));
}

#[test]
fn an_exact_walk() {
    let cases = [(a_and(0x00), 64, LEAF, [1, 1, 0, 0, 0, 8, 0])];
    check(&cases, |bytes, bits, stats| decode_struct_array_exact(bytes, bits, &[], stats));
}

#[test]
fn a_walk_with_a_schema() {
    let window = [&[0x02, 0x02, 0x0a, 0x70], &A[..], &[0x00, 0x00]].concat();
    let leaf = Some(("[0].Reports[0]._h1", 1, 8, 0xab));
    check(&[(window, 104, leaf, [2, 1, 0, 0, 0, 0, 0])], |bytes, bits, stats| {
        decode_struct_array(bytes, bits, Some(&COMBAT_ROUNDS_SCHEMA), &[], stats)
    });
}

#[test]
fn object_walks() {
    let window = [0x02, 0x02, 0x04, 0x10, 0x0e, 0x00, 0x00];
    let mut counted = ArrayDecodeStats::default();
    assert_eq!(decode_object_ref_array_with_stats(&window, 56, &mut counted), [(0, 7)]);
    assert_eq!(counted, stats([1, 1, 0, 0, 0, 0, 0]));
    assert_eq!(decode_object_ref_array(&window, 56), [(0, 7)]);

    let mut counted = ArrayDecodeStats::default();
    assert_eq!(decode_object_ref_array_with_stats(&[], 0, &mut counted), []);
    assert_eq!(counted, stats([0, 0, 0, 1, 0, 0, 0]));
}

#[test]
fn a_movement() {
    let read = |bits| {
        read_rep_movement(
            &[0x10, 0x08, 0x02, 0x00],
            bits,
            RotatorQuantization::ByteComponents,
            VectorQuantization::RoundWholeNumber,
        )
    };
    let still = FVector { x: 0.0, y: 0.0, z: 0.0 };
    let expected = FRepMovement {
        location: FVector { x: -1.0, ..still },
        rotation: FRotator {
            pitch: 0.0,
            yaw: 0.0,
            roll: 0.0,
        },
        linear_velocity: still,
        angular_velocity: None,
        simulated_physics_sleep: false,
        rep_physics: false,
        server_frame: None,
        server_physics_handle: None,
    };
    assert_eq!(read(27), Ok(expected));
    let cut = BitError::Eof {
        position: 24,
        length: 26,
        requested: 3,
    };
    assert_eq!(read(26), Err(DecodeError::BitIo(cut)));
}

#[test]
fn counters_are_added_to_those_handed_in() {
    let mut counted = stats([10, 20, 30, 40, 50, 60, 70]);
    let _ = decode_struct_array(&A, 48, None, &[], &mut counted);
    assert_eq!(counted, stats([11, 21, 30, 40, 50, 60, 71]));
}
