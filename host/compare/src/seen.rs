//! What the Rust doesn't say of its reading: how many padded numbers it takes, and where each leaf's payload starts. Its files once more,
//! over a reader that counts the ones and notes the others. A number by itself is held to how it would be written.
use crate::bits::Bits;
use crate::fast::FastCase;
use crate::movement::MovementCase;
use crate::walk::WalkCase;
use crate::window::Window;
use counting_decode::array::{self, ArrayDecodeStats, ArrayFieldSchema};
use counting_decode::types::{RotatorQuantization, VectorQuantization};
use counting_decode::{BitReader, Seen, fastarray, movement, watched};
use decode::array::FlattenedField;
use oracle::answers::counters;
use oracle::tables::{Links, Names};
use vrf_proved::lent::{LocationScale, RotationWidth};

pub fn level(sub_arrays: Links<ArrayFieldSchema>, field_names: Names) -> ArrayFieldSchema {
    ArrayFieldSchema { sub_arrays, field_names }
}

/// How many bytes a number has to have.
pub fn needed(value: u32) -> u32 {
    let mut shortest = Bits::new();
    shortest.packed(value);
    shortest.len() as u32 / 8
}

/// Of a walk, which has to count as it does over the reader itself.
fn of_array(plain: &decode::array::ArrayDecodeStats, walk: impl FnOnce(&mut ArrayDecodeStats)) -> Seen {
    let mut stats = ArrayDecodeStats::default();
    let ((), seen) = watched(|| walk(&mut stats));
    let same = counters(plain)
        == [
            stats.elements_decoded,
            stats.fields_emitted,
            stats.truncations,
            stats.errors,
            stats.unconsumed_nested_bits,
            stats.unconsumed_root_bits,
            stats.implicit_terminations,
        ];
    assert!(same, "the counting reader reads otherwise");
    seen
}

/// Of a walk that gives these leaves: each is one copy, and its payload stands where that starts.
pub fn of_walk(case: &WalkCase, fields: &[FlattenedField], plain: &decode::array::ArrayDecodeStats) -> Seen {
    let (bytes, bits, names) = (&case.window.bytes, case.window.bits, case.declared.names());
    let seen = of_array(plain, |stats| {
        if case.exact {
            array::decode_struct_array_exact(bytes, bits, &names, stats);
        } else {
            array::decode_struct_array(bytes, bits, case.schema.counting, &names, stats);
        }
    });
    assert_eq!(seen.starts.len(), fields.len(), "a leaf is not one copy");
    let mut noted = seen.starts.iter().zip(fields);
    let stand = noted.all(|(start, field)| stands(&case.window, *start, field));
    assert!(stand, "a payload stands elsewhere than was noted");
    seen
}

fn stands(window: &Window, start: u64, field: &FlattenedField) -> bool {
    let mut there = vec![0; field.raw_bits.len()];
    let copied = vrf_bitio::BitReader::with_bit_len(&window.bytes, window.bits.into()).and_then(|mut reader| {
        reader.skip_bits(start)?;
        reader.copy_bits_to(&mut there, field.bit_count.into())
    });
    copied.is_ok() && there == field.raw_bits
}

pub fn of_objects(window: &Window, plain: &decode::array::ArrayDecodeStats) -> u32 {
    let seen = of_array(plain, |stats| {
        array::decode_object_ref_array_with_stats(&window.bytes, window.bits, stats);
    });
    seen.padded
}

/// Of a body that the Rust accepts.
pub fn of_fast(case: &FastCase) -> u32 {
    let mode = if case.flags {
        fastarray::ChecksumMode::Present
    } else {
        fastarray::ChecksumMode::Absent
    };
    let (body, seen) = watched(|| fastarray::decode_fast_array_delta(&case.window.bytes, case.window.bits, mode));
    assert!(body.is_some(), "the counting reader reads otherwise");
    seen.padded
}

/// Of a record that the Rust accepts.
pub fn of_movement(case: &MovementCase) -> u32 {
    let rotation = match case.width {
        RotationWidth::Eight => RotatorQuantization::ByteComponents,
        RotationWidth::Sixteen => RotatorQuantization::ShortComponents,
    };
    let location = match case.scale {
        LocationScale::One => VectorQuantization::RoundWholeNumber,
        LocationScale::Ten => VectorQuantization::RoundOneDecimal,
        LocationScale::Hundred => VectorQuantization::RoundTwoDecimals,
    };
    let (record, seen) = watched(|| {
        let mut reader = BitReader::with_bit_len(&case.window.bytes, u64::from(case.window.bits)).ok()?;
        movement(&mut reader, rotation, location).ok()
    });
    assert!(record.is_some(), "the counting reader reads otherwise");
    seen.padded
}
