//! The movement reader under the original's name.

use crate::error::DecodeError;
use crate::lent::{self, Angles, LocationScale, Refusal, RotationWidth, Xyz};
use crate::types::{FRepMovement, FRotator, FVector, RotatorQuantization, VectorQuantization};

/// The movement record in the first `bit_count` bits of `data`. How rotation and location are sent stands nowhere in the bits: the caller
/// has to know. Bits may be left over.
///
/// ```
/// use vrf_proved::{read_rep_movement, BitError, DecodeError, RotatorQuantization, VectorQuantization};
///
/// let (width, unit) = (RotatorQuantization::ByteComponents, VectorQuantization::RoundWholeNumber);
/// let record = read_rep_movement(&[0x10, 0x08, 0x02, 0x00], 27, width, unit)?;
/// assert_eq!((record.location.to_string(), record.server_frame), ("(-1,0,0)".to_string(), None));
///
/// // cut by a bit
/// let cut = read_rep_movement(&[0x10, 0x08, 0x02, 0x00], 26, width, unit);
/// assert_eq!(cut, Err(DecodeError::BitIo(BitError::Eof { position: 24, length: 26, requested: 3 })));
/// # Ok::<(), DecodeError>(())
/// ```
pub fn read_rep_movement(
    data: &[u8],
    bit_count: u32,
    rotation: RotatorQuantization,
    location: VectorQuantization,
) -> Result<FRepMovement, DecodeError> {
    let read = try_read_rep_movement(data, bit_count, rotation, location)?;
    Ok(read.record)
}

/// What [`try_read_rep_movement`] gives of an accepted record.
#[derive(Debug, Clone, PartialEq)]
#[must_use]
pub struct MovementRead {
    /// The record.
    pub record: FRepMovement,
    /// The bits that it takes.
    pub used: u64,
    /// How many of its frame and handle are padded: 0, 1 or 2 ([`lent`] says what that is).
    pub padded: u32,
}

/// [`read_rep_movement`] with the bits that the record takes and its padded numbers, or the refusal: 1, 14, 7, 8, 9 or 12.
///
/// ```
/// use vrf_proved::{try_read_rep_movement, RotatorQuantization, VectorQuantization};
///
/// let (width, unit) = (RotatorQuantization::ByteComponents, VectorQuantization::RoundWholeNumber);
/// let read = try_read_rep_movement(&[0x10, 0x08, 0x02, 0x00], 32, width, unit)?;
/// assert_eq!((read.record.location.x, read.used, read.padded), (-1.0, 27, 0));
///
/// let past_its_bytes = try_read_rep_movement(&[0x10, 0x08], 27, width, unit).unwrap_err();
/// assert_eq!((past_its_bytes.number, past_its_bytes.values), (14, [27, 16, 0]));
/// # Ok::<(), vrf_proved::lent::Refusal>(())
/// ```
pub fn try_read_rep_movement(
    data: &[u8],
    bit_count: u32,
    rotation: RotatorQuantization,
    location: VectorQuantization,
) -> Result<MovementRead, Refusal> {
    let read = lent::movement(data, u64::from(bit_count), width_of(rotation), scale_of(location));
    let movement = read.result?;
    Ok(MovementRead {
        record: record_of(&movement),
        used: read.position,
        padded: movement.padded,
    })
}

fn width_of(rotation: RotatorQuantization) -> RotationWidth {
    match rotation {
        RotatorQuantization::ByteComponents => RotationWidth::Eight,
        RotatorQuantization::ShortComponents => RotationWidth::Sixteen,
    }
}

fn scale_of(location: VectorQuantization) -> LocationScale {
    match location {
        VectorQuantization::RoundWholeNumber => LocationScale::One,
        VectorQuantization::RoundOneDecimal => LocationScale::Ten,
        VectorQuantization::RoundTwoDecimals => LocationScale::Hundred,
    }
}

fn record_of(m: &lent::Movement) -> FRepMovement {
    FRepMovement {
        location: vector_of(m.location),
        rotation: rotator_of(m.rotation),
        linear_velocity: vector_of(m.linear),
        angular_velocity: m.angular.map(vector_of),
        simulated_physics_sleep: m.sleep,
        rep_physics: m.physics,
        server_frame: m.frame,
        server_physics_handle: m.handle,
    }
}

fn vector_of([x, y, z]: Xyz) -> FVector {
    FVector { x, y, z }
}

fn rotator_of([pitch, yaw, roll]: Angles) -> FRotator {
    FRotator { pitch, yaw, roll }
}
