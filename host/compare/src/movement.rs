//! Movement records.
use crate::answer::{Difference, Outcome, of_bit_error, of_decode_error, told};
use crate::window::Window;
use crate::{port, seen};
use decode::decode::{self as rust, DecodeError};
use decode::types::{FRepMovement, FRotator, FVector, RotatorQuantization, VectorQuantization};
use vrf_bitio::BitReader;
use vrf_proved::lent::{Angles, LocationScale, Movement, Refusal, RotationWidth, Xyz};

#[derive(Clone)]
pub struct MovementCase {
    pub scale: LocationScale,
    pub width: RotationWidth,
    pub window: Window,
}

pub const SCALES: [LocationScale; 3] = [LocationScale::One, LocationScale::Ten, LocationScale::Hundred];
pub const WIDTHS: [RotationWidth; 2] = [RotationWidth::Eight, RotationWidth::Sixteen];

/// A record as bits, so that -0 and 0 differ.
#[derive(Debug, PartialEq)]
struct Flat {
    sleep: bool,
    physics: bool,
    location: [u64; 3],
    rotation: [u32; 3],
    linear: [u64; 3],
    angular: Option<[u64; 3]>,
    frame: Option<u32>,
    handle: Option<u32>,
    padded: u32,
}

fn xyz(v: &FVector) -> [u64; 3] {
    [v.x, v.y, v.z].map(f64::to_bits)
}

fn angles(r: &FRotator) -> [u32; 3] {
    [r.pitch, r.yaw, r.roll].map(f32::to_bits)
}

fn of_rust(m: &FRepMovement, padded: u32) -> Flat {
    Flat {
        sleep: m.simulated_physics_sleep,
        physics: m.rep_physics,
        location: xyz(&m.location),
        rotation: angles(&m.rotation),
        linear: xyz(&m.linear_velocity),
        angular: m.angular_velocity.as_ref().map(xyz),
        frame: m.server_frame,
        handle: m.server_physics_handle,
        padded,
    }
}

fn of_port(m: &Movement) -> Flat {
    let doubles = |v: Xyz| v.map(f64::to_bits);
    let floats = |v: Angles| v.map(f32::to_bits);
    Flat {
        sleep: m.sleep,
        physics: m.physics,
        location: doubles(m.location),
        rotation: floats(m.rotation),
        linear: doubles(m.linear),
        angular: m.angular.map(doubles),
        frame: m.frame,
        handle: m.handle,
        padded: m.padded,
    }
}

fn text((result, position): &(Result<Flat, Refusal>, u64)) -> String {
    match result {
        Ok(m) => format!("ok {m:x?} @{position}"),
        Err(r) => format!("{} @{position}", told(r)),
    }
}

impl MovementCase {
    pub fn line(&self) -> String {
        let scale = [1, 10, 100][self.scale as usize];
        let width = [8, 16][self.width as usize];
        format!("M {scale} {width} {}", self.window.line())
    }

    pub fn quantization(&self) -> (RotatorQuantization, VectorQuantization) {
        let rotation = match self.width {
            RotationWidth::Eight => RotatorQuantization::ByteComponents,
            RotationWidth::Sixteen => RotatorQuantization::ShortComponents,
        };
        let location = match self.scale {
            LocationScale::One => VectorQuantization::RoundWholeNumber,
            LocationScale::Ten => VectorQuantization::RoundOneDecimal,
            LocationScale::Hundred => VectorQuantization::RoundTwoDecimals,
        };
        (rotation, location)
    }

    /// The record, and the bits used or where the reading stopped.
    pub fn rust(&self) -> (Result<FRepMovement, DecodeError>, u64) {
        let mut reader = match BitReader::with_bit_len(&self.window.bytes, u64::from(self.window.bits)) {
            Ok(reader) => reader,
            Err(e) => return (Err(e.into()), 0),
        };
        let (rotation, location) = self.quantization();
        let answer = rust::movement(&mut reader, rotation, location);
        (answer, reader.position())
    }

    pub fn check(&self) -> Result<Outcome, Difference> {
        let (answer, position) = self.rust();
        let padded = answer.as_ref().map_or(0, |_| seen::of_movement(self));
        let rust = match &answer {
            Ok(m) => Ok(of_rust(m, padded)),
            Err(DecodeError::BitIo(e)) => Err(of_bit_error(e)),
            Err(e) => Err(of_decode_error(e)),
        };
        let rust = (rust, position);
        let given = port::movement(&self.window.bytes, u64::from(self.window.bits), self.width, self.scale);
        let port = (given.result.map(|m| of_port(&m)), given.position);
        if rust != port {
            return Err(Difference::new("movement", text(&rust), text(&port)));
        }
        crate::dropin::movement(self, &answer, position, padded)?;
        Ok(if rust.0.is_ok() { Outcome::Accepted } else { Outcome::Refused })
    }

    pub fn smaller(&self) -> Box<dyn Iterator<Item = Self> + '_> {
        Box::new(self.window.smaller().map(|window| Self { window, ..*self }))
    }
}
