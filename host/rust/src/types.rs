//! Vectors, rotations and movement records, and how they are written as text.

use std::fmt;

/// How a movement's rotation is sent.
#[derive(Debug, Clone, Copy, PartialEq, Eq, Hash)]
pub enum RotatorQuantization {
    /// 8 bits an axis.
    ByteComponents,
    /// 16 bits an axis.
    ShortComponents,
}

/// How a movement's location is sent: as whole numbers of its own unit.
#[derive(Debug, Clone, Copy, PartialEq, Eq, Hash)]
pub enum VectorQuantization {
    /// Units.
    RoundWholeNumber,
    /// Tenths.
    RoundOneDecimal,
    /// Hundredths.
    RoundTwoDecimals,
}

impl VectorQuantization {
    /// What a sent number is divided by.
    ///
    /// ```
    /// assert_eq!(vrf_proved::VectorQuantization::RoundTwoDecimals.scale(), 100);
    /// ```
    #[must_use]
    pub const fn scale(self) -> u32 {
        match self {
            Self::RoundWholeNumber => 1,
            Self::RoundOneDecimal => 10,
            Self::RoundTwoDecimals => 100,
        }
    }
}

/// A vector, written as `(1,-2.5,0)`.
#[derive(Debug, Clone, Copy, PartialEq)]
#[must_use]
pub struct FVector {
    /// The first component.
    pub x: f64,
    /// The second component.
    pub y: f64,
    /// The third component.
    pub z: f64,
}

impl fmt::Display for FVector {
    fn fmt(&self, f: &mut fmt::Formatter<'_>) -> fmt::Result {
        let Self { x, y, z } = self;
        write!(f, "({x},{y},{z})")
    }
}

/// A rotation in degrees, written as `rot(90,0,-1.40625)`.
#[derive(Debug, Clone, Copy, PartialEq)]
#[must_use]
pub struct FRotator {
    /// Nose up.
    pub pitch: f32,
    /// To the right.
    pub yaw: f32,
    /// Clockwise.
    pub roll: f32,
}

impl fmt::Display for FRotator {
    fn fmt(&self, f: &mut fmt::Formatter<'_>) -> fmt::Result {
        let Self { pitch, yaw, roll } = self;
        write!(f, "rot({pitch},{yaw},{roll})")
    }
}

/// A movement record, written as a JSON object. What wasn't sent is `None`, written `null`, and never zero.
#[derive(Debug, Clone, PartialEq)]
#[must_use]
pub struct FRepMovement {
    /// Where.
    pub location: FVector,
    /// Which way.
    pub rotation: FRotator,
    /// How fast.
    pub linear_velocity: FVector,
    /// How fast it turns, if physics is sent.
    pub angular_velocity: Option<FVector>,
    /// The simulated body sleeps.
    pub simulated_physics_sleep: bool,
    /// Physics is sent.
    pub rep_physics: bool,
    /// The server's frame.
    pub server_frame: Option<u32>,
    /// The server's handle for the body.
    pub server_physics_handle: Option<u32>,
}

impl fmt::Display for FRepMovement {
    fn fmt(&self, f: &mut fmt::Formatter<'_>) -> fmt::Result {
        let FRotator { pitch, yaw, roll } = self.rotation;
        write!(f, r#"{{"linear_velocity":{}"#, Json(self.linear_velocity))?;
        write!(f, r#","angular_velocity":{}"#, Json(self.angular_velocity.map(Json)))?;
        write!(f, r#","location":{}"#, Json(self.location))?;
        write!(f, r#","rotation":{{"pitch":{pitch},"yaw":{yaw},"roll":{roll}}}"#)?;
        write!(f, r#","simulated_physics_sleep":{}"#, self.simulated_physics_sleep)?;
        write!(f, r#","rep_physics":{}"#, self.rep_physics)?;
        write!(f, r#","server_frame":{}"#, Json(self.server_frame))?;
        write!(f, r#","server_physics_handle":{}}}"#, Json(self.server_physics_handle))
    }
}

/// A value in the JSON of a movement record.
struct Json<T>(T);

impl fmt::Display for Json<FVector> {
    fn fmt(&self, f: &mut fmt::Formatter<'_>) -> fmt::Result {
        let FVector { x, y, z } = self.0;
        write!(f, r#"{{"x":{x},"y":{y},"z":{z}}}"#)
    }
}

impl<T: fmt::Display> fmt::Display for Json<Option<T>> {
    fn fmt(&self, f: &mut fmt::Formatter<'_>) -> fmt::Result {
        match &self.0 {
            Some(value) => write!(f, "{value}"),
            None => write!(f, "null"),
        }
    }
}
