//! What both sides' answers are brought to before they are compared.
use decode::decode::DecodeError;
use std::fmt;
use vrf_bitio::BitError;
use vrf_proved::lent::{Refusal, Verdict};

/// Where the two differ: in which call, and both answers.
pub struct Difference {
    pub call: String,
    pub rust: String,
    pub port: String,
}

impl Difference {
    /// Not a difference of answers: the Rust or this program failed.
    pub const PANIC: &str = "a panic on the Rust's side or in this program";

    pub fn new(call: impl Into<String>, rust: impl fmt::Display, port: impl fmt::Display) -> Self {
        Self {
            call: call.into(),
            rust: rust.to_string(),
            port: port.to_string(),
        }
    }
}

/// What kind of answer a case got, for the table.
#[derive(Clone, Copy, PartialEq)]
pub enum Outcome {
    Accepted,
    Partial,
    Refused,
}

pub fn walked(verdict: Verdict) -> Outcome {
    match verdict {
        Verdict::Clean | Verdict::Empty => Outcome::Accepted,
        Verdict::Partial => Outcome::Partial,
    }
}

pub fn refused(number: u32, values: [u64; 3]) -> Refusal {
    Refusal { number, values }
}

/// The refusal that stands for an error of the Rust.
pub fn of_bit_error(e: &BitError) -> Refusal {
    match *e {
        BitError::Eof {
            position,
            length,
            requested,
        } => refused(7, [position, length, requested]),
        BitError::MalformedIntPacked { position } => refused(8, [position, 0, 0]),
        BitError::IntPackedOverflow { position } => refused(9, [position, 0, 0]),
        BitError::InvalidSerializedIntMax { .. } => refused(10, [0; 3]),
        BitError::InvalidBitLength { requested, available } => refused(14, [requested, available, 0]),
        BitError::InvalidLength { .. } | BitError::InvalidString { .. } => refused(0, [0; 3]),
    }
}

pub fn of_decode_error(e: &DecodeError) -> Refusal {
    match e {
        DecodeError::BitIo(e) => of_bit_error(e),
        DecodeError::InvalidQuantizationScale { .. } => refused(11, [0; 3]),
        DecodeError::NonFiniteComponent { .. } => refused(12, [0; 3]),
        _ => refused(0, [0; 3]),
    }
}

/// A value as its bits, so that -0 and 0 differ.
#[derive(Clone, Debug, PartialEq)]
pub enum Value {
    Number(u64),
    /// A packed number, its bytes, and whether it is padded.
    Packed(u64, u32, bool),
    Doubles([u64; 3]),
    Floats([u32; 3]),
    /// A copy: its target is compared by itself.
    Copied,
}

#[derive(Clone, Debug, PartialEq)]
pub struct ReadAnswer {
    pub result: Result<Value, Refusal>,
    pub position: u64,
}

impl fmt::Display for ReadAnswer {
    fn fmt(&self, f: &mut fmt::Formatter<'_>) -> fmt::Result {
        match &self.result {
            Ok(Value::Number(n)) => write!(f, "ok {n}")?,
            Ok(Value::Packed(n, bytes, padded)) => {
                write!(f, "ok {n} in {bytes} bytes{}", if *padded { ", padded" } else { "" })?;
            }
            Ok(Value::Doubles([x, y, z])) => write!(f, "ok {x:016x},{y:016x},{z:016x}")?,
            Ok(Value::Floats([x, y, z])) => write!(f, "ok {x:08x},{y:08x},{z:08x}")?,
            Ok(Value::Copied) => write!(f, "ok")?,
            Err(r) => write!(f, "{}", told(r))?,
        }
        write!(f, " @{}", self.position)
    }
}

pub fn told(r: &Refusal) -> String {
    let [a, b, c] = r.values;
    format!("refusal {} ({a}, {b}, {c})", r.number)
}
