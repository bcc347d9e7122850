//! A crate root around the original files, which are compiled unchanged through
//! the copy in target/vrfkit. The `#[path]` stands on the INLINE module: a `#[path]` on
//! `array` itself would make rustc look for `schema.rs` beside it and not in `array/`.
// The original's text is not ours to mend.
#![allow(dead_code, clippy::all)]

#[path = "../../../../target/vrfkit/crates/vrf-decode/src"]
mod src {
    pub mod array;
    pub mod fastarray;
    pub mod framing;
    pub mod ftext;
    pub mod types;

    /// Stub for the absent `decode/mod.rs`: only what geometry.rs and scalar.rs name.
    pub mod decode {
        pub mod geometry;
        pub mod scalar;
        use crate::types::*;
        use vrf_bitio::{BitError, BitReader};

        #[derive(Debug, Clone, PartialEq)]
        pub enum DecodeError {
            BitIo(BitError),
            InvalidQuantizationScale { scale: u32 },
            NonFiniteComponent { context: &'static str },
            UnsignedOverflow { value: u64 },
            InvalidFNameNumber { number: i32 },
            ByteArrayLengthCapExceeded { declared: u32, max: u32 },
        }
        impl From<BitError> for DecodeError {
            fn from(e: BitError) -> Self {
                Self::BitIo(e)
            }
        }
        #[derive(Debug, Clone, PartialEq)]
        pub enum DecodedValue {
            I64(i64),
        }

        // geometry.rs's readers are `pub(super)`: thin doors to them.
        pub fn vector(r: &mut BitReader<'_>, scale: u32) -> Result<FVector, DecodeError> {
            geometry::read_vector_net_quantize(r, scale)
        }
        pub fn normal(r: &mut BitReader<'_>) -> Result<FVector, BitError> {
            geometry::read_fixed_vector_normal(r)
        }
        pub fn rotation(r: &mut BitReader<'_>, width: u32) -> Result<FRotator, BitError> {
            geometry::read_rotation(r, width)
        }
        pub fn movement(r: &mut BitReader<'_>, rot: RotatorQuantization, loc: VectorQuantization) -> Result<FRepMovement, DecodeError> {
            geometry::read_rep_movement(r, rot, loc)
        }
    }
}

pub use src::{array, decode, fastarray, ftext, types};
