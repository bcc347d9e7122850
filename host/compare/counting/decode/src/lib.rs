//! array.rs, fastarray.rs, geometry.rs and what they name, unchanged, over the reader that counts padded numbers and notes starts.
//! oracle/crates/decode is the same over the reader itself, and says why the `#[path]` stands where it does.
// The original's text is not ours to mend.
#![allow(dead_code, clippy::all)]

#[path = "../../../../../target/vrfkit/crates/vrf-decode/src"]
mod src {
    pub mod array;
    pub mod fastarray;
    pub mod types;

    /// What geometry.rs names of the absent `decode/mod.rs`.
    pub mod decode {
        pub mod geometry;
        use crate::types::{FRepMovement, RotatorQuantization, VectorQuantization};
        use vrf_bitio::{BitError, BitReader};

        #[derive(Debug)]
        pub enum DecodeError {
            BitIo(BitError),
            InvalidQuantizationScale { scale: u32 },
            NonFiniteComponent { context: &'static str },
        }

        impl From<BitError> for DecodeError {
            fn from(e: BitError) -> Self {
                Self::BitIo(e)
            }
        }

        pub fn movement(
            r: &mut BitReader<'_>,
            rotation: RotatorQuantization,
            location: VectorQuantization,
        ) -> Result<FRepMovement, DecodeError> {
            geometry::read_rep_movement(r, rotation, location)
        }
    }
}

pub use src::decode::movement;
pub use src::{array, fastarray, types};
pub use vrf_bitio::{BitReader, Seen, watched};
