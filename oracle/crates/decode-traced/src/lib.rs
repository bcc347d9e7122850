//! array.rs, array/schema.rs and fastarray.rs, unchanged, over the recording reader.
// The original's text is not ours to mend.
#![allow(dead_code, clippy::all)]
#[path = "../../../../target/vrfkit/crates/vrf-decode/src"]
mod src {
    pub mod array;
    pub mod fastarray;
}

pub use src::{array, fastarray};
pub use vrf_bitio::{Trace, take};
