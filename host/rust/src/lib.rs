#![doc = include_str!("../README.md")]
#![warn(missing_docs)]
#![deny(unsafe_code)]

mod angles;
mod array;
mod error;
pub mod fastarray;
#[allow(unsafe_code)]
pub mod lent;
mod movement;
#[allow(unsafe_code)]
mod raw;
mod schema;
mod scratch;
mod stats;
mod tables;
mod types;

pub use angles::BYTE_ANGLE_STEPS;
pub use array::{
    decode_object_ref_array, decode_object_ref_array_with_stats, decode_struct_array, decode_struct_array_exact,
    try_decode_object_ref_array, try_decode_struct_array, try_decode_struct_array_exact, Decoded, FlattenedField, PlacedField,
    MAX_ELEMENTS, MAX_FIELDS_PER_ELEMENT, MAX_RECURSION_DEPTH,
};
pub use error::{BitError, DecodeError};
pub use movement::{read_rep_movement, try_read_rep_movement, MovementRead};
pub use schema::{
    ArrayFieldSchema, ABILITY_CASTS_SCHEMA, ABILITY_EFFECTS_SCHEMA, COMBAT_ROUNDS_SCHEMA, LIFE_CHANGE_BY_SECTION_SCHEMA,
    LIFE_CHANGE_DAMAGE_SCHEMA, LIFE_CHANGE_SECTION_SCHEMA,
};
pub use stats::ArrayDecodeStats;
pub use types::{FRepMovement, FRotator, FVector, RotatorQuantization, VectorQuantization};
