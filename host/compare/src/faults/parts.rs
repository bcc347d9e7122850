//! The parts of an answer, by name, and how each is made wrong. A struct is taken apart without `..`: a field that is added to it has to be
//! named here too, and then has its fault.
use crate::probes::{Probe, Reader};
use vrf_proved::fastarray::{ChangedItem, FastArrayDelta, FastArrayRead, Header, RawField};
use vrf_proved::lent::{FastArray, Movement, Objects, Packed, Read, Refusal, RefusedMerge, Schema, Verdict, Walk};
use vrf_proved::{
    ArrayDecodeStats, BitError, DecodeError, Decoded, FRepMovement, FRotator, FVector, FlattenedField, MovementRead, PlacedField,
};

pub trait Parts {
    /// The names of all parts, each behind `at`.
    fn names(at: &str) -> Vec<String>;
    /// Makes the part of that name another. A value that has no such part now stays as it is.
    fn alter(&mut self, part: &str);
}

fn below(at: &str, name: &str) -> String {
    if at.is_empty() { name.into() } else { format!("{at}.{name}") }
}

macro_rules! scalars {
    ($($type:ty: |$value:ident| $other:expr;)*) => {
        $(impl Parts for $type {
            fn names(at: &str) -> Vec<String> {
                vec![at.into()]
            }
            fn alter(&mut self, _: &str) {
                let $value = &*self;
                *self = $other;
            }
        })*
    };
}

scalars! {
    u8: |n| n ^ 1;
    u32: |n| n ^ 1;
    u64: |n| n ^ 1;
    usize: |n| n ^ 1;
    i32: |n| n ^ 1;
    bool: |b| !b;
    f32: |x| f32::from_bits(x.to_bits() ^ 1);
    f64: |x| f64::from_bits(x.to_bits() ^ 1);
    Verdict: |v| match v {
        Verdict::Clean => Verdict::Partial,
        Verdict::Partial => Verdict::Empty,
        Verdict::Empty => Verdict::Clean,
    };
    String: |s| format!("{s}'");
    &'static str: |s| if s.is_empty() { "something" } else { "" };
}

/// A read that gives nothing but a position.
impl Parts for () {
    fn names(_: &str) -> Vec<String> {
        vec![]
    }
    fn alter(&mut self, _: &str) {}
}

macro_rules! structs {
    ($($type:ident { $($field:ident: $of:ty),* })*) => {
        $(impl Parts for $type {
            fn names(at: &str) -> Vec<String> {
                [$(<$of>::names(&below(at, stringify!($field)))),*].concat()
            }
            fn alter(&mut self, part: &str) {
                let Self { $($field),* } = self;
                let (field, rest) = part.split_once('.').unwrap_or((part, ""));
                match field {
                    $(stringify!($field) => <$of as Parts>::alter($field, rest),)*
                    _ => {}
                }
            }
        })*
    };
}

// The interface with lent buffers.
structs! {
    ArrayDecodeStats {
        elements_decoded: u64, fields_emitted: u64, truncations: u64, errors: u64,
        unconsumed_nested_bits: u64, unconsumed_root_bits: u64, implicit_terminations: u64
    }
    Walk { leaves: usize, path_bytes: usize, payload_bytes: usize, counters: ArrayDecodeStats, verdict: Verdict, padded: u32 }
    Objects { pairs: usize, counters: ArrayDecodeStats, verdict: Verdict, padded: u32 }
    Schema { rows: usize, names: usize, levels: u32 }
    FastArray { deletes: usize, items: usize, fields: usize, key: i32, base: i32, used: u32, padded: u32 }
    Packed { value: u64, bytes: u32, padded: bool }
    Movement {
        location: [f64; 3], rotation: [f32; 3], linear: [f64; 3], angular: Option<[f64; 3]>,
        sleep: bool, physics: bool, frame: Option<u32>, handle: Option<u32>, padded: u32
    }
    Refusal { number: u32, values: [u64; 3] }
    RefusedMerge { number: u32, left: ArrayDecodeStats }
}

// The calls for tests.
structs! {
    Reader { start: u64, pos: u64, len: u64 }
    Probe {
        refusal: u32, first: u64, second: u64, third: u64, value: u64, signed: i32, truth: bool, position: u64, reader: Reader
    }
}

// The original's names.
structs! {
    FlattenedField { path: String, handle: u32, bit_count: u32, raw_bits: Vec<u8> }
    PlacedField { field: FlattenedField, window_start: u32 }
    Header { array_replication_key: i32, base_replication_key: i32, num_deletes: u32, num_changed: u32 }
    RawField { handle: u32, payload_bit_offset: u32, payload_bit_count: u32 }
    ChangedItem { replication_id: i32, fields: Vec<RawField> }
    FastArrayDelta {
        supports_delta_struct: bool, header: Header, deleted_replication_ids: Vec<i32>, changed_items: Vec<ChangedItem>, consumed_bits: u32
    }
    FVector { x: f64, y: f64, z: f64 }
    FRotator { pitch: f32, yaw: f32, roll: f32 }
    FRepMovement {
        location: FVector, rotation: FRotator, linear_velocity: FVector, angular_velocity: Option<FVector>,
        simulated_physics_sleep: bool, rep_physics: bool, server_frame: Option<u32>, server_physics_handle: Option<u32>
    }
    FastArrayRead { delta: FastArrayDelta, padded: u32 }
    MovementRead { record: FRepMovement, used: u64, padded: u32 }
}

/// The names of three that stand in an array.
macro_rules! threes {
    ($($type:ty: $names:expr;)*) => {
        $(impl Parts for [$type; 3] {
            fn names(at: &str) -> Vec<String> {
                $names.map(|name: &str| below(at, name)).into()
            }
            fn alter(&mut self, part: &str) {
                if let Some(i) = $names.iter().position(|name| *name == part) {
                    self[i].alter("");
                }
            }
        })*
    };
}

threes! {
    u64: ["first", "second", "third"];
    f64: ["x", "y", "z"];
    f32: ["pitch", "yaw", "roll"];
}

impl Parts for (u32, u32) {
    fn names(at: &str) -> Vec<String> {
        ["index", "object"].map(|name| below(at, name)).into()
    }
    fn alter(&mut self, part: &str) {
        let (index, object) = self;
        match part {
            "index" => *index ^= 1,
            "object" => *object ^= 1,
            _ => {}
        }
    }
}

impl<T: Parts> Parts for Decoded<T> {
    fn names(at: &str) -> Vec<String> {
        let values = Vec::<T>::names(&below(at, "values"));
        let stats = ArrayDecodeStats::names(&below(at, "stats"));
        let said = ["verdict", "padded"].map(|name| below(at, name));
        [values, stats, said.into()].concat()
    }
    fn alter(&mut self, part: &str) {
        let Self {
            values,
            stats,
            verdict,
            padded,
        } = self;
        match part.split_once('.').unwrap_or((part, "")) {
            ("values", rest) => values.alter(rest),
            ("stats", rest) => stats.alter(rest),
            ("verdict", rest) => verdict.alter(rest),
            ("padded", rest) => padded.alter(rest),
            _ => {}
        }
    }
}

/// Whether it is there, and the parts of what is.
trait Filler {
    fn filler() -> Self;
}
impl Filler for u32 {
    fn filler() -> Self {
        0
    }
}
impl Filler for [f64; 3] {
    fn filler() -> Self {
        [0.0; 3]
    }
}
impl Filler for FVector {
    fn filler() -> Self {
        Self { x: 0.0, y: 0.0, z: 0.0 }
    }
}

impl<T: Parts + Filler> Parts for Option<T> {
    fn names(at: &str) -> Vec<String> {
        [vec![below(at, "present")], T::names(&below(at, "value"))].concat()
    }
    fn alter(&mut self, part: &str) {
        match (part.split_once('.').unwrap_or((part, "")), &mut *self) {
            (("present", _), Some(_)) => *self = None,
            (("present", _), None) => *self = Some(T::filler()),
            (("value", rest), Some(value)) => value.alter(rest),
            _ => {}
        }
    }
}

/// How many there are, and the parts of the last.
impl<T: Parts> Parts for Vec<T> {
    fn names(at: &str) -> Vec<String> {
        [vec![below(at, "count")], T::names(&below(at, "last"))].concat()
    }
    fn alter(&mut self, part: &str) {
        match (part.split_once('.').unwrap_or((part, "")), self.last_mut()) {
            (("count", _), _) => drop(self.pop()),
            (("last", rest), Some(last)) => last.alter(rest),
            _ => {}
        }
    }
}

impl<T: Parts, E: Parts> Parts for Result<T, E> {
    fn names(at: &str) -> Vec<String> {
        [T::names(at), E::names(&below(at, "refused"))].concat()
    }
    fn alter(&mut self, part: &str) {
        match (self, part.strip_prefix("refused.")) {
            (Ok(value), None) => value.alter(part),
            (Err(refusal), Some(rest)) => refusal.alter(rest),
            _ => {}
        }
    }
}

/// Where the cursor stands, by itself for a read that was refused.
impl<T: Parts> Parts for Read<T> {
    fn names(at: &str) -> Vec<String> {
        let positions = ["position", "refused.position"].map(|name| below(at, name));
        [Result::<T, Refusal>::names(at), positions.into()].concat()
    }
    fn alter(&mut self, part: &str) {
        let Self { result, position } = self;
        match (part, &result) {
            ("position", Ok(_)) | ("refused.position", Err(_)) => position.alter(""),
            _ => result.alter(part),
        }
    }
}

/// Each number of each error, and the text that the original has. `Refused` stands for what the original has no error for.
impl Parts for DecodeError {
    fn names(at: &str) -> Vec<String> {
        let bits = [
            "eof.position",
            "eof.length",
            "eof.requested",
            "malformed.position",
            "overflow.position",
        ];
        let all = [&bits[..], &["past.requested", "past.available", "context"]].concat();
        let all = all.iter().map(|name| below(at, name));
        all.chain(Refusal::names(&below(at, "other"))).collect()
    }
    fn alter(&mut self, part: &str) {
        match self {
            Self::BitIo(BitError::Eof {
                position,
                length,
                requested,
            }) => pick(
                part,
                [("eof.position", position), ("eof.length", length), ("eof.requested", requested)],
            ),
            Self::BitIo(BitError::MalformedIntPacked { position }) => pick(part, [("malformed.position", position)]),
            Self::BitIo(BitError::IntPackedOverflow { position }) => pick(part, [("overflow.position", position)]),
            Self::BitIo(BitError::InvalidBitLength { requested, available }) => {
                pick(part, [("past.requested", requested), ("past.available", available)]);
            }
            Self::NonFiniteComponent { context } => pick(part, [("context", context)]),
            Self::Refused(refusal) => {
                if let Some(part) = part.strip_prefix("other.") {
                    refusal.alter(part);
                }
            }
        }
    }
}

fn pick<T: Parts, const N: usize>(part: &str, of: [(&str, &mut T); N]) {
    for (name, value) in of {
        if name == part {
            value.alter("");
        }
    }
}
