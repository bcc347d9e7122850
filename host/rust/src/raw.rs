//! The C interface as it stands in host/c/vrf.h: structs, functions, nothing else. What each call owes and gives is said there.

pub(crate) const NONE: u32 = u32::MAX;
pub(crate) const LONGEST_PATH: usize = 852;
pub(crate) const LEAF_WORDS: usize = 6;
pub(crate) const PAIR_WORDS: usize = 2;
pub(crate) const ITEM_WORDS: usize = 2;
pub(crate) const FIELD_WORDS: usize = 3;

#[repr(C)]
#[derive(Debug, Clone, Copy, Default, PartialEq)]
pub(crate) struct VrfCounters {
    pub elements: u64,
    pub fields: u64,
    pub truncations: u64,
    pub errors: u64,
    pub nested_bits: u64,
    pub root_bits: u64,
    pub implicit_terminations: u64,
}

#[repr(C)]
#[derive(Debug, Clone, Copy, Default, PartialEq)]
pub(crate) struct VrfWalk {
    pub refusal: u32,
    pub leaves: u32,
    pub path_bytes: u32,
    pub payload_bytes: u32,
    pub counters: VrfCounters,
    pub verdict: u32,
    pub padded: u32,
}

#[repr(C)]
#[derive(Debug, Clone, Copy, Default, PartialEq)]
pub(crate) struct VrfObjects {
    pub refusal: u32,
    pub pairs: u32,
    pub counters: VrfCounters,
    pub verdict: u32,
    pub padded: u32,
}

#[repr(C)]
#[derive(Debug, Clone, Copy, Default, PartialEq)]
pub(crate) struct VrfMerge {
    pub refusal: u32,
    pub counters: VrfCounters,
}

#[repr(C)]
#[derive(Debug, Clone, Copy, Default, PartialEq)]
pub(crate) struct VrfSchema {
    pub refusal: u32,
    pub rows: usize,
    pub names: usize,
    pub levels: u32,
}

#[repr(C)]
#[derive(Debug, Clone, Copy, Default, PartialEq)]
pub(crate) struct VrfFastArray {
    pub refusal: u32,
    pub deletes: u32,
    pub items: u32,
    pub fields: u32,
    pub key: i32,
    pub base: i32,
    pub used: u32,
    pub padded: u32,
}

#[repr(C)]
#[derive(Debug, Clone, Copy, Default, PartialEq)]
pub(crate) struct VrfCursor {
    pub start: u64,
    pub pos: u64,
    pub len: u64,
}

#[repr(C)]
#[derive(Debug, Clone, Copy, Default, PartialEq)]
pub(crate) struct VrfRead {
    pub refusal: u32,
    pub first: u64,
    pub second: u64,
    pub third: u64,
    pub value: u64,
    pub position: u64,
}

#[repr(C)]
#[derive(Debug, Clone, Copy, Default, PartialEq)]
pub(crate) struct VrfPacked {
    pub refusal: u32,
    pub first: u64,
    pub second: u64,
    pub third: u64,
    pub value: u64,
    pub position: u64,
    pub bytes: u32,
    pub padded: bool,
}

#[repr(C)]
#[derive(Debug, Clone, Copy, Default, PartialEq)]
pub(crate) struct VrfXyz {
    pub x: f64,
    pub y: f64,
    pub z: f64,
}

#[repr(C)]
#[derive(Debug, Clone, Copy, Default, PartialEq)]
pub(crate) struct VrfAngles {
    pub pitch: f32,
    pub yaw: f32,
    pub roll: f32,
}

#[repr(C)]
#[derive(Debug, Clone, Copy, Default, PartialEq)]
pub(crate) struct VrfVector {
    pub refusal: u32,
    pub first: u64,
    pub second: u64,
    pub third: u64,
    pub value: VrfXyz,
    pub position: u64,
}

#[repr(C)]
#[derive(Debug, Clone, Copy, Default, PartialEq)]
pub(crate) struct VrfRotation {
    pub refusal: u32,
    pub first: u64,
    pub second: u64,
    pub third: u64,
    pub value: VrfAngles,
    pub position: u64,
}

#[repr(C)]
#[derive(Debug, Clone, Copy, Default, PartialEq)]
pub(crate) struct VrfSpin {
    pub present: bool,
    pub velocity: VrfXyz,
}

#[repr(C)]
#[derive(Debug, Clone, Copy, Default, PartialEq)]
pub(crate) struct VrfNumber {
    pub present: bool,
    pub value: u32,
}

#[repr(C)]
#[derive(Debug, Clone, Copy, Default, PartialEq)]
pub(crate) struct VrfMovement {
    pub refusal: u32,
    pub first: u64,
    pub second: u64,
    pub third: u64,
    pub location: VrfXyz,
    pub rotation: VrfAngles,
    pub linear: VrfXyz,
    pub angular: VrfSpin,
    pub sleep: bool,
    pub physics: bool,
    pub frame: VrfNumber,
    pub handle: VrfNumber,
    pub position: u64,
    pub padded: u32,
}

extern "C" {
    pub(crate) fn vrf_struct_array(
        bytes: *const u8,
        bytes_len: usize,
        bits: u32,
        rows: *const u32,
        rows_len: usize,
        levels: u32,
        root: u32,
        names: *const u8,
        names_len: usize,
        declared: *const u32,
        declared_len: usize,
        declared_names: *const u8,
        declared_names_len: usize,
        leaves: *mut u32,
        leaves_len: usize,
        paths: *mut u8,
        paths_len: usize,
        payloads: *mut u8,
        payloads_len: usize,
    ) -> VrfWalk;

    pub(crate) fn vrf_struct_array_exact(
        bytes: *const u8,
        bytes_len: usize,
        bits: u32,
        declared: *const u32,
        declared_len: usize,
        declared_names: *const u8,
        declared_names_len: usize,
        leaves: *mut u32,
        leaves_len: usize,
        paths: *mut u8,
        paths_len: usize,
        payloads: *mut u8,
        payloads_len: usize,
    ) -> VrfWalk;

    pub(crate) fn vrf_object_array(bytes: *const u8, bytes_len: usize, bits: u32, pairs: *mut u32, pairs_len: usize) -> VrfObjects;

    pub(crate) fn vrf_merge(left: VrfCounters, right: VrfCounters) -> VrfMerge;

    pub(crate) fn vrf_verdict(counters: VrfCounters) -> u32;

    pub(crate) fn vrf_schema(rows: *mut u32, rows_len: usize, names: *mut u8, names_len: usize) -> VrfSchema;

    pub(crate) fn vrf_fast_array(
        payload: *const u8,
        payload_len: usize,
        bits: u32,
        checksum: u32,
        deleted: *mut i32,
        deleted_len: usize,
        items: *mut u32,
        items_len: usize,
        fields: *mut u32,
        fields_len: usize,
    ) -> VrfFastArray;

    pub(crate) fn vrf_read_bits(bytes: *const u8, bytes_len: usize, cursor: VrfCursor, count: u64) -> VrfRead;

    pub(crate) fn vrf_read_packed(bytes: *const u8, bytes_len: usize, cursor: VrfCursor) -> VrfPacked;

    pub(crate) fn vrf_read_serialized(bytes: *const u8, bytes_len: usize, cursor: VrfCursor, maximum: u32) -> VrfRead;

    pub(crate) fn vrf_copy_bits(
        bytes: *const u8,
        bytes_len: usize,
        cursor: VrfCursor,
        count: u64,
        target: *mut u8,
        target_len: usize,
    ) -> VrfRead;

    pub(crate) fn vrf_vector(bytes: *const u8, bytes_len: usize, cursor: VrfCursor, scale: u32) -> VrfVector;

    pub(crate) fn vrf_normal(bytes: *const u8, bytes_len: usize, cursor: VrfCursor) -> VrfVector;

    pub(crate) fn vrf_rotation(bytes: *const u8, bytes_len: usize, cursor: VrfCursor, width: u32) -> VrfRotation;

    pub(crate) fn vrf_byte_angle_steps(k: u32) -> u32;

    pub(crate) fn vrf_movement(bytes: *const u8, bytes_len: usize, count: u64, rotation: u32, location: u32) -> VrfMovement;
}
