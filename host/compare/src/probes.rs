//! Calls of the bit reader that callers in C don't have: the library of crate probes, which is for tests only.
use crate::faults;
use vrf_proved::lent::Cursor;

/// A window of the bytes and a place in it.
#[repr(C)]
#[derive(Clone, Copy, Debug, Default, PartialEq)]
pub struct Reader {
    pub start: u64,
    pub pos: u64,
    pub len: u64,
}

impl From<Cursor> for Reader {
    fn from(c: Cursor) -> Self {
        Self {
            start: c.start,
            pos: c.pos,
            len: c.len,
        }
    }
}

/// What every such call gives; what it doesn't give is 0 and false.
#[repr(C)]
#[derive(Clone, Copy, Debug, Default, PartialEq)]
pub struct Probe {
    pub refusal: u32,
    pub first: u64,
    pub second: u64,
    pub third: u64,
    pub value: u64,
    pub signed: i32,
    pub truth: bool,
    pub position: u64,
    pub reader: Reader,
}

/// A call, with its count where it takes one.
#[derive(Clone, Copy, Debug, PartialEq)]
pub enum ProbeCall {
    New,
    Open(u64),
    Position,
    LenBits,
    BitsRemaining,
    AtEnd,
    SkipBits(u64),
    SkipRemaining,
    SubReader(u64),
    ReadBit,
    ReadU8,
    ReadU16,
    ReadU32,
    ReadI32,
    ReadU64,
}

impl ProbeCall {
    /// Every call; those that take a count get this one.
    pub const fn all(count: u64) -> [Self; 15] {
        [
            Self::New,
            Self::Open(count),
            Self::Position,
            Self::LenBits,
            Self::BitsRemaining,
            Self::AtEnd,
            Self::SkipBits(count),
            Self::SkipRemaining,
            Self::SubReader(count),
            Self::ReadBit,
            Self::ReadU8,
            Self::ReadU16,
            Self::ReadU32,
            Self::ReadI32,
            Self::ReadU64,
        ]
    }

    pub const fn name(self) -> &'static str {
        match self {
            Self::New => "new",
            Self::Open(_) => "open",
            Self::Position => "position",
            Self::LenBits => "len_bits",
            Self::BitsRemaining => "bits_remaining",
            Self::AtEnd => "at_end",
            Self::SkipBits(_) => "skip_bits",
            Self::SkipRemaining => "skip_remaining",
            Self::SubReader(_) => "sub_reader",
            Self::ReadBit => "read_bit",
            Self::ReadU8 => "read_u8",
            Self::ReadU16 => "read_u16",
            Self::ReadU32 => "read_u32",
            Self::ReadI32 => "read_i32",
            Self::ReadU64 => "read_u64",
        }
    }

    /// The bits that a plain read takes.
    pub const fn width(self) -> Option<u64> {
        match self {
            Self::ReadBit => Some(1),
            Self::ReadU8 => Some(8),
            Self::ReadU16 => Some(16),
            Self::ReadU32 | Self::ReadI32 => Some(32),
            Self::ReadU64 => Some(64),
            _ => None,
        }
    }
}

mod raw {
    use super::{Probe, Reader};

    unsafe extern "C" {
        pub fn vrf_probe_new(bytes: *const u8, bytes_len: usize) -> Probe;
        pub fn vrf_probe_open(bytes: *const u8, bytes_len: usize, count: u64) -> Probe;
        pub fn vrf_probe_position(bytes: *const u8, bytes_len: usize, cursor: Reader) -> Probe;
        pub fn vrf_probe_len_bits(bytes: *const u8, bytes_len: usize, cursor: Reader) -> Probe;
        pub fn vrf_probe_bits_remaining(bytes: *const u8, bytes_len: usize, cursor: Reader) -> Probe;
        pub fn vrf_probe_at_end(bytes: *const u8, bytes_len: usize, cursor: Reader) -> Probe;
        pub fn vrf_probe_skip_bits(bytes: *const u8, bytes_len: usize, cursor: Reader, count: u64) -> Probe;
        pub fn vrf_probe_skip_remaining(bytes: *const u8, bytes_len: usize, cursor: Reader) -> Probe;
        pub fn vrf_probe_sub_reader(bytes: *const u8, bytes_len: usize, cursor: Reader, count: u64) -> Probe;
        pub fn vrf_probe_read_bit(bytes: *const u8, bytes_len: usize, cursor: Reader) -> Probe;
        pub fn vrf_probe_read_u8(bytes: *const u8, bytes_len: usize, cursor: Reader) -> Probe;
        pub fn vrf_probe_read_u16(bytes: *const u8, bytes_len: usize, cursor: Reader) -> Probe;
        pub fn vrf_probe_read_u32(bytes: *const u8, bytes_len: usize, cursor: Reader) -> Probe;
        pub fn vrf_probe_read_i32(bytes: *const u8, bytes_len: usize, cursor: Reader) -> Probe;
        pub fn vrf_probe_read_u64(bytes: *const u8, bytes_len: usize, cursor: Reader) -> Probe;
    }
}

/// `cursor` goes to all calls but `New` and `Open`.
pub fn call(call: ProbeCall, bytes: &[u8], cursor: Cursor) -> Probe {
    let (at, len, c) = (bytes.as_ptr(), bytes.len(), cursor.into());
    // SAFETY: the pointer comes from a slice, with its length.
    let mut probe = unsafe {
        match call {
            ProbeCall::New => raw::vrf_probe_new(at, len),
            ProbeCall::Open(count) => raw::vrf_probe_open(at, len, count),
            ProbeCall::Position => raw::vrf_probe_position(at, len, c),
            ProbeCall::LenBits => raw::vrf_probe_len_bits(at, len, c),
            ProbeCall::BitsRemaining => raw::vrf_probe_bits_remaining(at, len, c),
            ProbeCall::AtEnd => raw::vrf_probe_at_end(at, len, c),
            ProbeCall::SkipBits(count) => raw::vrf_probe_skip_bits(at, len, c, count),
            ProbeCall::SkipRemaining => raw::vrf_probe_skip_remaining(at, len, c),
            ProbeCall::SubReader(count) => raw::vrf_probe_sub_reader(at, len, c, count),
            ProbeCall::ReadBit => raw::vrf_probe_read_bit(at, len, c),
            ProbeCall::ReadU8 => raw::vrf_probe_read_u8(at, len, c),
            ProbeCall::ReadU16 => raw::vrf_probe_read_u16(at, len, c),
            ProbeCall::ReadU32 => raw::vrf_probe_read_u32(at, len, c),
            ProbeCall::ReadI32 => raw::vrf_probe_read_i32(at, len, c),
            ProbeCall::ReadU64 => raw::vrf_probe_read_u64(at, len, c),
        }
    };
    faults::probe(call, &mut probe);
    probe
}
