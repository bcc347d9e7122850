//! The port's calls over watched buffers. The faults of the interface with lent buffers come in here.
use crate::answer::{ReadAnswer, Value};
use crate::faults::{self, Call};
use crate::lent::Lent;
use vrf_proved::lent::{
    self, Buffers, Cursor, FastArray, LocationScale, Movement, Objects, Read, Refusal, RefusedMerge, RotationWidth, Tables, Verdict, Walk,
    Xyz,
};
use vrf_proved::{ArrayDecodeStats, BYTE_ANGLE_STEPS};

/// The buffers of all calls, kept from case to case.
#[derive(Default)]
pub struct Desk {
    pub leaves: Lent<u32>,
    pub paths: Lent<u8>,
    pub payloads: Lent<u8>,
    pub pairs: Lent<u32>,
    pub deleted: Lent<i32>,
    pub items: Lent<u32>,
    pub fields: Lent<u32>,
    pub target: Lent<u8>,
}

impl Desk {
    fn buffers(&mut self) -> Buffers<'_> {
        Buffers {
            leaves: self.leaves.cells(),
            paths: self.paths.cells(),
            payloads: self.payloads.cells(),
        }
    }

    pub fn struct_array(&mut self, bytes: &[u8], bits: u32, tables: Tables<'_>) -> Result<Walk, Refusal> {
        let mut r = lent::struct_array(bytes, bits, tables, self.buffers());
        faults::walk(&mut r, bytes, bits, self.buffers());
        r
    }

    pub fn struct_array_exact(&mut self, bytes: &[u8], bits: u32, declared: &[u32], pool: &[u8]) -> Result<Walk, Refusal> {
        let mut r = lent::struct_array_exact(bytes, bits, declared, pool, self.buffers());
        faults::walk(&mut r, bytes, bits, self.buffers());
        r
    }

    pub fn object_array(&mut self, bytes: &[u8], bits: u32) -> Result<Objects, Refusal> {
        let mut r = lent::object_array(bytes, bits, self.pairs.cells());
        faults::objects(&mut r, bits, self.pairs.cells());
        r
    }

    pub fn fast_array(&mut self, bytes: &[u8], bits: u32, flags: bool) -> Result<FastArray, Refusal> {
        let (deleted, items, fields) = (self.deleted.cells(), self.items.cells(), self.fields.cells());
        let mut r = lent::fast_array(bytes, bits, flags, deleted, items, fields);
        faults::fast(&mut r, deleted, items, fields);
        r
    }

    pub fn copy_bits(&mut self, bytes: &[u8], cursor: Cursor, count: u64) -> ReadAnswer {
        let target = self.target.cells();
        let mut r = lent::copy_bits(bytes, cursor, count, target);
        faults::copy(&mut r, count, target);
        of(r, |()| Value::Copied)
    }
}

fn of<T>(r: Read<T>, value: impl FnOnce(T) -> Value) -> ReadAnswer {
    ReadAnswer {
        result: r.result.map(value),
        position: r.position,
    }
}

fn number(call: Call, mut r: Read<u64>) -> ReadAnswer {
    faults::answer(call, &mut r);
    of(r, Value::Number)
}

fn doubles(call: Call, mut r: Read<Xyz>) -> ReadAnswer {
    faults::answer(call, &mut r);
    of(r, |v| Value::Doubles(v.map(f64::to_bits)))
}

pub fn read_bits(bytes: &[u8], cursor: Cursor, count: u64) -> ReadAnswer {
    number(Call::ReadBits, lent::read_bits(bytes, cursor, count))
}

pub fn read_packed(bytes: &[u8], cursor: Cursor) -> ReadAnswer {
    let mut r = lent::read_packed(bytes, cursor);
    faults::packed(&mut r);
    of(r, |p| Value::Packed(p.value, p.bytes, p.padded))
}

pub fn read_serialized(bytes: &[u8], cursor: Cursor, maximum: u32) -> ReadAnswer {
    number(Call::ReadSerialized, lent::read_serialized(bytes, cursor, maximum))
}

pub fn vector(bytes: &[u8], cursor: Cursor, scale: u32) -> ReadAnswer {
    doubles(Call::Vector, lent::vector(bytes, cursor, scale))
}

pub fn normal(bytes: &[u8], cursor: Cursor) -> ReadAnswer {
    doubles(Call::Normal, lent::normal(bytes, cursor))
}

pub fn rotation(bytes: &[u8], cursor: Cursor, width: u32) -> ReadAnswer {
    let mut r = lent::rotation(bytes, cursor, width);
    faults::answer(Call::Rotation, &mut r);
    of(r, |v| Value::Floats(v.map(f32::to_bits)))
}

pub fn byte_angle_steps(k: u32) -> Option<u32> {
    let mut steps = lent::byte_angle_steps(k);
    faults::answer(Call::ByteAngleSteps, &mut steps);
    steps
}

/// The entry of the crate's constant table.
pub fn byte_angle_entry(k: u32) -> Option<u32> {
    let mut entry = BYTE_ANGLE_STEPS.get(k as usize).copied();
    faults::answer(Call::ByteAngleEntry, &mut entry);
    entry
}

pub fn movement(bytes: &[u8], count: u64, rotation: RotationWidth, location: LocationScale) -> Read<Movement> {
    let mut r = lent::movement(bytes, count, rotation, location);
    faults::movement(&mut r);
    r
}

pub fn merge(left: &ArrayDecodeStats, right: &ArrayDecodeStats) -> Result<ArrayDecodeStats, RefusedMerge> {
    let mut r = lent::merge(left, right);
    faults::merge(&mut r, right);
    r
}

pub fn verdict(counters: &ArrayDecodeStats) -> Verdict {
    let mut v = lent::verdict(counters);
    faults::answer(Call::Verdict, &mut v);
    v
}
