//! The windows that are walked.

use crate::bits::{array, element, Bits};

/// Combat reports, nested four deep as the schema has it: rounds, 6 reports each, 4 interactions each, 3 dealt ones each.
/// With `broken` each dealt array ends in an index that its count doesn't allow: an error that loses the rest of that array alone.
pub fn combat(rounds: u64, broken: bool) -> Bits {
    array((0..rounds).map(|r| holding(&[(0, r, 32), (1, 7, 8)], 4, &reports(broken))))
}

fn reports(broken: bool) -> Bits {
    array((0..6).map(|k| holding(&[(2, k, 32), (3, 1, 1), (5, 0x3f80_0000, 32)], 10, &interactions(broken))))
}

fn interactions(broken: bool) -> Bits {
    let mut dealt = array((0..3).map(|k| element(&[(27, k, 32), (28, 5, 32), (29, 1, 1), (30, 3, 8)])));
    if broken {
        dealt.bytes.pop();
        dealt.count -= 8;
        dealt.packed(100);
    }
    array((0..4).map(|k| holding(&[(1, k, 32), (20, 9, 16)], 26, &dealt)))
}

/// An element with some leaves and then a nested array.
fn holding(leaves: &[(u32, u64, u32)], handle: u32, nested: &Bits) -> Bits {
    let mut out = element(leaves);
    out.field(handle, nested);
    out
}

/// Elements of ten fields of 32 bits, nothing nested.
pub fn flat(elements: u64) -> Bits {
    array((0..elements).map(|e| {
        let leaves: Vec<_> = (0..10).map(|h| (h, e * 7 + u64::from(h), 32)).collect();
        element(&leaves)
    }))
}

/// One element with one field of a byte.
pub fn least() -> Bits {
    array([element(&[(1, 0xab, 8)])])
}

/// An array of no elements.
pub fn no_elements() -> Bits {
    array([])
}

/// A count above the limit: all that follows is kept as one leaf.
pub fn tail(bits: u32) -> Bits {
    let mut out = Bits::default();
    out.packed(5_000);
    for k in 0..bits / 32 {
        out.number(u64::from(k) * 0x0101_0101, 32);
    }
    out
}

/// References to objects.
pub fn objects(count: u32) -> Bits {
    array((0..count).map(|k| {
        let mut reference = Bits::default();
        reference.packed(k * 37 + 5);
        let mut out = Bits::default();
        out.field(0, &reference);
        out
    }))
}

/// A fast-array body: deleted ids, then items of so many fields of 32 bits each.
pub fn body(deletes: u32, items: u32, fields: u32, flags: bool) -> Bits {
    let mut out = Bits::default();
    out.bit(true);
    for word in [7, 6, deletes, items] {
        out.number(word.into(), 32);
    }
    for id in 0..deletes {
        out.number(id.into(), 32);
    }
    for id in 0..items {
        out.number(id.into(), 32);
        if flags {
            out.bit(false);
        }
        for handle in 0..fields {
            out.leaf(handle, id.into(), 32);
        }
        out.packed(0);
    }
    out
}

/// What a movement record holds besides its location, rotation and velocity.
#[derive(Clone, Copy, PartialEq)]
pub enum Record {
    /// Nothing.
    Plain,
    /// An angular velocity, a frame and a handle.
    Full,
    /// Nothing, and its vectors are sent as binary32.
    Floats,
}

/// A movement record with 8 or 16 bits an axis.
pub fn movement(record: Record, width: u32) -> Bits {
    let full = record == Record::Full;
    let mut out = Bits::default();
    for flag in [false, full, full, full] {
        out.bit(flag);
    }
    vector(&mut out, record, [123_456, -98_765, 4_321], 20, true);
    for angle in [100, if width == 8 { 200 } else { 30_000 }, 0] {
        out.bit(angle != 0);
        if angle != 0 {
            out.number(angle, width);
        }
    }
    vector(&mut out, record, [600, -20, 3], 11, false);
    if full {
        vector(&mut out, record, [1, 2, -3], 4, false);
        out.packed(123_456);
        out.packed(77);
    }
    out
}

fn vector(out: &mut Bits, record: Record, components: [i64; 3], width: u32, scaled: bool) {
    if record == Record::Floats {
        out.number(0, 7);
        for c in components {
            out.number((c as f32).to_bits().into(), 32);
        }
        return;
    }
    out.number(u64::from(width) | u64::from(scaled) << 6, 7);
    for c in components {
        out.number(c as u64, width);
    }
}
