//! Movement records.

use crate::bits::Bits;
use crate::row::{alike, side, Row, Sides, Way};
use crate::windows::{self, Record};
use decode::types::{FRepMovement, RotatorQuantization, VectorQuantization};
use std::hint::black_box;
use vrf_bitio::BitReader;
use vrf_proved::lent::{self, LocationScale, Movement, Read, RotationWidth};

/// How the rotation is sent, in each side's words.
#[derive(Clone, Copy)]
struct Width {
    bits: u32,
    port: RotationWidth,
    drop_in: vrf_proved::RotatorQuantization,
    rust: RotatorQuantization,
}

const BYTES: Width = Width {
    bits: 8,
    port: RotationWidth::Eight,
    drop_in: vrf_proved::RotatorQuantization::ByteComponents,
    rust: RotatorQuantization::ByteComponents,
};
const SHORTS: Width = Width {
    bits: 16,
    port: RotationWidth::Sixteen,
    drop_in: vrf_proved::RotatorQuantization::ShortComponents,
    rust: RotatorQuantization::ShortComponents,
};

fn port(record: &Bits, width: Width) -> Read<Movement> {
    lent::movement(
        &record.bytes,
        record.count.into(),
        black_box(width.port),
        black_box(LocationScale::Hundred),
    )
}

fn drop_in(record: &Bits, width: Width) -> Option<vrf_proved::FRepMovement> {
    let location = vrf_proved::VectorQuantization::RoundTwoDecimals;
    vrf_proved::read_rep_movement(&record.bytes, record.count, black_box(width.drop_in), black_box(location)).ok()
}

fn rust(record: &Bits, width: Width) -> Option<FRepMovement> {
    let mut reader = BitReader::with_bit_len(&record.bytes, record.count.into()).ok()?;
    decode::decode::movement(&mut reader, black_box(width.rust), black_box(VectorQuantization::RoundTwoDecimals)).ok()
}

fn agree(record: &Bits, width: Width) -> bool {
    let (Some(theirs), Ok(ours), Some(owned)) = (rust(record, width), port(record, width).result, drop_in(record, width)) else {
        return false;
    };
    let vectors = [theirs.location, theirs.linear_velocity].map(|v| [v.x, v.y, v.z]) == [ours.location, ours.linear];
    let angular = theirs.angular_velocity.map(|v| [v.x, v.y, v.z]) == ours.angular;
    let r = theirs.rotation;
    let numbers = (theirs.server_frame, theirs.server_physics_handle) == (ours.frame, ours.handle);
    vectors && angular && numbers && [r.pitch, r.yaw, r.roll] == ours.rotation && alike(&owned, &theirs)
}

fn sides(record: Bits, width: Width, way: Way) -> Sides {
    assert!(agree(&record, width), "the movements differ");
    let same = record.clone();
    let rust = side(move || {
        black_box(rust(black_box(&same), width));
    });
    let port = match way {
        Way::DropIn => side(move || {
            black_box(drop_in(black_box(&record), width));
        }),
        _ => side(move || {
            let _ = black_box(port(black_box(&record), width));
        }),
    };
    Sides { units: 1, rust, port }
}

pub fn rows() -> Vec<Row> {
    let kinds = [
        (Record::Plain, "plain", SHORTS, Way::Lent),
        (Record::Plain, "plain", SHORTS, Way::DropIn),
        (Record::Full, "all parts", SHORTS, Way::Lent),
        (Record::Floats, "vectors as binary32", SHORTS, Way::Lent),
        (Record::Plain, "byte angles", BYTES, Way::Lent),
        (Record::Plain, "byte angles", BYTES, Way::DropIn),
    ];
    let row = |(kind, name, width, way): (Record, &str, Width, Way)| {
        let record = windows::movement(kind, width.bits);
        Row::new(
            format!("movement, {name}, {} bits{}", record.count, way.told()),
            "record",
            move || sides(record.clone(), width, way),
        )
    };
    kinds.into_iter().map(row).collect()
}
