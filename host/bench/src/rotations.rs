//! Rotations: a window of them is read from its front to its end.

use crate::bits::Bits;
use crate::row::{side, Row, Sides};
use std::hint::black_box;
use vrf_bitio::BitReader;
use vrf_proved::lent::{self, Cursor};

/// Rotations in a window.
const ROTATIONS: u32 = 1_000;

/// Every axis is sent, and the angles differ from one to the next.
fn window(width: u32) -> Bits {
    let mut window = Bits::default();
    for k in 0..3 * ROTATIONS {
        window.bit(true);
        window.number((k.wrapping_mul(40_503) & ((1 << width) - 1)).into(), width);
    }
    window
}

/// The patterns of all angles, added up.
fn rust_sum(window: &Bits, width: u32) -> u32 {
    let Ok(mut reader) = BitReader::with_bit_len(&window.bytes, window.count.into()) else {
        return 0;
    };
    let mut sum = 0u32;
    for _ in 0..ROTATIONS {
        let Ok(r) = decode::decode::rotation(&mut reader, width) else {
            break;
        };
        sum = [r.pitch, r.yaw, r.roll].iter().fold(sum, |s, a| s.wrapping_add(a.to_bits()));
    }
    sum
}

/// The same through the port.
fn port_sum(window: &Bits, width: u32) -> u32 {
    let mut cursor = Cursor::over(window.count.into());
    let mut sum = 0u32;
    for _ in 0..ROTATIONS {
        let got = lent::rotation(&window.bytes, cursor, width);
        let Ok(angles) = got.result else {
            break;
        };
        sum = angles.iter().fold(sum, |s, a| s.wrapping_add(a.to_bits()));
        cursor.pos = got.position;
    }
    sum
}

fn sides(width: u32) -> Sides {
    let (window, same) = (window(width), window(width));
    assert_eq!(rust_sum(&window, width), port_sum(&window, width), "the rotations differ");
    Sides {
        units: ROTATIONS.into(),
        rust: side(move || {
            black_box(rust_sum(black_box(&window), black_box(width)));
        }),
        port: side(move || {
            black_box(port_sum(black_box(&same), black_box(width)));
        }),
    }
}

pub fn rows() -> Vec<Row> {
    let row = |width: u32| Row::new(format!("rotation, {width} bits an axis"), "rotation", move || sides(width));
    [8, 16].map(row).into()
}
