//! Bit reads and packed numbers: a window is read from its front to its end, one number after the other.
//!
//! The port's read is a call across the C interface. The Rust's is compiled into the loop around it; a second row of each has it called
//! as a function too.

use crate::bits::{noise, Bits};
use crate::row::{side, Row, Sides};
use std::hint::black_box;
use vrf_bitio::BitReader;
use vrf_proved::lent::{self, Cursor, Read};

/// Bits of the window of fixed reads.
const WINDOW: u64 = 16_384;
/// Packed numbers in a window.
const NUMBERS: u64 = 1_000;

type Taken = vrf_bitio::Result<u64>;

#[inline(never)]
fn bits_called(reader: &mut BitReader<'_>, width: u32) -> Taken {
    reader.read_bits(width)
}

#[inline(never)]
fn packed_called(reader: &mut BitReader<'_>, _: u32) -> Taken {
    reader.read_int_packed().map(u64::from)
}

/// The number alone; the port says its bytes and whether it is padded too.
fn port_packed(bytes: &[u8], cursor: Cursor) -> Read<u64> {
    let read = lent::read_packed(bytes, cursor);
    Read {
        result: read.result.map(|packed| packed.value),
        position: read.position,
    }
}

/// The sum of `count` reads of a window from bit `from` on.
fn rust_sum(window: &Bits, from: u64, count: u64, width: u32, read: impl Fn(&mut BitReader<'_>, u32) -> Taken) -> u64 {
    let Ok(mut reader) = BitReader::with_bit_len(&window.bytes, window.count.into()) else {
        return 0;
    };
    if reader.skip_bits(from).is_err() {
        return 0;
    }
    let mut sum = 0u64;
    for _ in 0..count {
        let Ok(value) = read(&mut reader, width) else {
            break;
        };
        sum = sum.wrapping_add(value);
    }
    sum
}

/// The same through the port.
fn port_sum(window: &Bits, from: u64, count: u64, read: impl Fn(&[u8], Cursor) -> Read<u64>) -> u64 {
    let mut cursor = Cursor::over(window.count.into());
    cursor.pos = from;
    let mut sum = 0u64;
    for _ in 0..count {
        let got = read(&window.bytes, cursor);
        let Ok(value) = got.result else {
            break;
        };
        sum = sum.wrapping_add(value);
        cursor.pos = got.position;
    }
    sum
}

/// Both sides of reading `count` numbers from bit `from` on.
fn sides<R, P>(window: Bits, from: u64, count: u64, width: u32, rust: R, port: P) -> Sides
where
    R: Fn(&mut BitReader<'_>, u32) -> Taken + Copy + 'static,
    P: Fn(&[u8], Cursor) -> Read<u64> + Copy + 'static,
{
    assert_eq!(
        rust_sum(&window, from, count, width, rust),
        port_sum(&window, from, count, port),
        "the reads differ"
    );
    let same = window.clone();
    Sides {
        units: count,
        rust: side(move || {
            black_box(rust_sum(black_box(&window), black_box(from), count, black_box(width), rust));
        }),
        port: side(move || {
            black_box(port_sum(black_box(&same), black_box(from), count, port));
        }),
    }
}

fn fixed(width: u32, from: u64, place: &str) -> [Row; 2] {
    let count = (WINDOW - from) / u64::from(width);
    let window = || Bits {
        bytes: noise((WINDOW / 8) as usize),
        count: WINDOW as u32,
    };
    let port = move |bytes: &[u8], cursor| lent::read_bits(bytes, cursor, black_box(width).into());
    let name = format!("{width} bit{}, {place}", if width == 1 { "" } else { "s" });
    [
        Row::new(format!("{name}; Rust inlined"), "read", move || {
            sides(window(), from, count, width, |r, w| r.read_bits(w), port)
        }),
        Row::new(format!("{name}; Rust called"), "read", move || {
            sides(window(), from, count, width, bits_called, port)
        }),
    ]
}

/// A window of packed numbers of so many bytes each, behind `from` other bits.
fn packed_window(bytes: u32, from: u64) -> Bits {
    let least = if bytes == 1 { 0 } else { 1u32 << (7 * (bytes - 1)) };
    let mut window = Bits::default();
    window.number(0, from as u32);
    for k in 0..NUMBERS as u32 {
        window.packed(least + k % 100);
    }
    window
}

fn packed(bytes: u32, from: u64, place: &str) -> [Row; 2] {
    let name = format!("packed, {bytes} byte{}, {place}", if bytes == 1 { "" } else { "s" });
    let window = move || packed_window(bytes, from);
    [
        Row::new(format!("{name}; Rust inlined"), "number", move || {
            sides(window(), from, NUMBERS, 0, |r, _| r.read_int_packed().map(u64::from), port_packed)
        }),
        Row::new(format!("{name}; Rust called"), "number", move || {
            sides(window(), from, NUMBERS, 0, packed_called, port_packed)
        }),
    ]
}

pub fn rows() -> Vec<Row> {
    let mut rows = Vec::new();
    for width in [1, 7, 13, 57] {
        rows.extend(fixed(width, 0, "any bit"));
    }
    for width in [8, 32, 64] {
        rows.extend(fixed(width, 0, "aligned"));
        rows.extend(fixed(width, 3, "not aligned"));
    }
    for bytes in [1, 2, 3, 5] {
        rows.extend(packed(bytes, 0, "aligned"));
        rows.extend(packed(bytes, 3, "not aligned"));
    }
    rows
}
