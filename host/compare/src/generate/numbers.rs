//! Single reads and movement: vectors of every width, ties of the conversion to binary64, floats on their edges, cuts.
use super::{BAD, damage, put_packed, random_bits};
use crate::bits::Bits;
use crate::movement::{MovementCase, SCALES, WIDTHS};
use crate::read::{ReadCase, What};
use crate::rng::Rng;
use crate::window::Window;
use vrf_proved::lent::NONE;

#[rustfmt::skip]
const SINGLES: [u32; 17] = [
    0, 0x8000_0000, 1, 0x8000_0001, 0x7f_ffff, 0x807f_ffff, 0x40_0000, 0x80_0000, 0x3f80_0000, 0xbf80_0000, 0x7f7f_ffff, 0xff7f_ffff,
    0x7f80_0000, 0xff80_0000, 0x7fc0_0000, 0x7f80_0001, 0xffc1_2345,
];
#[rustfmt::skip]
const DOUBLES: [u64; 14] = [
    0, 1 << 63, 1, 1 << 63 | 1, (1 << 52) - 1, 1 << 52, 0x3ff0_0000_0000_0000, 0xbff0_0000_0000_0000, 0x7fef_ffff_ffff_ffff,
    0xffef_ffff_ffff_ffff, 0x7ff0_0000_0000_0000, 0xfff0_0000_0000_0000, 0x7ff8_0000_0000_0000, 0x7ff0_0000_0000_0001,
];
#[rustfmt::skip]
const VECTOR_SCALES: [u32; 16] = [
    1, 1, 1, 10, 10, 100, 100, 2, 3, 7, 1000, 32_767, 65_536, (1 << 24) + 1, 1 << 31, NONE,
];

#[rustfmt::skip]
const MAXIMA: [u32; 19] = [
    0, 1, 2, 3, 4, 5, 7, 8, 9, 127, 128, 129, 65_535, 65_536, 65_537, (1 << 31) - 1, 1 << 31, (1 << 31) + 1, NONE,
];
#[rustfmt::skip]
const PACKED: [u32; 11] = [
    0, 1, 127, 128, 16_383, 16_384, (1 << 21) - 1, 1 << 21, (1 << 28) - 1, 1 << 28, NONE,
];

/// A window around a read: bits before it, a cut or bits behind it, and half of the time a start inside its bytes.
fn framed(rng: &mut Rng, what: What, read: &Bits) -> ReadCase {
    let skip = rng.pick(&[0, 0, 1, 2, 3, 4, 5, 6, 7, 8, 13]);
    let mut w = random_bits(rng, skip);
    w.join(read);
    if rng.percent(15) {
        let n = rng.between(skip, w.len());
        w = w.opening(n);
    } else if rng.percent(50) {
        let n = rng.below(71);
        let more = random_bits(rng, n);
        w.join(&more);
    }
    let bits = w.len() as u32;
    let start = if rng.percent(50) { rng.between(1, 80) } else { 0 };
    let mut whole = random_bits(rng, start);
    whole.join(&w);
    let window = Window {
        bits,
        ..Window::around(rng, &whole)
    };
    ReadCase {
        what,
        start: start as u64,
        skip: skip as u64,
        window,
    }
}

/// Now and then the window reaches past its bytes.
fn or_past(rng: &mut Rng, case: ReadCase) -> ReadCase {
    if !rng.percent(2) {
        return case;
    }
    ReadCase {
        start: 0,
        skip: 0,
        window: Window::past(rng),
        ..case
    }
}

fn component(rng: &mut Rng, width: u32) -> u64 {
    let top = 1u64 << (width - 1);
    match rng.below(100) {
        0..25 => rng.pick(&[0, 1, 2 * (top - 1) + 1, top, top - 1, top + 1]),
        // 53 bits, then a one, then few: next to a tie
        25..40 if width > 54 => {
            let head = (rng.bits(53) | 1 << 52) << (width - 54);
            let half = 1u64 << (width - 55);
            head.wrapping_add(rng.pick(&[0, 1, u64::MAX, half, half.wrapping_sub(1), half + 1]))
        }
        _ => rng.bits(width),
    }
}

/// A quantized vector; its width and flag drawn where they aren't given.
pub fn put_vector(rng: &mut Rng, w: &mut Bits, width: Option<u32>, flag: Option<u32>) {
    let width = width.unwrap_or_else(|| rng.below(64) as u32);
    let flag = flag.unwrap_or_else(|| rng.below(2) as u32);
    w.put(u64::from(width | flag << 6), 7);
    for _ in 0..3 {
        let edge = rng.percent(30);
        match (width, flag) {
            (0, 0) => w.put(if edge { rng.pick(&SINGLES).into() } else { rng.next() & !(1 << 30) }, 32),
            (0, _) => w.put(if edge { rng.pick(&DOUBLES) } else { rng.next() & !(1 << 62) }, 64),
            _ => w.put(component(rng, width), width as usize),
        };
    }
}

pub fn vector(rng: &mut Rng) -> ReadCase {
    let scale = match rng.below(100) {
        0 => 0,
        1..80 => rng.pick(&VECTOR_SCALES),
        _ => rng.number().max(1),
    };
    let width = match rng.below(100) {
        0..15 => Some(0),
        15..25 => Some(rng.pick(&[21, 22])),
        _ => None,
    };
    let mut w = Bits::new();
    put_vector(rng, &mut w, width, None);
    let case = framed(rng, What::Vector { scale }, &w);
    or_past(rng, case)
}

pub fn normal(rng: &mut Rng) -> ReadCase {
    let mut w = Bits::new();
    for _ in 0..3 {
        let any = rng.bits(16);
        w.put(rng.pick(&[0, 1, 32_767, 32_768, 32_769, 65_535, any, any, any]), 16);
    }
    let case = framed(rng, What::Normal, &w);
    or_past(rng, case)
}

fn put_rotation(rng: &mut Rng, w: &mut Bits, width: u32) {
    for _ in 0..3 {
        let sent = rng.percent(65);
        w.put(sent.into(), 1);
        if sent {
            let any = rng.bits(width);
            w.put(rng.pick(&[0, 1, (1 << width) - 1, any, any, any]), width as usize);
        }
    }
}

pub fn rotation(rng: &mut Rng) -> ReadCase {
    let width = rng.pick(&[8, 16]);
    let mut w = Bits::new();
    put_rotation(rng, &mut w, width);
    let case = framed(rng, What::Rotation { width }, &w);
    or_past(rng, case)
}

pub fn packed(rng: &mut Rng) -> ReadCase {
    let mut w = Bits::new();
    match rng.below(10) {
        0..6 => {
            let value = if rng.percent(75) { rng.pick(&PACKED) } else { rng.any_size() };
            put_packed(rng, &mut w, value, 40);
        }
        6..8 => {
            w.all(rng.pick(&BAD));
        }
        _ => {
            for _ in 0..5 {
                let next = u8::from(rng.percent(60));
                w.byte(rng.next() as u8 | next);
            }
        }
    }
    let case = framed(rng, What::Packed, &w);
    or_past(rng, case)
}

pub fn serialized(rng: &mut Rng) -> ReadCase {
    let maximum = if rng.percent(80) { rng.pick(&MAXIMA) } else { rng.any_size() };
    let low = maximum.checked_ilog2().unwrap_or(0);
    let left = maximum.saturating_sub(1 << low);
    let any = rng.next();
    let value = rng.pick(&[
        any,
        any,
        maximum.saturating_sub(1).into(),
        maximum.into(),
        left.into(),
        left.saturating_sub(1).into(),
    ]);
    let mut w = Bits::new();
    w.put(value, low as usize + 1);
    let case = framed(rng, What::Serialized { maximum }, &w);
    or_past(rng, case)
}

pub fn bits(rng: &mut Rng) -> ReadCase {
    let count = rng.below(65) as u32;
    let w = random_bits(rng, count as usize);
    let case = framed(rng, What::Bits { count }, &w);
    or_past(rng, case)
}

pub fn copy(rng: &mut Rng) -> ReadCase {
    let any = if rng.percent(2) { rng.below(20_000) } else { rng.below(400) };
    let count = rng.pick(&[0, 1, 7, 8, 9, 63, 64, 65, 127, 128, 129, 200, any, any, any, any]);
    let bytes = count.div_ceil(8);
    let room = rng.pick(&[bytes.saturating_sub(1), bytes, bytes, bytes, bytes + 1, bytes + 5]);
    let w = random_bits(rng, count);
    let what = What::Copy { count: count as u64, room };
    let case = framed(rng, what, &w);
    or_past(rng, case)
}

pub fn movement(rng: &mut Rng) -> MovementCase {
    let (scale, width) = (rng.pick(&SCALES), rng.pick(&WIDTHS));
    let mut w = Bits::new();
    let flags = rng.bits(4);
    w.put(flags, 4);
    let vector = |rng: &mut Rng, w: &mut Bits| {
        let width = match rng.below(100) {
            0..60 => Some(rng.between(1, 24) as u32),
            60..75 => Some(0),
            _ => None,
        };
        put_vector(rng, w, width, None);
    };
    vector(rng, &mut w);
    put_rotation(rng, &mut w, [8, 16][width as usize]);
    vector(rng, &mut w);
    if flags & 2 != 0 {
        vector(rng, &mut w);
    }
    for _ in 0..(flags >> 2).count_ones() {
        if rng.percent(5) {
            w.all(rng.pick(&BAD));
        } else {
            let any = rng.number();
            let value = rng.pick(&[0, 1, 127, 128, NONE, any]);
            put_packed(rng, &mut w, value, 20);
        }
    }
    if rng.percent(40) {
        w = damage(rng, w);
    }
    let window = if rng.percent(1) {
        Window::past(rng)
    } else {
        Window::around(rng, &w)
    };
    MovementCase { scale, width, window }
}
