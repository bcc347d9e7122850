//! Limits on their edges: 128 fields, 4,096 elements, counts about 4,096, each with every way to go on; also inside a child.
use super::put_packed;
use crate::bits::Bits;
use crate::rng::Rng;
use crate::tables::Schema;
use std::rc::Rc;
use vrf_proved::lent::NONE;

/// What may stand behind the last field or element.
const ENDS: [&[u8]; 22] = [
    &[],
    &[0],
    &[0, 0],
    &[0, 0, 0],
    &[1, 0, 0],
    &[1, 0],
    &[1],
    &[2],
    &[2, 0],
    &[2, 0, 0],
    &[3],
    &[3, 0],
    &[3, 2, 0],
    &[1, 1, 1, 1, 1],
    &[1, 1, 1, 1, 0x20],
    &[0, 0, 2],
    &[0, 0, 1],
    &[0, 0, 0, 2],
    &[0, 1, 0],
    &[1, 0, 1, 0, 0],
    &[1, 0, 3, 0],
    &[3, 0, 4, 0],
];

/// Containers are handle 5, which no field of these windows has.
pub fn nesting() -> Rc<Schema> {
    Schema::of_rows(2, 0, vec![[0, 0, 5, 0, 0], [0, 1, 5, 0, 1]], b"C".to_vec())
}

pub fn window(rng: &mut Rng, objects: bool) -> Bits {
    let mut w = match rng.below(100) {
        0..70 => fields(rng, objects),
        70..80 => elements(rng, objects),
        _ => count(rng),
    };
    w.all(rng.pick(&ENDS));
    if rng.percent(10) {
        let n = rng.between(1, 8);
        w.put(rng.next(), n);
    }
    if rng.percent(20) {
        let n = rng.below(17).min(w.len());
        w = w.opening(w.len() - n);
    }
    w
}

fn fields(rng: &mut Rng, objects: bool) -> Bits {
    let n = rng.pick(&[126, 127, 128, 128, 128, 129, 130]);
    let mut w = Bits::new();
    w.packed(rng.pick(&[1, 2]));
    for _ in 0..rng.pick(&[1, 1, 2]) {
        w.packed(1);
        for _ in 0..n {
            let width = rng.pick(&[0, 0, 0, 1, 8]);
            w.packed(rng.pick(&[1, 2, 3])).packed(width);
            let payload = if objects && width == 8 { 14 } else { rng.next() };
            w.put(payload, width as usize);
        }
        if rng.percent(30) {
            w.packed(0);
        }
    }
    w
}

fn elements(rng: &mut Rng, objects: bool) -> Bits {
    let n = rng.pick(&[4095, 4096, 4096, 4096, 4097]);
    let count = rng.pick(&[4096, 4096, 4095, 1]);
    let same = rng.percent(50);
    let mut w = Bits::new();
    w.packed(count);
    for i in 0..n {
        w.packed(if same { 1 } else { i % count + 1 });
        if i == 0 || i == n - 1 || rng.percent(1) {
            w.packed(2).packed(8).byte(if objects { 14 } else { rng.next() as u8 });
        }
        w.packed(0);
    }
    w
}

fn count(rng: &mut Rng) -> Bits {
    let mut w = Bits::new();
    let value = rng.pick(&[4095, 4096, 4097, 4098, NONE]);
    put_packed(rng, &mut w, value, 30);
    w
}

/// Inside so many containers, each at an odd bit and with a field behind it.
pub fn nested(rng: &mut Rng, inner: Bits) -> Bits {
    let mut w = inner;
    for _ in 0..rng.pick(&[1, 1, 2, 10, 11, 12]) {
        let mut out = Bits::new();
        out.packed(1).packed(1).packed(3).packed(3).put(rng.next(), 3);
        out.packed(6).packed(w.len() as u32).join(&w);
        out.packed(2).packed(8).byte(0x5a).put(0, 16);
        w = out;
    }
    w
}
