//! Arrays that follow the format, over a schema or none, and chains that nest deeply.
use super::{BAD, damage, put_packed, random_bits, random_payload};
use crate::bits::Bits;
use crate::rng::Rng;
use crate::tables::{Declared, Schema};
use vrf_proved::lent::NONE;

/// A writer of arrays. Of a hundred numbers `padded` are longer than they need be and `wrong` can't be read or say something else.
pub struct Writer<'a> {
    rng: &'a mut Rng,
    schema: &'a Schema,
    declared: Vec<u32>,
    objects: bool,
    padded: u32,
    wrong: u32,
}

impl<'a> Writer<'a> {
    pub fn new(rng: &'a mut Rng, schema: &'a Schema, declared: &Declared) -> Self {
        let padded = rng.pick(&[0, 0, 5, 30]);
        let wrong = rng.pick(&[0, 0, 0, 2, 10]);
        Self {
            rng,
            schema,
            declared: declared.handles(),
            objects: false,
            padded,
            wrong,
        }
    }

    pub fn objects(self) -> Self {
        Self { objects: true, ..self }
    }

    fn number(&mut self, out: &mut Bits, value: u32) {
        let mut value = value;
        if self.rng.percent(self.wrong) {
            match self.rng.below(4) {
                0 => {
                    out.all(self.rng.pick(&BAD));
                    return;
                }
                1 => {
                    value = self
                        .rng
                        .pick(&[0, 1, value.saturating_add(1), value.saturating_add(200), 4097, NONE])
                }
                _ => {}
            }
        }
        put_packed(self.rng, out, value, self.padded);
    }

    pub fn array(&mut self, level: u32, depth: u32, budget: usize) -> Bits {
        let mut out = Bits::new();
        let count = self.rng.pick(&[0, 1, 1, 2, 2, 3, 4, 6, 50, 127, 128, 4095, 4096]);
        let most = if depth > 0 { 3 } else { 5 };
        let elements = self.rng.pick(&[0, 1, 1, 2, 2, 3, 5]).min(most);
        self.number(&mut out, count);
        for _ in 0..if count == 0 { 0 } else { elements } {
            let index = self.rng.below(count as usize) as u32;
            self.number(&mut out, index + 1);
            let fields = self.fields(level, depth, budget / elements);
            out.join(&fields);
        }
        self.number(&mut out, 0);
        match self.rng.below(100) {
            0..10 => out.byte(0),
            10..13 => out.byte(self.rng.pick(&[1, 2, 3, 255, 0x80])),
            13..15 => out.join(&{
                let n = self.rng.between(1, 16);
                random_bits(self.rng, n)
            }),
            15 => out.put(0, 16),
            _ => &mut out,
        };
        out
    }

    fn rows(&self, level: u32, kind: u32) -> Vec<[u32; 5]> {
        self.schema.all_rows().filter(|r| r[0] == level && r[1] == kind).collect()
    }

    fn fields(&mut self, level: u32, depth: u32, budget: usize) -> Bits {
        let mut out = Bits::new();
        let n = if self.objects {
            self.rng.pick(&[0, 1, 1, 1, 1, 1, 2, 3])
        } else {
            self.rng.pick(&[0, 1, 1, 1, 2, 2, 3, 4])
        };
        let children = self.rows(level, 0);
        for _ in 0..n {
            let (handle, payload) = if !children.is_empty() && self.rng.percent(55) {
                let row = self.rng.pick(&children);
                (row[2], self.container(row[3], depth, budget / n))
            } else if self.objects {
                (self.rng.below(4) as u32, self.object())
            } else {
                (self.leaf_handle(level), random_payload(self.rng))
            };
            self.number(&mut out, handle.saturating_add(1));
            self.number(&mut out, payload.len() as u32);
            out.join(&payload);
        }
        self.number(&mut out, 0);
        out
    }

    fn container(&mut self, child: u32, depth: u32, budget: usize) -> Bits {
        match self.rng.below(10) {
            0..8 if depth < 13 && budget > 15 => self.array(child, depth + 1, budget),
            8 => Bits::new(),
            _ => random_payload(self.rng),
        }
    }

    fn object(&mut self) -> Bits {
        let mut p = Bits::new();
        match self.rng.below(10) {
            0..8 => {
                let any = self.rng.number();
                let value = self
                    .rng
                    .pick(&[0, 1, 7, 127, 128, 16_383, 16_384, 1 << 21, (1 << 28) - 1, 1 << 28, NONE, any]);
                put_packed(self.rng, &mut p, value, self.padded);
                if self.rng.percent(10) {
                    let n = self.rng.between(1, 9);
                    p.put(self.rng.next(), n);
                }
                p
            }
            8 => p,
            _ => random_payload(self.rng),
        }
    }

    fn leaf_handle(&mut self, level: u32) -> u32 {
        let mut handles = vec![
            0,
            1,
            2,
            9,
            10,
            99,
            100,
            127,
            128,
            1023,
            1024,
            16_384,
            NONE - 1,
            self.rng.number().min(NONE - 1),
        ];
        handles.extend(self.rows(level, 1).iter().map(|r| r[2]));
        handles.extend(&self.declared);
        self.rng.pick(&handles)
    }
}

/// An array over the schema, then damage; now and then bytes without any order.
pub fn window(rng: &mut Rng, schema: &Schema, declared: &Declared, objects: bool, budget: usize) -> Bits {
    if rng.percent(6) {
        return plain(rng);
    }
    let writer = Writer::new(rng, schema, declared);
    let mut writer = if objects { writer.objects() } else { writer };
    let bits = writer.array(schema.root, 0, budget);
    damage(rng, bits)
}

/// Bytes that begin an array more often than random ones do, and random ones.
fn plain(rng: &mut Rng) -> Bits {
    let n = rng.between(1, 60);
    if rng.percent(50) {
        return random_bits(rng, n * 8);
    }
    let mut b = Bits::new();
    for _ in 0..n {
        let any = rng.next() as u8;
        b.byte(rng.pick(&[0, 0, 0, 1, 2, 2, 2, 3, 4, 4, 6, 8, 16, 0x40, 0x80, 0xfe, 0xff, any]));
    }
    b.opening(rng.between(0, 8 * n))
}

/// A chain of arrays, one in the other, over a level that leads back to itself through handle 0.
pub fn chain(rng: &mut Rng) -> Bits {
    let depth = rng.pick(&[1, 5, 9, 10, 11, 11, 12, 12, 12, 13, 14]);
    let mut inner = Bits::of_bytes(&[2, 2, 4, 0x10, 0xab, 0, 0]);
    if rng.percent(30) {
        inner = random_payload(rng);
    }
    for _ in 1..depth {
        inner = link(rng, &inner);
    }
    if rng.percent(40) { damage(rng, inner) } else { inner }
}

fn link(rng: &mut Rng, inner: &Bits) -> Bits {
    let mut out = Bits::new();
    let count = rng.pick(&[1, 2, 4096]);
    put_packed(rng, &mut out, count, 5);
    for element in 0..rng.pick(&[1, 1, 1, 2]) {
        let index = rng.below(count as usize) as u32;
        put_packed(rng, &mut out, index + 1, 5);
        if rng.percent(33) {
            let payload = random_payload(rng);
            put_packed(rng, &mut out, 4, 5);
            out.packed(payload.len() as u32).join(&payload);
        }
        if element == 0 {
            let handle = rng.pick(&[1, 1, 1, 2]);
            put_packed(rng, &mut out, handle, 5);
            put_packed(rng, &mut out, inner.len() as u32, 5);
            out.join(inner);
        }
        if rng.percent(97) {
            out.packed(0);
        }
    }
    if rng.percent(97) {
        out.packed(0);
    }
    if rng.percent(10) {
        out.byte(rng.pick(&[0, 0, 1, 2]));
    }
    out
}
