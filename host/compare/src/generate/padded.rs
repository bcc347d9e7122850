//! Arrays in which most numbers are padded, on every level, and what could be counted wrong: a value that is turned away, a number that
//! fails, one that is taken or put back behind the last field or the last element.
use super::{BAD, damage, random_bits, random_payload};
use crate::bits::Bits;
use crate::rng::Rng;
use vrf_proved::lent::NONE;

/// A writer of such arrays. Handle 0 is an array, where the schema says so.
struct Writer<'a> {
    rng: &'a mut Rng,
    objects: bool,
    /// One array in each, down to the last that may still be written.
    chain: bool,
    /// Arrays that may still be written.
    left: usize,
}

pub fn window(rng: &mut Rng, objects: bool) -> Bits {
    let chain = !objects && rng.percent(30);
    let left = if chain { rng.pick(&[1, 2, 5, 10, 11, 12, 13]) } else { 12 };
    let mut writer = Writer { rng, objects, chain, left };
    let bits = writer.array();
    if rng.percent(30) { damage(rng, bits) } else { bits }
}

impl Writer<'_> {
    fn number(&mut self, out: &mut Bits, value: u32) {
        let size = self.rng.pick(&[1, 2, 2, 3, 4, 5]);
        out.packed_as(value, size);
    }

    /// Now and then something else stands where a number is due.
    fn stops(&mut self) -> bool {
        self.rng.percent(3)
    }

    fn fails(&mut self, out: &mut Bits) -> bool {
        let fails = self.rng.percent(2);
        if fails {
            out.all(self.rng.pick(&BAD));
        }
        fails
    }

    fn rest(&mut self, out: &mut Bits) {
        let n = self.rng.below(20);
        out.join(&random_bits(self.rng, n));
    }

    fn array(&mut self) -> Bits {
        let mut out = Bits::new();
        self.left = self.left.saturating_sub(1);
        if self.fails(&mut out) {
            return out;
        }
        if self.stops() {
            let over = self.rng.pick(&[4097, 4098, NONE]);
            self.number(&mut out, over);
            self.rest(&mut out);
            return out;
        }
        let count = self.rng.pick(&[1, 1, 2, 3, 4096]);
        self.number(&mut out, count);
        if self.rng.percent(1) {
            self.every_element(&mut out);
        } else {
            let elements = if self.chain { 1 } else { self.rng.below(4) };
            for _ in 0..elements {
                self.element(&mut out, count);
            }
        }
        if !self.fails(&mut out) && !self.stops() {
            self.number(&mut out, 0);
        }
        match self.rng.below(10) {
            0 => out.byte(self.rng.pick(&[0, 0, 1, 2])),
            1 => out.all(&[1, 0]),
            _ => &mut out,
        };
        out
    }

    /// As many as are allowed; what is due behind them is padded.
    fn every_element(&mut self, out: &mut Bits) {
        for _ in 0..4096 {
            out.packed(1).packed(0);
        }
        let behind = self.rng.pick(&[0, 0, 1, 127]);
        self.number(out, behind);
    }

    fn element(&mut self, out: &mut Bits, count: u32) {
        if self.fails(out) {
            return;
        }
        let beyond = if self.stops() { count } else { 0 };
        let index = self.rng.below(count as usize) as u32;
        self.number(out, beyond + index + 1);
        if self.rng.percent(5) {
            self.every_field(out);
        } else {
            let fields = if self.chain { 1 } else { self.rng.below(4) };
            for _ in 0..fields {
                self.field(out);
            }
        }
        if !self.fails(out) && !self.stops() {
            self.number(out, 0);
        }
    }

    /// As many as are allowed, empty but the last; what is due behind them is padded.
    fn every_field(&mut self, out: &mut Bits) {
        for _ in 0..127 {
            out.packed(2).packed(0);
        }
        self.field(out);
        let behind = self.rng.pick(&[0, 0, 1, 127]);
        self.number(out, behind);
    }

    fn field(&mut self, out: &mut Bits) {
        let nested = !self.objects && self.left > 0 && (self.chain || self.rng.percent(40));
        let (handle, payload) = match (nested, self.objects) {
            (true, _) => (0, self.array()),
            (_, true) => (self.rng.below(3) as u32, self.object()),
            _ => (self.rng.pick(&[0, 1, 127, 128, 20_000]), random_payload(self.rng)),
        };
        if self.fails(out) {
            return;
        }
        self.number(out, handle + 1);
        let past = if self.stops() { self.rng.pick(&[1, 100, 100_000]) } else { 0 };
        if !self.fails(out) {
            self.number(out, payload.len() as u32 + past);
        }
        out.join(&payload);
    }

    /// A number that fills its payload or doesn't, or can't be read.
    fn object(&mut self) -> Bits {
        let mut payload = Bits::new();
        if self.rng.percent(10) || self.fails(&mut payload) {
            return payload;
        }
        let any = self.rng.any_size();
        let value = self.rng.pick(&[0, 1, 127, 128, any]);
        self.number(&mut payload, value);
        if self.rng.percent(20) {
            let n = self.rng.between(1, 9);
            payload.put(self.rng.next(), n);
        }
        payload
    }
}
