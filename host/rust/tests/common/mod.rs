//! Windows for the tests: written bit by bit, or drawn at random.
#![allow(dead_code)]

use vrf_proved::{ArrayDecodeStats, ArrayFieldSchema};

/// One element with one field: handle 1, the byte AB.
pub const A: [u8; 7] = [0x02, 0x02, 0x04, 0x10, 0xab, 0x00, 0x00];

/// Counters in their order.
pub fn stats(counters: [u64; 7]) -> ArrayDecodeStats {
    let [elements_decoded, fields_emitted, truncations, errors, unconsumed_nested_bits, unconsumed_root_bits, implicit_terminations] =
        counters;
    ArrayDecodeStats {
        elements_decoded,
        fields_emitted,
        truncations,
        errors,
        unconsumed_nested_bits,
        unconsumed_root_bits,
        implicit_terminations,
    }
}

/// A window that is being written, the first bit lowest.
#[derive(Debug, Clone, Default)]
pub struct Window {
    pub bytes: Vec<u8>,
    pub bits: u32,
}

impl Window {
    pub fn push(&mut self, value: u64, count: u32) {
        for bit in 0..count {
            if self.bits % 8 == 0 {
                self.bytes.push(0);
            }
            let last = self.bytes.len() - 1;
            self.bytes[last] |= ((value >> bit & 1) as u8) << (self.bits % 8);
            self.bits += 1;
        }
    }

    pub fn packed(&mut self, value: u32) {
        self.padded(value, 1);
    }

    /// A packed number in `size` bytes, or in as many as it needs where these are more.
    pub fn padded(&mut self, mut value: u32, size: u32) {
        let mut bytes = 1;
        while value > 127 || bytes < size {
            self.push(u64::from(value & 127) << 1 | 1, 8);
            value >>= 7;
            bytes += 1;
        }
        self.push(u64::from(value) << 1, 8);
    }

    /// A field's handle, width and payload.
    pub fn field(&mut self, handle: u32, payload: &Window) {
        self.padded_field(handle, payload, 1);
    }

    /// The same, with handle and width in `size` bytes each.
    pub fn padded_field(&mut self, handle: u32, payload: &Window, size: u32) {
        self.padded(handle + 1, size);
        self.padded(payload.bits, size);
        self.window(payload);
    }

    pub fn window(&mut self, other: &Window) {
        for bit in 0..other.bits {
            self.push(u64::from(other.bytes[bit as usize / 8] >> (bit % 8)), 1);
        }
    }

    pub fn of(value: u64, count: u32) -> Self {
        let mut window = Self::default();
        window.push(value, count);
        window
    }

    /// An array of elements that each hold the given fields, closed by its zeros.
    pub fn array(elements: &[Vec<(u32, Window)>]) -> Self {
        Self::padded_array(elements, 1)
    }

    /// The same, with the count and the indices in `size` bytes each.
    pub fn padded_array(elements: &[Vec<(u32, Window)>], size: u32) -> Self {
        let mut window = Self::default();
        window.padded(elements.len() as u32, size);
        for (index, fields) in elements.iter().enumerate() {
            window.padded(index as u32 + 1, size);
            for (handle, payload) in fields {
                window.field(*handle, payload);
            }
            window.packed(0);
        }
        window.packed(0);
        window
    }
}

/// Splitmix64.
pub struct Random(pub u64);

impl Random {
    pub fn next(&mut self) -> u64 {
        self.0 = self.0.wrapping_add(0x9e37_79b9_7f4a_7c15);
        let mut z = self.0;
        z = (z ^ (z >> 30)).wrapping_mul(0xbf58_476d_1ce4_e5b9);
        z = (z ^ (z >> 27)).wrapping_mul(0x94d0_49bb_1331_11eb);
        z ^ (z >> 31)
    }

    pub fn below(&mut self, bound: u64) -> u64 {
        self.next() % bound
    }

    /// An array of a schema's elements, with up to `depth` more levels of the arrays that the schema names.
    pub fn array(&mut self, schema: &ArrayFieldSchema, depth: u32) -> Window {
        let elements: Vec<_> = (0..self.below(4)).map(|_| self.element(schema, depth)).collect();
        let mut window = Window::array(&elements);
        if self.below(8) == 0 {
            window.push(0, 8);
        }
        window
    }

    fn element(&mut self, schema: &ArrayFieldSchema, depth: u32) -> Vec<(u32, Window)> {
        (0..self.below(4)).map(|_| self.field(schema, depth)).collect()
    }

    fn field(&mut self, schema: &ArrayFieldSchema, depth: u32) -> (u32, Window) {
        let arrays = schema.sub_arrays;
        if depth > 0 && !arrays.is_empty() && self.below(3) > 0 {
            let (handle, child) = arrays[self.below(arrays.len() as u64) as usize];
            return (handle, self.array(child, depth - 1));
        }
        let width = self.below(30) as u32;
        (self.below(90) as u32, Window::of(self.next(), width))
    }

    /// Flips some bits, or cuts the window, or leaves it alone.
    pub fn damaged(&mut self, mut window: Window) -> Window {
        match self.below(3) {
            0 => {
                for _ in 0..=self.below(3) {
                    let bit = self.below(u64::from(window.bits)) as usize;
                    window.bytes[bit / 8] ^= 1 << (bit % 8);
                }
            }
            1 => window.bits = self.below(u64::from(window.bits)) as u32,
            _ => {}
        }
        window
    }
}
