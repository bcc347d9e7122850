//! Writes bit strings: the first bit lowest, numbers packed by sevens.

/// A bit string, in bytes.
#[derive(Clone, Default)]
pub struct Bits {
    pub bytes: Vec<u8>,
    pub count: u32,
}

impl Bits {
    pub fn bit(&mut self, bit: bool) {
        if self.count as usize == 8 * self.bytes.len() {
            self.bytes.push(0);
        }
        if let Some(last) = self.bytes.last_mut() {
            *last |= u8::from(bit) << (self.count % 8);
        }
        self.count += 1;
    }

    /// The low `width` bits of `value`.
    pub fn number(&mut self, value: u64, width: u32) {
        for k in 0..width {
            self.bit(value >> k & 1 == 1);
        }
    }

    pub fn packed(&mut self, value: u32) {
        let mut rest = value;
        loop {
            let more = rest >> 7 != 0;
            self.number(u64::from(rest & 127) << 1 | u64::from(more), 8);
            rest >>= 7;
            if !more {
                return;
            }
        }
    }

    pub fn append(&mut self, other: &Bits) {
        for k in 0..other.count {
            self.bit(other.bytes[(k / 8) as usize] >> (k % 8) & 1 == 1);
        }
    }

    /// A field: handle, width, payload.
    pub fn field(&mut self, handle: u32, payload: &Bits) {
        self.packed(handle + 1);
        self.packed(payload.count);
        self.append(payload);
    }

    /// A field whose payload is the low `width` bits of `value`.
    pub fn leaf(&mut self, handle: u32, value: u64, width: u32) {
        let mut payload = Bits::default();
        payload.number(value, width);
        self.field(handle, &payload);
    }
}

/// An array of these elements, closed.
pub fn array(elements: impl IntoIterator<Item = Bits>) -> Bits {
    let elements: Vec<Bits> = elements.into_iter().collect();
    let mut out = Bits::default();
    out.packed(elements.len() as u32);
    for (index, element) in (0..).zip(&elements) {
        out.packed(index + 1);
        out.append(element);
        out.packed(0);
    }
    out.packed(0);
    out
}

/// An element with these leaves: handle, value, width.
pub fn element(leaves: &[(u32, u64, u32)]) -> Bits {
    let mut out = Bits::default();
    for &(handle, value, width) in leaves {
        out.leaf(handle, value, width);
    }
    out
}

/// `count` bytes that look like noise, the same in each run.
pub fn noise(count: usize) -> Vec<u8> {
    let mut state: u64 = 0x9e37_79b9_7f4a_7c15;
    let mut next = || {
        state ^= state << 13;
        state ^= state >> 7;
        state ^= state << 17;
        (state >> 32) as u8
    };
    (0..count).map(|_| next()).collect()
}
