//! Strings of bits, the lowest bit of a byte first, as windows are made of.

#[derive(Clone, Default, PartialEq)]
pub struct Bits {
    bytes: Vec<u8>,
    len: usize,
}

impl Bits {
    pub fn new() -> Self {
        Self::default()
    }

    pub fn of_bytes(bytes: &[u8]) -> Self {
        Self {
            bytes: bytes.to_vec(),
            len: bytes.len() * 8,
        }
    }

    pub fn len(&self) -> usize {
        self.len
    }

    /// The bytes; the last one's spare bits are 0.
    pub fn bytes(&self) -> &[u8] {
        &self.bytes
    }

    pub fn bit(&self, at: usize) -> bool {
        self.bytes[at / 8] >> (at % 8) & 1 == 1
    }

    /// The low `n` bits of `value`.
    pub fn put(&mut self, value: u64, n: usize) -> &mut Self {
        let mut left = n;
        let mut value = if n >= 64 { value } else { value & ((1 << n) - 1) };
        while left > 0 {
            let at = self.len % 8;
            if at == 0 {
                self.bytes.push(0);
            }
            let taken = left.min(8 - at);
            if let Some(last) = self.bytes.last_mut() {
                *last |= (value << at) as u8;
            }
            value >>= taken;
            self.len += taken;
            left -= taken;
        }
        self
    }

    pub fn byte(&mut self, value: u8) -> &mut Self {
        self.put(u64::from(value), 8)
    }

    pub fn all(&mut self, bytes: &[u8]) -> &mut Self {
        for b in bytes {
            self.byte(*b);
        }
        self
    }

    pub fn join(&mut self, other: &Bits) -> &mut Self {
        let whole = other.len / 8;
        if self.len.is_multiple_of(8) {
            self.bytes.extend_from_slice(&other.bytes[..whole]);
            self.len += whole * 8;
        } else {
            self.all(&other.bytes[..whole]);
        }
        if !other.len.is_multiple_of(8) {
            self.put(u64::from(other.bytes[whole]), other.len % 8);
        }
        self
    }

    /// A packed number of at least `size` bytes; more than it takes is padding.
    pub fn packed_as(&mut self, value: u32, size: usize) -> &mut Self {
        let mut n = size.max(1);
        while n < 5 && value >> (7 * n) != 0 {
            n += 1;
        }
        for i in 0..n {
            let chunk = (u64::from(value) >> (7 * i)) as u8 & 127;
            self.byte(chunk << 1 | u8::from(i + 1 < n));
        }
        self
    }

    pub fn packed(&mut self, value: u32) -> &mut Self {
        self.packed_as(value, 1)
    }

    pub fn opening(&self, len: usize) -> Self {
        let mut b = Self {
            bytes: self.bytes[..len.div_ceil(8)].to_vec(),
            len,
        };
        if !len.is_multiple_of(8)
            && let Some(last) = b.bytes.last_mut()
        {
            *last &= (1 << (len % 8)) - 1;
        }
        b
    }

    pub fn flip(&mut self, at: usize) {
        self.bytes[at / 8] ^= 1 << (at % 8);
    }

    /// The bits from `at` on.
    fn rest(&self, at: usize) -> Self {
        let (first, off) = (at / 8, at % 8);
        let byte = |i: usize| self.bytes.get(first + i).map_or(0, |b| u16::from(*b));
        let bytes = (0..(self.len - at).div_ceil(8)).map(|i| ((byte(i) | byte(i + 1) << 8) >> off) as u8);
        Self {
            bytes: bytes.collect(),
            len: self.len - at,
        }
    }

    pub fn without(&self, at: usize, n: usize) -> Self {
        let mut b = self.opening(at);
        b.join(&self.rest(at + n));
        b
    }

    pub fn with(&self, at: usize, value: u64, n: usize) -> Self {
        let mut b = self.opening(at);
        b.put(value, n);
        b.join(&self.rest(at));
        b
    }
}
