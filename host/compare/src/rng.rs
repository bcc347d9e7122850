//! A small generator of numbers (splitmix64): the same seed gives the same cases on every machine.

pub struct Rng(u64);

impl Rng {
    /// `stream` keeps the kinds apart: what one kind draws doesn't move another's cases.
    pub fn new(seed: u64, stream: u64) -> Self {
        let mut rng = Self(seed ^ stream.wrapping_mul(0xd134_2543_de82_ef95));
        rng.next();
        rng
    }

    pub fn next(&mut self) -> u64 {
        self.0 = self.0.wrapping_add(0x9e37_79b9_7f4a_7c15);
        let mut z = self.0;
        z = (z ^ (z >> 30)).wrapping_mul(0xbf58_476d_1ce4_e5b9);
        z = (z ^ (z >> 27)).wrapping_mul(0x94d0_49bb_1331_11eb);
        z ^ (z >> 31)
    }

    /// A number below `n`; the slight skew of the remainder doesn't matter here.
    pub fn below(&mut self, n: usize) -> usize {
        (self.next() % n as u64) as usize
    }

    pub fn between(&mut self, low: usize, high: usize) -> usize {
        low + self.below(high - low + 1)
    }

    /// A number of `n` bits, at most 64.
    pub fn bits(&mut self, n: u32) -> u64 {
        if n == 0 { 0 } else { self.next() >> (64 - n) }
    }

    pub fn number(&mut self) -> u32 {
        self.bits(32) as u32
    }

    /// A number of 1 to 32 bits, small ones as often as large ones.
    pub fn any_size(&mut self) -> u32 {
        let n = self.between(1, 32) as u32;
        self.bits(n) as u32
    }

    pub fn percent(&mut self, p: u32) -> bool {
        self.next() % 100 < u64::from(p)
    }

    pub fn pick<T: Copy>(&mut self, from: &[T]) -> T {
        from[self.below(from.len())]
    }
}
