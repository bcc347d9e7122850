//! A drop-in `vrf_bitio` for the UNCHANGED array.rs that records, besides, every
//! packed number read (bit position in the root window, bits, value, padded?) and
//! the start bit of each leaf. Everything is answered by the real reader within.
use std::cell::RefCell;
pub use vrf_bitio::{BitError, Result};

#[derive(Debug, Clone, Default)]
pub struct Trace {
    /// (start bit, bits used, value) of every number taken, in order.
    pub numbers: Vec<(u64, u64, u32)>,
    /// Of those: longer than needed.
    pub padded: u64,
    /// Start bit of each copy (= of each leaf).
    pub starts: Vec<u64>,
}

thread_local!(pub static TRACE: RefCell<Trace> = RefCell::new(Trace::default()));

pub fn take() -> Trace {
    TRACE.with(|t| std::mem::take(&mut *t.borrow_mut()))
}

#[derive(Debug)]
pub struct BitReader<'a> {
    inner: vrf_bitio::BitReader<'a>,
    base: u64,
    /// A clone is array.rs's probe: it is put in the reader's place exactly if it read 0.
    probe: bool,
}

impl Clone for BitReader<'_> {
    fn clone(&self) -> Self {
        Self {
            inner: self.inner.clone(),
            base: self.base,
            probe: true,
        }
    }
}

fn needed(v: u32) -> u64 {
    let mut n = 1;
    while n < 5 && v >> (7 * n) != 0 {
        n += 1;
    }
    n
}

impl<'a> BitReader<'a> {
    pub fn with_bit_len(data: &'a [u8], bit_len: u64) -> Result<Self> {
        Ok(Self {
            inner: vrf_bitio::BitReader::with_bit_len(data, bit_len)?,
            base: 0,
            probe: false,
        })
    }
    pub fn bits_remaining(&self) -> u64 {
        self.inner.bits_remaining()
    }
    pub fn at_end(&self) -> bool {
        self.inner.at_end()
    }
    pub fn skip_remaining(&mut self) {
        self.inner.skip_remaining()
    }
    pub fn read_int_packed(&mut self) -> Result<u32> {
        let start = self.inner.position();
        let v = self.inner.read_int_packed()?;
        if self.probe && v != 0 {
            return Ok(v); // put back
        }
        self.probe = false;
        let bits = self.inner.position() - start;
        TRACE.with(|t| {
            let mut t = t.borrow_mut();
            t.numbers.push((self.base + start, bits, v));
            t.padded += u64::from(bits / 8 > needed(v));
        });
        Ok(v)
    }
    // for fastarray.rs
    pub fn read_bit(&mut self) -> Result<bool> {
        self.inner.read_bit()
    }
    pub fn read_i32(&mut self) -> Result<i32> {
        self.inner.read_i32()
    }
    pub fn skip_bits(&mut self, n: u64) -> Result<()> {
        self.inner.skip_bits(n)
    }
    pub fn position(&self) -> u64 {
        self.inner.position()
    }
    pub fn sub_reader(&mut self, count: u64) -> Result<BitReader<'a>> {
        let base = self.base + self.inner.position();
        Ok(BitReader {
            inner: self.inner.sub_reader(count)?,
            base,
            probe: false,
        })
    }
    pub fn copy_bits_to(&mut self, dst: &mut [u8], count: u64) -> Result<()> {
        let at = self.base + self.inner.position();
        TRACE.with(|t| t.borrow_mut().starts.push(at));
        self.inner.copy_bits_to(dst, count)
    }
}
