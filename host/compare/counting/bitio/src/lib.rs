//! In the place of the bit reader below the Rust's unchanged files: it counts the padded numbers that they take, and notes where each
//! payload that they copy out starts. The real reader inside answers every call.
//!
//! Where only a zero may follow, a walk reads the next number from a copy of its reader. If it takes the number, it goes on with the copy;
//! if it puts the number back, it drops the copy. So a number that a copy has read counts as soon as that copy is used again.
//!
//! A walk takes every payload, and what is left as a tail, as a reader of its own, and copies a leaf out of that. Each reader knows where
//! its first bit stands in the window that was opened, so that a copy out of a reader in a reader is noted by the same count.
use std::cell::{Cell, RefCell};
use std::ops::{Deref, DerefMut};
pub use vrf_bitio::{BitError, Result};

thread_local! {
    static PADDED: Cell<u32> = const { Cell::new(0) };
    static STARTS: RefCell<Vec<u64>> = const { RefCell::new(vec![]) };
}

/// What was seen of a reading.
pub struct Seen {
    /// How many padded numbers it took.
    pub padded: u32,
    /// Where each copy that it made starts, in bits of the window that it opened.
    pub starts: Vec<u64>,
}

/// What a reading gives, and what was seen of it.
pub fn watched<T>(reading: impl FnOnce() -> T) -> (T, Seen) {
    PADDED.set(0);
    STARTS.with_borrow_mut(Vec::clear);
    let given = reading();
    let (padded, starts) = (PADDED.get(), STARTS.take());
    (given, Seen { padded, starts })
}

#[derive(Clone, Copy, Debug)]
enum Standing {
    /// Its numbers are taken as they are read.
    InUse,
    /// A copy that has read no number.
    Copied,
    /// A copy that has read one, and whether that is padded.
    Tried(bool),
}

#[derive(Debug)]
pub struct BitReader<'a> {
    reader: vrf_bitio::BitReader<'a>,
    /// Its first bit, counted from that of the window that was opened.
    first: u64,
    standing: Cell<Standing>,
}

/// A number of several bytes is padded if those before the last hold all of its value.
fn is_padded(value: u32, bits: u64) -> bool {
    let bytes = bits / 8;
    bytes > 1 && u64::from(value) < 1 << (7 * (bytes - 1))
}

fn count(padded: bool) {
    PADDED.set(PADDED.get() + u32::from(padded));
}

impl<'a> BitReader<'a> {
    fn over(reader: vrf_bitio::BitReader<'a>, first: u64) -> Self {
        let standing = Cell::new(Standing::InUse);
        Self { reader, first, standing }
    }

    pub fn with_bit_len(data: &'a [u8], bit_len: u64) -> Result<Self> {
        vrf_bitio::BitReader::with_bit_len(data, bit_len).map(|reader| Self::over(reader, 0))
    }

    /// The next bit to read, in the window that was opened.
    fn next(&self) -> u64 {
        self.first + self.position()
    }

    pub fn sub_reader(&mut self, count: u64) -> Result<Self> {
        let first = self.next();
        self.deref_mut().sub_reader(count).map(|reader| Self::over(reader, first))
    }

    pub fn copy_bits_to(&mut self, target: &mut [u8], count: u64) -> Result<()> {
        let start = self.next();
        self.deref_mut().copy_bits_to(target, count)?;
        STARTS.with_borrow_mut(|starts| starts.push(start));
        Ok(())
    }

    pub fn read_int_packed(&mut self) -> Result<u32> {
        self.use_again();
        let start = self.reader.position();
        let value = self.reader.read_int_packed()?;
        let padded = is_padded(value, self.reader.position() - start);
        match self.standing.get() {
            Standing::Copied => self.standing.set(Standing::Tried(padded)),
            Standing::InUse | Standing::Tried(_) => count(padded),
        }
        Ok(value)
    }

    /// A copy that is used once it has read a number stands in its reader's place.
    fn use_again(&self) {
        if let Standing::Tried(padded) = self.standing.get() {
            count(padded);
            self.standing.set(Standing::InUse);
        }
    }
}

impl Clone for BitReader<'_> {
    fn clone(&self) -> Self {
        let reader = self.deref().clone();
        let (first, standing) = (self.first, Cell::new(Standing::Copied));
        Self { reader, first, standing }
    }
}

/// Every other call is a use, and is the real reader's.
impl<'a> Deref for BitReader<'a> {
    type Target = vrf_bitio::BitReader<'a>;
    fn deref(&self) -> &Self::Target {
        self.use_again();
        &self.reader
    }
}

impl DerefMut for BitReader<'_> {
    fn deref_mut(&mut self) -> &mut Self::Target {
        self.use_again();
        &mut self.reader
    }
}
