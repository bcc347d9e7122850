//! The port's own interface: the caller lends every buffer, and a refused call says its number and has written nothing.
//!
//! Every function here is total: any bytes, any bit count, any tables get an answer. The answers, and what stands in the
//! lent buffers afterwards, are those of the proved definitions (crates/exports/src/lib.rt holds the contracts).
//!
//! ```
//! use vrf_proved::lent::{self, Buffers, Tables, Verdict, LEAF_WORDS};
//!
//! // one element with one field: handle 1, the byte AB
//! let bytes = [0x02, 0x02, 0x04, 0x10, 0xab, 0x00, 0x00];
//! let (mut leaves, mut paths, mut payloads) = ([0; LEAF_WORDS], [0; 7], [0; 1]);
//! let lent = Buffers { leaves: &mut leaves, paths: &mut paths, payloads: &mut payloads };
//! let walk = lent::struct_array(&bytes, 56, Tables::NONE, lent)?;
//! assert_eq!((walk.leaves, walk.verdict), (1, Verdict::Clean));
//! assert_eq!((&paths, payloads), (b"[0]._h1", [0xab]));
//!
//! // lent too little, it says what it needs and writes nothing
//! let refused = lent::struct_array(&bytes, 56, Tables::NONE, Buffers::default()).unwrap_err();
//! assert_eq!((refused.number, refused.values), (3, [1, 7, 1]));
//! # Ok::<(), lent::Refusal>(())
//! ```
//!
//! # Padded numbers
//!
//! A packed number is padded if it takes more bytes than its value needs: `01 00` for zero. It is accepted everywhere, and every answer
//! tells: a [`Packed`] its bytes and whether there is a shorter form, the others how many padded numbers were read. For a box it means that
//! the recorder which wrote the window uses long forms. Nothing is damaged or missing by that; no counter and no verdict asks whether a
//! number is padded. A number counts once it is read, in every level, also where its value is then turned away; one that can't be read
//! doesn't count, nor does one that a walk puts back behind the last element or field that it takes.
//!
//! ```
//! use vrf_proved::lent::{self, Buffers, Tables, Verdict};
//!
//! // no elements: the count and the closing zero, then both of them padded
//! for (bytes, padded) in [(&[0x00, 0x00][..], 0), (&[0x01, 0x00, 0x01, 0x01, 0x00], 2)] {
//!     let walk = lent::struct_array(bytes, 8 * bytes.len() as u32, Tables::NONE, Buffers::default())?;
//!     assert_eq!((walk.verdict, walk.padded), (Verdict::Clean, padded));
//! }
//! # Ok::<(), lent::Refusal>(())
//! ```

use crate::raw;
use crate::stats::ArrayDecodeStats;
use std::fmt;

/// The longest window that is walked or opened, in bits.
pub const LONGEST_WINDOW: u32 = 524_288;
/// No leaf's path has more bytes: so many for each leaf are room for all paths.
pub const LONGEST_PATH: usize = raw::LONGEST_PATH;
/// A root that means no schema; the start of a declared name, with length 0, that means none; the handle of a kept tail; in C the
/// answer for a number that is no byte, where [`byte_angle_steps`] gives `None`.
pub const NONE: u32 = raw::NONE;
/// Numbers in a leaf: path start, path length, handle, bits, payload start, window start. The first counts bytes of [`Buffers::paths`],
/// the fifth bytes of [`Buffers::payloads`], and the last bits of the walked window: where the payload starts there, counted from the
/// window's first bit also for a leaf of an array in an array. A leaf without payload starts behind its width. A kept tail starts behind
/// the count if that is above 4,096; behind 128 fields or 4,096 elements it starts with the number that is one too many, which is part of
/// the tail.
pub const LEAF_WORDS: usize = raw::LEAF_WORDS;
/// Numbers in a pair: index, object.
pub const PAIR_WORDS: usize = raw::PAIR_WORDS;
/// Numbers in a changed item: the bits of its id, its number of fields.
pub const ITEM_WORDS: usize = raw::ITEM_WORDS;
/// Numbers in a field of a changed item: handle, first bit of its payload, width.
pub const FIELD_WORDS: usize = raw::FIELD_WORDS;
/// Numbers that [`schema`] fills.
pub const SCHEMA_ROWS: usize = 170;
/// Bytes that [`schema`] fills.
pub const SCHEMA_NAMES: usize = 187;

/// Why a call was refused: the number, and the values that come with it (docs/REFUSALS.md lists both). A refused call has
/// written to no buffer.
#[derive(Debug, Clone, Copy, PartialEq, Eq)]
#[must_use]
pub struct Refusal {
    /// 1 to 14: one of the constants of this type.
    pub number: u32,
    /// What the number names, in its order; 0 where it names nothing. Of number 3: what each lent buffer needs, in records or bytes. Of
    /// number 4, which names seven counters: 0; [`RefusedMerge`] has them.
    pub values: [u64; 3],
}

impl Refusal {
    /// A bit count over 524,288.
    pub const TOO_LONG: u32 = 1;
    /// A schema or the declared names aren't laid out as they have to be, or pass a size, or the root isn't one of the levels.
    pub const BROKEN_TABLES: u32 = 2;
    /// A lent buffer is too short.
    pub const SHORT_BUFFER: u32 = 3;
    /// A sum of two counters is over 2^64 - 1.
    pub const COUNTER_OVERFLOW: u32 = 4;
    /// The bits aren't a fast-array body, or the bytes aren't as many as the bits take.
    pub const NOT_FAST_ARRAY: u32 = 6;
    /// A read asks more bits than the window has left.
    pub const TOO_FEW_BITS: u32 = 7;
    /// A packed number's fifth byte says that another follows.
    pub const NUMBER_GOES_ON: u32 = 8;
    /// A packed number's fifth byte holds more than 15.
    pub const NUMBER_TOO_LARGE: u32 = 9;
    /// A serialized integer is asked with maximum 0.
    pub const NO_MAXIMUM: u32 = 10;
    /// A vector is asked with scale 0.
    pub const NO_SCALE: u32 = 11;
    /// A vector's component is a NaN or infinite.
    pub const NOT_FINITE: u32 = 12;
    /// More than 64 bits are asked in one read, or a rotation's width is neither 8 nor 16.
    pub const NO_SUCH_WIDTH: u32 = 13;
    /// A reader or a movement has more bits than its bytes hold, a cursor passes its window or bytes, or a copy's target is too short.
    pub const PAST_THE_END: u32 = 14;

    fn of(number: u32, values: [u64; 3]) -> Self {
        Self { number, values }
    }

    /// What the number means, in the words of docs/REFUSALS.md.
    #[must_use]
    pub fn meaning(&self) -> &'static str {
        match self.number {
            Self::TOO_LONG => "a bit count over 524,288",
            Self::BROKEN_TABLES => "a schema or the declared names aren't laid out as they have to be, or pass a size, or the root isn't one of the levels",
            Self::SHORT_BUFFER => "a lent buffer is too short",
            Self::COUNTER_OVERFLOW => "a sum of two counters is over 2^64 - 1",
            Self::NOT_FAST_ARRAY => "the bits aren't a fast-array body, or the bytes aren't as many as the bits take",
            Self::TOO_FEW_BITS => "a read asks more bits than the window has left",
            Self::NUMBER_GOES_ON => "a packed number's fifth byte says that another follows",
            Self::NUMBER_TOO_LARGE => "a packed number's fifth byte holds more than 15",
            Self::NO_MAXIMUM => "a serialized integer is asked with maximum 0",
            Self::NO_SCALE => "a vector is asked with scale 0",
            Self::NOT_FINITE => "a vector's component is a NaN or infinite",
            Self::NO_SUCH_WIDTH => "more than 64 bits are asked in one read, or a rotation's width is neither 8 nor 16",
            Self::PAST_THE_END => "a reader or a movement has more bits than its bytes hold, a cursor passes its window or bytes, or a copy's target is too short",
            _ => "a number that no refusal has",
        }
    }
}

impl fmt::Display for Refusal {
    fn fmt(&self, f: &mut fmt::Formatter<'_>) -> fmt::Result {
        let [a, b, c] = self.values;
        write!(f, "refusal {}: {}", self.number, self.meaning())?;
        match self.number {
            Self::SHORT_BUFFER => write!(f, ": needed {a}, {b}, {c}"),
            Self::TOO_FEW_BITS => write!(f, ": {c} bits at bit {a} of {b}"),
            Self::NUMBER_GOES_ON | Self::NUMBER_TOO_LARGE => write!(f, ": the number at bit {a}"),
            Self::PAST_THE_END => write!(f, ": {a} bits of {b}"),
            _ => Ok(()),
        }
    }
}

impl std::error::Error for Refusal {}

/// What a walk's window is worth. A sheet has a row for a clean window, a marked one for a partial, and none for an empty.
#[derive(Debug, Clone, Copy, PartialEq, Eq)]
#[must_use]
pub enum Verdict {
    /// All of it was read, as one whole array: it has bits, and the last five counters are 0.
    Clean,
    /// Something is broken, cut off, over a limit or left unread; the last five counters say which.
    Partial,
    /// Nothing was sent: a struct or exact walk of no bits. A round in which nothing happened is another thing: an array of no elements,
    /// which has bits and is clean.
    Empty,
}

#[inline]
fn verdict_of(number: u32) -> Verdict {
    match number {
        0 => Verdict::Clean,
        2 => Verdict::Empty,
        _ => Verdict::Partial,
    }
}

// ---- walks

/// The schema and the declared names of a struct walk.
#[derive(Debug, Clone, Copy)]
pub struct Tables<'a> {
    /// The schema, five numbers a row: level, kind (0 array, 1 name), handle, then child level and 0, or a name's start and length.
    pub rows: &'a [u32],
    /// How many levels the schema has.
    pub levels: u32,
    /// The level of the outermost elements, or [`NONE`].
    pub root: u32,
    /// The bytes that names of rows lie in.
    pub names: &'a [u8],
    /// For each handle the start and the length of its name in `declared_names`; [`NONE`] and 0 for no name.
    pub declared: &'a [u32],
    /// The bytes that declared names lie in.
    pub declared_names: &'a [u8],
}

impl Tables<'_> {
    /// No schema and no declared names.
    pub const NONE: Tables<'static> = Tables {
        rows: &[],
        levels: 0,
        root: NONE,
        names: &[],
        declared: &[],
        declared_names: &[],
    };
}

/// The buffers that a struct or exact walk fills from their front.
#[derive(Debug, Default)]
pub struct Buffers<'a> {
    /// [`LEAF_WORDS`] numbers a leaf, in the order given there.
    pub leaves: &'a mut [u32],
    /// Paths, one behind the other; none has more than [`LONGEST_PATH`] bytes.
    pub paths: &'a mut [u8],
    /// Payloads, one behind the other, each of whole bytes with its spare bits 0.
    pub payloads: &'a mut [u8],
}

/// An accepted struct or exact walk: how much of each buffer is filled, and what was counted.
#[derive(Debug, Clone, PartialEq, Eq)]
#[must_use]
pub struct Walk {
    /// Leaves, of [`LEAF_WORDS`] numbers each.
    pub leaves: usize,
    /// Bytes of paths.
    pub path_bytes: usize,
    /// Bytes of payloads.
    pub payload_bytes: usize,
    /// What the walk counted, from zero.
    pub counters: ArrayDecodeStats,
    /// Clean, partial or, of no bits, empty.
    pub verdict: Verdict,
    /// How many padded numbers were read, children's among them.
    pub padded: u32,
}

/// An accepted object walk.
#[derive(Debug, Clone, PartialEq, Eq)]
#[must_use]
pub struct Objects {
    /// Pairs, of [`PAIR_WORDS`] numbers each.
    pub pairs: usize,
    /// What the walk counted, from zero.
    pub counters: ArrayDecodeStats,
    /// Clean or partial; of no bits it is partial, with one error.
    pub verdict: Verdict,
    /// How many padded numbers were read, the objects among them.
    pub padded: u32,
}

#[inline]
fn walk_of(w: raw::VrfWalk) -> Result<Walk, Refusal> {
    let extent = [w.leaves, w.path_bytes, w.payload_bytes];
    if w.refusal != 0 {
        return Err(Refusal::of(w.refusal, extent.map(u64::from)));
    }
    Ok(Walk {
        leaves: w.leaves as usize,
        path_bytes: w.path_bytes as usize,
        payload_bytes: w.payload_bytes as usize,
        counters: w.counters.into(),
        verdict: verdict_of(w.verdict),
        padded: w.padded,
    })
}

/// The array of structs in the first `bits` bits, taken apart into leaves. Refusals: 1, 2, 3, in this order.
///
/// ```
/// # use vrf_proved::lent::{self, Buffers, Tables};
/// // one round with one report, whose field 1 holds the byte AB
/// let bytes = [0x02, 0x02, 0x0a, 0x70, 0x02, 0x02, 0x04, 0x10, 0xab, 0x00, 0x00, 0x00, 0x00];
/// let (mut rows, mut names) = ([0; lent::SCHEMA_ROWS], [0; lent::SCHEMA_NAMES]);
/// let levels = lent::schema(&mut rows, &mut names)?.levels;
/// let tables = Tables { rows: &rows, names: &names, levels, root: 1, ..Tables::NONE };
/// let (mut leaves, mut paths, mut payloads) = ([0; 6], [0; 18], [0; 1]);
/// let lent = Buffers { leaves: &mut leaves, paths: &mut paths, payloads: &mut payloads };
/// assert_eq!(lent::struct_array(&bytes, 104, tables, lent)?.counters.elements_decoded, 2);
/// assert_eq!((leaves, &paths, payloads), ([0, 18, 1, 8, 0, 64], b"[0].Reports[0]._h1", [0xab]));
/// assert_eq!(bytes[leaves[5] as usize / 8], payloads[0]);
/// # Ok::<(), lent::Refusal>(())
/// ```
#[inline]
pub fn struct_array(bytes: &[u8], bits: u32, tables: Tables<'_>, lent: Buffers<'_>) -> Result<Walk, Refusal> {
    let t = tables;
    // SAFETY: every pointer comes from a slice with its length, and lent slices overlap nothing.
    walk_of(unsafe {
        raw::vrf_struct_array(
            bytes.as_ptr(),
            bytes.len(),
            bits,
            t.rows.as_ptr(),
            t.rows.len(),
            t.levels,
            t.root,
            t.names.as_ptr(),
            t.names.len(),
            t.declared.as_ptr(),
            t.declared.len(),
            t.declared_names.as_ptr(),
            t.declared_names.len(),
            lent.leaves.as_mut_ptr(),
            lent.leaves.len(),
            lent.paths.as_mut_ptr(),
            lent.paths.len(),
            lent.payloads.as_mut_ptr(),
            lent.payloads.len(),
        )
    })
}

/// The same with no schema, and with no zero byte accepted behind the array. Refusals: 1, 2, 3.
///
/// ```
/// # use vrf_proved::lent::{self, Buffers, Verdict};
/// let bytes = [0x02, 0x02, 0x04, 0x10, 0xab, 0x00, 0x00, 0x00];
/// let (mut leaves, mut paths, mut payloads) = ([0; 6], [0; 7], [0; 1]);
/// let lent = Buffers { leaves: &mut leaves, paths: &mut paths, payloads: &mut payloads };
/// let walk = lent::struct_array_exact(&bytes, 64, &[], &[], lent)?;
/// assert_eq!((walk.counters.unconsumed_root_bits, walk.verdict), (8, Verdict::Partial));
/// assert_eq!(leaves, [0, 7, 1, 8, 0, 32]);
/// # Ok::<(), lent::Refusal>(())
/// ```
#[inline]
pub fn struct_array_exact(bytes: &[u8], bits: u32, declared: &[u32], declared_names: &[u8], lent: Buffers<'_>) -> Result<Walk, Refusal> {
    // SAFETY: as in `struct_array`.
    walk_of(unsafe {
        raw::vrf_struct_array_exact(
            bytes.as_ptr(),
            bytes.len(),
            bits,
            declared.as_ptr(),
            declared.len(),
            declared_names.as_ptr(),
            declared_names.len(),
            lent.leaves.as_mut_ptr(),
            lent.leaves.len(),
            lent.paths.as_mut_ptr(),
            lent.paths.len(),
            lent.payloads.as_mut_ptr(),
            lent.payloads.len(),
        )
    })
}

/// The array of object references in the first `bits` bits. Refusals: 1, 3.
///
/// ```
/// # use vrf_proved::lent;
/// let bytes = [0x02, 0x02, 0x04, 0x10, 0x0e, 0x00, 0x00];
/// let mut pairs = [0; 2];
/// assert_eq!(lent::object_array(&bytes, 56, &mut pairs)?.pairs, 1);
/// assert_eq!(pairs, [0, 7]);
/// let short = lent::object_array(&bytes, 56, &mut []).unwrap_err();
/// assert_eq!((short.number, short.values), (3, [1, 0, 0]));
/// # Ok::<(), lent::Refusal>(())
/// ```
#[inline]
pub fn object_array(bytes: &[u8], bits: u32, pairs: &mut [u32]) -> Result<Objects, Refusal> {
    // SAFETY: as in `struct_array`.
    let o = unsafe { raw::vrf_object_array(bytes.as_ptr(), bytes.len(), bits, pairs.as_mut_ptr(), pairs.len()) };
    if o.refusal != 0 {
        return Err(Refusal::of(o.refusal, [u64::from(o.pairs), 0, 0]));
    }
    Ok(Objects {
        pairs: o.pairs as usize,
        counters: o.counters.into(),
        verdict: verdict_of(o.verdict),
        padded: o.padded,
    })
}

/// Why two counts have no sum: refusal 4, and what it names.
#[derive(Debug, Clone, PartialEq, Eq)]
#[must_use]
pub struct RefusedMerge {
    /// 4.
    pub number: u32,
    /// The left counters, as they were.
    pub left: ArrayDecodeStats,
}

/// The refusal without the counters.
impl From<RefusedMerge> for Refusal {
    fn from(refused: RefusedMerge) -> Self {
        Self::of(refused.number, [0; 3])
    }
}

impl fmt::Display for RefusedMerge {
    fn fmt(&self, f: &mut fmt::Formatter<'_>) -> fmt::Result {
        Refusal::of(self.number, [0; 3]).fmt(f)
    }
}

impl std::error::Error for RefusedMerge {}

/// The counters of two walks added up, one by one. Refusal 4, with the left counters.
///
/// ```
/// # use vrf_proved::{lent, ArrayDecodeStats};
/// let one = ArrayDecodeStats { errors: 1, ..Default::default() };
/// assert_eq!(lent::merge(&one, &one)?.errors, 2);
/// let full = ArrayDecodeStats { errors: u64::MAX, ..Default::default() };
/// let refused = lent::merge(&full, &one).unwrap_err();
/// assert_eq!((refused.number, refused.left), (4, full));
/// # Ok::<(), lent::Refusal>(())
/// ```
#[inline]
pub fn merge(left: &ArrayDecodeStats, right: &ArrayDecodeStats) -> Result<ArrayDecodeStats, RefusedMerge> {
    // SAFETY: numbers alone.
    let m = unsafe { raw::vrf_merge(left.into(), right.into()) };
    let counters = m.counters.into();
    match m.refusal {
        0 => Ok(counters),
        number => Err(RefusedMerge { number, left: counters }),
    }
}

/// The verdict on a set of counters, of one walk or of several merged: clean or partial. Never empty: the rule on no bits is a window's,
/// and counters don't tell how many bits were walked. Of a single window take the verdict of its walk.
///
/// ```
/// # use vrf_proved::{lent::{self, Buffers, Tables, Verdict}, ArrayDecodeStats};
/// let nothing = lent::struct_array(&[], 0, Tables::NONE, Buffers::default())?;
/// assert_eq!((nothing.verdict, lent::verdict(&nothing.counters)), (Verdict::Empty, Verdict::Clean));
/// assert_eq!(lent::verdict(&ArrayDecodeStats { fields_emitted: 1, ..Default::default() }), Verdict::Clean);
/// assert_eq!(lent::verdict(&ArrayDecodeStats { truncations: 1, ..Default::default() }), Verdict::Partial);
/// # Ok::<(), lent::Refusal>(())
/// ```
#[inline]
pub fn verdict(counters: &ArrayDecodeStats) -> Verdict {
    // SAFETY: numbers alone.
    verdict_of(unsafe { raw::vrf_verdict(counters.into()) })
}

// ---- the schema

/// What [`schema`] filled.
#[derive(Debug, Clone, Copy, PartialEq, Eq)]
#[must_use]
pub struct Schema {
    /// Numbers of rows, from the buffer's front.
    pub rows: usize,
    /// Bytes of names, from the buffer's front.
    pub names: usize,
    /// For [`Tables::levels`].
    pub levels: u32,
}

/// The twelve levels, to the front of both buffers. Refusal 3 (needed: [`SCHEMA_ROWS`], [`SCHEMA_NAMES`]).
///
/// ```
/// # use vrf_proved::lent::{self, SCHEMA_NAMES, SCHEMA_ROWS};
/// let (mut rows, mut names) = ([0; SCHEMA_ROWS], [0; SCHEMA_NAMES]);
/// assert_eq!(lent::schema(&mut rows, &mut names)?.levels, 12);
/// let short = lent::schema(&mut rows[1..], &mut names).unwrap_err();
/// assert_eq!((short.number, short.values), (3, [170, 187, 0]));
/// # Ok::<(), lent::Refusal>(())
/// ```
pub fn schema(rows: &mut [u32], names: &mut [u8]) -> Result<Schema, Refusal> {
    // SAFETY: as in `struct_array`.
    let s = unsafe { raw::vrf_schema(rows.as_mut_ptr(), rows.len(), names.as_mut_ptr(), names.len()) };
    if s.refusal != 0 {
        return Err(Refusal::of(s.refusal, [s.rows as u64, s.names as u64, 0]));
    }
    Ok(Schema {
        rows: s.rows,
        names: s.names,
        levels: s.levels,
    })
}

// ---- the fast array

/// An accepted fast-array body: how much of each buffer is filled, its keys, and the bits it takes.
#[derive(Debug, Clone, Copy, PartialEq, Eq)]
#[must_use]
pub struct FastArray {
    /// Deleted ids.
    pub deletes: usize,
    /// Changed items, of [`ITEM_WORDS`] numbers each.
    pub items: usize,
    /// Fields of all items, of [`FIELD_WORDS`] numbers each.
    pub fields: usize,
    /// The array's key.
    pub key: i32,
    /// The key it is a change from.
    pub base: i32,
    /// All bits of the window.
    pub used: u32,
    /// How many of the handles, widths and closing zeros are padded.
    pub padded: u32,
}

/// The fast-array body that the first `bits` bits are. `flags`: whether a flag bit stands behind each item's id; the bits can't tell.
/// Refusals: 1, 6, 3 (needed: deletes, items, fields).
///
/// ```
/// # use vrf_proved::lent;
/// // the leading bit; keys 1 and 0; one id deleted, which is 5; nothing changed
/// let mut body = [0u8; 21];
/// (body[0], body[8], body[16]) = (0x03, 0x02, 0x0a);
/// let mut deleted = [0; 1];
/// let read = lent::fast_array(&body, 161, false, &mut deleted, &mut [], &mut [])?;
/// assert_eq!((read.key, read.deletes, read.used, deleted), (1, 1, 161, [5]));
/// assert_eq!(lent::fast_array(&body, 160, false, &mut deleted, &mut [], &mut []).unwrap_err().number, 6);
/// # Ok::<(), lent::Refusal>(())
/// ```
#[inline]
pub fn fast_array(
    payload: &[u8],
    bits: u32,
    flags: bool,
    deleted: &mut [i32],
    items: &mut [u32],
    fields: &mut [u32],
) -> Result<FastArray, Refusal> {
    // SAFETY: as in `struct_array`.
    let f = unsafe {
        raw::vrf_fast_array(
            payload.as_ptr(),
            payload.len(),
            bits,
            u32::from(flags),
            deleted.as_mut_ptr(),
            deleted.len(),
            items.as_mut_ptr(),
            items.len(),
            fields.as_mut_ptr(),
            fields.len(),
        )
    };
    if f.refusal != 0 {
        return Err(Refusal::of(f.refusal, [f.deletes, f.items, f.fields].map(u64::from)));
    }
    Ok(FastArray {
        deletes: f.deletes as usize,
        items: f.items as usize,
        fields: f.fields as usize,
        key: f.key,
        base: f.base,
        used: f.used,
        padded: f.padded,
    })
}

// ---- single reads

/// A window of some bytes, and a place in it. Every number is allowed; a cursor that doesn't fit its bytes is refused with 14.
#[derive(Debug, Clone, Copy, PartialEq, Eq)]
pub struct Cursor {
    /// The window's first bit in the bytes.
    pub start: u64,
    /// The next bit to read, counted from the window's first.
    pub pos: u64,
    /// The window's length in bits.
    pub len: u64,
}

impl Cursor {
    /// The first `bits` bits of some bytes.
    #[must_use]
    pub const fn over(bits: u64) -> Self {
        Self {
            start: 0,
            pos: 0,
            len: bits,
        }
    }
}

impl From<Cursor> for raw::VrfCursor {
    #[inline]
    fn from(c: Cursor) -> Self {
        Self {
            start: c.start,
            pos: c.pos,
            len: c.len,
        }
    }
}

/// What a read gave, and where the cursor stands after it, refused or not.
#[derive(Debug, Clone, Copy, PartialEq)]
#[must_use]
pub struct Read<T> {
    /// The value, or why there is none.
    pub result: Result<T, Refusal>,
    /// For the cursor's `pos`, to go on.
    pub position: u64,
}

#[inline]
fn read<T>(refusal: u32, values: [u64; 3], value: T, position: u64) -> Read<T> {
    let result = match refusal {
        0 => Ok(value),
        number => Err(Refusal::of(number, values)),
    };
    Read { result, position }
}

#[inline]
fn number_of(r: raw::VrfRead) -> Read<u64> {
    read(r.refusal, [r.first, r.second, r.third], r.value, r.position)
}

/// The next `count` bits, at most 64, as one number, the first bit lowest. Refusals: 14, 13, 7.
///
/// ```
/// # use vrf_proved::lent::{self, Cursor};
/// let read = lent::read_bits(&[0xab, 0x01], Cursor::over(9), 4);
/// assert_eq!((read.result, read.position), (Ok(0xb), 4));
/// let cut = lent::read_bits(&[0xab, 0x01], Cursor::over(9), 10).result.unwrap_err();
/// assert_eq!((cut.number, cut.values), (7, [0, 9, 10]));
/// assert_eq!(lent::read_bits(&[0xab], Cursor::over(9), 4).result.unwrap_err().number, 14);
/// ```
#[inline]
pub fn read_bits(bytes: &[u8], cursor: Cursor, count: u64) -> Read<u64> {
    // SAFETY: as in `struct_array`.
    number_of(unsafe { raw::vrf_read_bits(bytes.as_ptr(), bytes.len(), cursor.into(), count) })
}

/// A packed number, and the form that it has.
#[derive(Debug, Clone, Copy, PartialEq, Eq)]
#[must_use]
pub struct Packed {
    /// The number, below 2^32.
    pub value: u64,
    /// How many bytes it takes: 1 to 5.
    pub bytes: u32,
    /// Whether it could be had in fewer.
    pub padded: bool,
}

/// A packed number. Refusals: 14, 7, 8, 9.
///
/// ```
/// # use vrf_proved::lent::{self, Cursor, Packed};
/// let read = lent::read_packed(&[0x03, 0x02], Cursor::over(16));
/// assert_eq!((read.result, read.position), (Ok(Packed { value: 129, bytes: 2, padded: false }), 16));
/// let padded = lent::read_packed(&[0x03, 0x00], Cursor::over(16));
/// assert_eq!(padded.result, Ok(Packed { value: 1, bytes: 2, padded: true }));
/// let endless = lent::read_packed(&[0xff; 6], Cursor::over(48));
/// assert_eq!((endless.result.unwrap_err().number, endless.position), (8, 40));
/// ```
#[inline]
pub fn read_packed(bytes: &[u8], cursor: Cursor) -> Read<Packed> {
    // SAFETY: as in `struct_array`.
    let r = unsafe { raw::vrf_read_packed(bytes.as_ptr(), bytes.len(), cursor.into()) };
    let value = Packed {
        value: r.value,
        bytes: r.bytes,
        padded: r.padded,
    };
    read(r.refusal, [r.first, r.second, r.third], value, r.position)
}

/// An integer below `maximum`. Refusals: 14, 10, 7.
///
/// ```
/// # use vrf_proved::lent::{self, Cursor};
/// let read = lent::read_serialized(&[0b10], Cursor::over(8), 3);
/// assert_eq!((read.result, read.position), (Ok(2), 2));
/// assert_eq!(lent::read_serialized(&[0b10], Cursor::over(8), 0).result.unwrap_err().number, 10);
/// ```
#[inline]
pub fn read_serialized(bytes: &[u8], cursor: Cursor, maximum: u32) -> Read<u64> {
    // SAFETY: as in `struct_array`.
    number_of(unsafe { raw::vrf_read_serialized(bytes.as_ptr(), bytes.len(), cursor.into(), maximum) })
}

/// The next `count` bits to the front of `target`; the last byte's spare bits become 0. Refusals: 14, 14 for the target, 7.
///
/// ```
/// # use vrf_proved::lent::{self, Cursor};
/// let mut target = [0xee; 2];
/// let copied = lent::copy_bits(&[0xab, 0xcd], Cursor { start: 0, pos: 4, len: 16 }, 10, &mut target);
/// assert_eq!((copied.result, copied.position, target), (Ok(()), 14, [0xda, 0x00]));
/// ```
#[inline]
pub fn copy_bits(bytes: &[u8], cursor: Cursor, count: u64, target: &mut [u8]) -> Read<()> {
    // SAFETY: as in `struct_array`.
    let r = unsafe { raw::vrf_copy_bits(bytes.as_ptr(), bytes.len(), cursor.into(), count, target.as_mut_ptr(), target.len()) };
    read(r.refusal, [r.first, r.second, r.third], (), r.position)
}

// ---- vectors, rotations, movement

/// Three components.
pub type Xyz = [f64; 3];
/// Pitch, yaw and roll in degrees.
pub type Angles = [f32; 3];

#[inline]
fn xyz(v: raw::VrfXyz) -> Xyz {
    [v.x, v.y, v.z]
}

#[inline]
fn angles(v: raw::VrfAngles) -> Angles {
    [v.pitch, v.yaw, v.roll]
}

/// A quantized vector. Refusals: 14, 11, 7, 12.
///
/// ```
/// # use vrf_proved::lent::{self, Cursor};
/// let read = lent::vector(&[0x81, 0x00], Cursor::over(10), 1);
/// assert_eq!((read.result, read.position), (Ok([-1.0, 0.0, 0.0]), 10));
/// assert_eq!(lent::vector(&[0x81, 0x00], Cursor::over(10), 0).result.unwrap_err().number, 11);
/// ```
#[inline]
pub fn vector(bytes: &[u8], cursor: Cursor, scale: u32) -> Read<Xyz> {
    // SAFETY: as in `struct_array`.
    let r = unsafe { raw::vrf_vector(bytes.as_ptr(), bytes.len(), cursor.into(), scale) };
    read(r.refusal, [r.first, r.second, r.third], xyz(r.value), r.position)
}

/// A fixed-point normal. Refusals: 14, 7.
///
/// ```
/// # use vrf_proved::lent::{self, Cursor};
/// let read = lent::normal(&[0xff, 0xff, 0x00, 0x80, 0x01, 0x00], Cursor::over(48));
/// assert_eq!(read.result, Ok([1.0, 0.0, -1.0]));
/// ```
#[inline]
pub fn normal(bytes: &[u8], cursor: Cursor) -> Read<Xyz> {
    // SAFETY: as in `struct_array`.
    let r = unsafe { raw::vrf_normal(bytes.as_ptr(), bytes.len(), cursor.into()) };
    read(r.refusal, [r.first, r.second, r.third], xyz(r.value), r.position)
}

/// A rotation of 8 or 16 bits an axis. Refusals: 14, 13, 7.
///
/// ```
/// # use vrf_proved::lent::{self, Cursor};
/// let read = lent::rotation(&[0x81, 0x00], Cursor::over(11), 8);
/// assert_eq!((read.result, read.position), (Ok([90.0, 0.0, 0.0]), 11));
/// assert_eq!(lent::rotation(&[0x81, 0x00], Cursor::over(11), 9).result.unwrap_err().number, 13);
/// ```
#[inline]
pub fn rotation(bytes: &[u8], cursor: Cursor, width: u32) -> Read<Angles> {
    // SAFETY: as in `struct_array`.
    let r = unsafe { raw::vrf_rotation(bytes.as_ptr(), bytes.len(), cursor.into(), width) };
    read(r.refusal, [r.first, r.second, r.third], angles(r.value), r.position)
}

/// A byte's angle as a whole number of thirty-seconds of a degree, 45 times the byte; `None` for a number above 255, which is no byte.
/// An axis of a rotation of 8 bits is such a number divided by 32, and nothing is lost by that. [`crate::BYTE_ANGLE_STEPS`] has all of
/// them.
///
/// ```
/// # use vrf_proved::lent::{self, Cursor};
/// assert_eq!((lent::byte_angle_steps(64), lent::byte_angle_steps(255)), (Some(2880), Some(11_475)));
/// assert_eq!(lent::byte_angle_steps(256), None);
/// let read = lent::rotation(&[0x81, 0x00], Cursor::over(11), 8); // the byte 64, and two axes that are not sent
/// assert_eq!(read.result, Ok([2880.0 / 32.0, 0.0, 0.0]));
/// ```
#[inline]
#[must_use]
pub fn byte_angle_steps(k: u32) -> Option<u32> {
    // SAFETY: a number goes in and a number comes out.
    let steps = unsafe { raw::vrf_byte_angle_steps(k) };
    (steps != NONE).then_some(steps)
}

/// A movement record. What is absent is `None`, never zero.
#[derive(Debug, Clone, Copy, PartialEq)]
#[must_use]
pub struct Movement {
    /// Where.
    pub location: Xyz,
    /// Which way, in degrees.
    pub rotation: Angles,
    /// Linear velocity.
    pub linear: Xyz,
    /// Angular velocity, if physics is sent.
    pub angular: Option<Xyz>,
    /// The simulated body sleeps.
    pub sleep: bool,
    /// Physics is sent.
    pub physics: bool,
    /// The server's frame, if sent.
    pub frame: Option<u32>,
    /// The server's physics handle, if sent.
    pub handle: Option<u32>,
    /// How many of frame and handle are padded: 0, 1 or 2.
    pub padded: u32,
}

/// How a movement's rotation is sent.
#[derive(Debug, Clone, Copy, PartialEq, Eq)]
pub enum RotationWidth {
    /// 8 bits an axis.
    Eight = 0,
    /// 16 bits an axis.
    Sixteen = 1,
}

/// What a movement's location is divided by.
#[derive(Debug, Clone, Copy, PartialEq, Eq)]
pub enum LocationScale {
    /// 1.
    One = 0,
    /// 10.
    Ten = 1,
    /// 100.
    Hundred = 2,
}

/// The movement record in the first `count` bits; bits may be left over, and `position` tells those used. Refusals: 1, 14, then those of
/// its parts (7, 8, 9, 12).
///
/// ```
/// # use vrf_proved::lent::{self, LocationScale, RotationWidth};
/// let read = lent::movement(&[0x10, 0x08, 0x02, 0x00], 27, RotationWidth::Eight, LocationScale::One);
/// assert_eq!((read.result?.location, read.position), ([-1.0, 0.0, 0.0], 27));
/// let cut = lent::movement(&[0x10, 0x08, 0x02, 0x00], 26, RotationWidth::Eight, LocationScale::One).result.unwrap_err();
/// assert_eq!((cut.number, cut.values), (7, [24, 26, 3]));
/// # Ok::<(), lent::Refusal>(())
/// ```
#[inline]
pub fn movement(bytes: &[u8], count: u64, rotation: RotationWidth, location: LocationScale) -> Read<Movement> {
    // SAFETY: as in `struct_array`.
    let m = unsafe { raw::vrf_movement(bytes.as_ptr(), bytes.len(), count, rotation as u32, location as u32) };
    let value = Movement {
        location: xyz(m.location),
        rotation: angles(m.rotation),
        linear: xyz(m.linear),
        angular: m.angular.present.then(|| xyz(m.angular.velocity)),
        sleep: m.sleep,
        physics: m.physics,
        frame: m.frame.present.then_some(m.frame.value),
        handle: m.handle.present.then_some(m.handle.value),
        padded: m.padded,
    };
    read(m.refusal, [m.first, m.second, m.third], value, m.position)
}
