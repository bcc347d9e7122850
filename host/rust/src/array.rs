//! The array walkers under the original's names.

use crate::lent::{self, Refusal, Verdict, LEAF_WORDS, PAIR_WORDS};
use crate::schema::ArrayFieldSchema;
use crate::scratch::{self, fit};
use crate::stats::ArrayDecodeStats;
use crate::tables::OwnTables;
use std::cell::Cell;

/// The most elements that one array may have.
pub const MAX_ELEMENTS: u32 = 4096;
/// The most fields that one element may have.
pub const MAX_FIELDS_PER_ELEMENT: u32 = 128;
/// The most arrays inside one another, the root among them.
pub const MAX_RECURSION_DEPTH: u32 = 12;

/// One leaf of a walked array.
#[derive(Debug, Clone, PartialEq, Eq)]
#[must_use]
pub struct FlattenedField {
    /// From the root on, as `[2].Reports[1].DamageDealt`; a kept tail ends in `._raw`.
    pub path: String,
    /// The field's handle in its element; 4,294,967,295 for a kept tail.
    pub handle: u32,
    /// The payload's bits.
    pub bit_count: u32,
    /// The payload in whole bytes, the first bit lowest; spare bits are 0.
    pub raw_bits: Vec<u8>,
}

/// A leaf, and where in the walked window it sits.
#[derive(Debug, Clone, PartialEq, Eq)]
#[must_use]
pub struct PlacedField {
    /// The leaf, as the original gives it.
    pub field: FlattenedField,
    /// The bit where its payload starts, counted from the first bit of the walked window also for a leaf of an array in an array.
    /// [`lent::LEAF_WORDS`] says where a leaf without payload starts, and where a kept tail does.
    pub window_start: u32,
}

/// What an accepted walk gave, with counters of its own that start from zero.
#[derive(Debug, Clone, PartialEq, Eq)]
#[must_use]
pub struct Decoded<T> {
    /// Leaves or pairs, in the order of the window.
    pub values: Vec<T>,
    /// What this walk counted.
    pub stats: ArrayDecodeStats,
    /// Whether anything is damaged or missing, or nothing was sent.
    pub verdict: Verdict,
    /// How many padded numbers were read ([`lent`] says what they are); the verdict doesn't depend on it.
    pub padded: u32,
}

/// The leaves of the array of structs in the first `bit_count` bits of `data`; what was counted is added to `stats`.
///
/// `schema` says which handles are arrays; without one every field is a leaf. `declared[h]` is a name for handle `h`, at any depth. A leaf
/// is called by its declared name; where it has none by the schema's, and where it has neither by `_h` and its handle. An array is never
/// called by a declared name.
///
/// A call that is refused (a window of over 524,288 bits, tables beyond the sizes) gives no leaves and counts one error.
///
/// ```
/// use vrf_proved::{decode_struct_array, ArrayDecodeStats, COMBAT_ROUNDS_SCHEMA};
///
/// // one round with one report, whose field 1 holds the byte AB
/// let window = [0x02, 0x02, 0x0a, 0x70, 0x02, 0x02, 0x04, 0x10, 0xab, 0x00, 0x00, 0x00, 0x00];
/// let mut stats = ArrayDecodeStats::default();
/// let leaves = decode_struct_array(&window, 104, Some(&COMBAT_ROUNDS_SCHEMA), &[], &mut stats);
/// assert_eq!((leaves[0].path.as_str(), leaves[0].raw_bits.as_slice()), ("[0].Reports[0]._h1", &[0xab][..]));
/// assert_eq!((stats.elements_decoded, stats.is_clean()), (2, true));
///
/// // the same, cut: the report's payload reaches past the window and is lost, which the counters tell
/// let leaves = decode_struct_array(&window, 72, Some(&COMBAT_ROUNDS_SCHEMA), &[], &mut stats);
/// assert_eq!((leaves.len(), stats.errors, stats.is_clean()), (0, 1, false));
/// ```
#[must_use]
pub fn decode_struct_array(
    data: &[u8],
    bit_count: u32,
    schema: Option<&ArrayFieldSchema>,
    declared: &[Option<&str>],
    stats: &mut ArrayDecodeStats,
) -> Vec<FlattenedField> {
    counted(structs(data, bit_count, schema, declared, |field, _| field), stats)
}

/// [`decode_struct_array`] with where each leaf sits, its own counters and verdict, or the refusal: 1 or 2.
///
/// ```
/// use vrf_proved::lent::Verdict;
/// use vrf_proved::try_decode_struct_array;
///
/// let window = [0x02, 0x02, 0x04, 0x10, 0xab, 0x00, 0x00];
/// let walk = try_decode_struct_array(&window, 56, None, &[None, Some("Kills")])?;
/// let kills = &walk.values[0];
/// assert_eq!((kills.field.path.as_str(), kills.window_start, walk.verdict), ("[0].Kills", 32, Verdict::Clean));
///
/// // without the last of its closing zeros
/// let walk = try_decode_struct_array(&window, 48, None, &[])?;
/// assert_eq!((walk.values.len(), walk.stats.implicit_terminations, walk.verdict), (1, 1, Verdict::Partial));
///
/// // its count in two bytes, where one would do
/// let walk = try_decode_struct_array(&[&[0x03, 0x00], &window[1..]].concat(), 64, None, &[])?;
/// assert_eq!((walk.values[0].window_start, walk.padded, walk.verdict), (40, 1, Verdict::Clean));
///
/// // nothing was sent; and an array of no elements, which was
/// assert_eq!(try_decode_struct_array(&[], 0, None, &[])?.verdict, Verdict::Empty);
/// assert_eq!(try_decode_struct_array(&[0x00, 0x00], 16, None, &[])?.verdict, Verdict::Clean);
///
/// // a bit too long, and a name that is a byte too long
/// assert_eq!(try_decode_struct_array(&window, 524_289, None, &[]).unwrap_err().number, 1);
/// assert_eq!(try_decode_struct_array(&window, 56, None, &[Some(&"x".repeat(65))]).unwrap_err().number, 2);
/// # Ok::<(), vrf_proved::lent::Refusal>(())
/// ```
pub fn try_decode_struct_array(
    data: &[u8],
    bit_count: u32,
    schema: Option<&ArrayFieldSchema>,
    declared: &[Option<&str>],
) -> Result<Decoded<PlacedField>, Refusal> {
    structs(data, bit_count, schema, declared, placed)
}

/// [`decode_struct_array`] with no schema, and with no zero byte accepted behind the array.
///
/// ```
/// use vrf_proved::{decode_struct_array_exact, ArrayDecodeStats};
///
/// let window = [0x02, 0x02, 0x04, 0x10, 0xab, 0x00, 0x00, 0x00];
/// let mut stats = ArrayDecodeStats::default();
/// assert_eq!(decode_struct_array_exact(&window, 56, &[], &mut stats)[0].path, "[0]._h1");
/// assert!(stats.is_clean());
/// let _ = decode_struct_array_exact(&window, 64, &[], &mut stats);
/// assert_eq!((stats.fields_emitted, stats.unconsumed_root_bits), (2, 8));
/// ```
#[must_use]
pub fn decode_struct_array_exact(
    data: &[u8],
    bit_count: u32,
    declared: &[Option<&str>],
    stats: &mut ArrayDecodeStats,
) -> Vec<FlattenedField> {
    counted(exact_structs(data, bit_count, declared, |field, _| field), stats)
}

/// [`decode_struct_array_exact`] with where each leaf sits, its own counters and verdict, or the refusal: 1 or 2.
///
/// ```
/// use vrf_proved::{lent::Verdict, try_decode_struct_array_exact};
///
/// let window = [0x02, 0x02, 0x04, 0x10, 0xab, 0x00, 0x00, 0x00];
/// let walk = try_decode_struct_array_exact(&window, 64, &[])?;
/// assert_eq!((walk.stats.unconsumed_root_bits, walk.verdict), (8, Verdict::Partial));
/// assert_eq!((walk.values[0].field.raw_bits.as_slice(), walk.values[0].window_start), (&window[4..5], 32));
/// assert_eq!(try_decode_struct_array_exact(&window, 56, &[None; 1025]).unwrap_err().number, 2);
/// # Ok::<(), vrf_proved::lent::Refusal>(())
/// ```
pub fn try_decode_struct_array_exact(data: &[u8], bit_count: u32, declared: &[Option<&str>]) -> Result<Decoded<PlacedField>, Refusal> {
    exact_structs(data, bit_count, declared, placed)
}

/// The pairs of index and object in the first `bit_count` bits of `data`. It tells nothing of damage, nor of a refusal, which gives
/// no pairs: see [`decode_object_ref_array_with_stats`].
///
/// ```
/// use vrf_proved::decode_object_ref_array;
///
/// assert_eq!(decode_object_ref_array(&[0x02, 0x02, 0x04, 0x10, 0x0e, 0x00, 0x00], 56), [(0, 7)]);
/// ```
#[must_use]
pub fn decode_object_ref_array(data: &[u8], bit_count: u32) -> Vec<(u32, u32)> {
    decode_object_ref_array_with_stats(data, bit_count, &mut ArrayDecodeStats::default())
}

/// The pairs of index and object in the first `bit_count` bits of `data`; what was counted is added to `stats`. An index says which
/// slot an object belongs to: not every slot is sent. A refused call (a window of over 524,288 bits) gives no pairs and counts one error.
///
/// ```
/// use vrf_proved::{decode_object_ref_array_with_stats, ArrayDecodeStats};
///
/// let window = [0x02, 0x02, 0x04, 0x10, 0x0e, 0x00, 0x00];
/// let mut stats = ArrayDecodeStats::default();
/// assert_eq!(decode_object_ref_array_with_stats(&window, 56, &mut stats), [(0, 7)]);
/// assert!(stats.is_clean());
/// let _ = decode_object_ref_array_with_stats(&window, 524_289, &mut stats);
/// assert_eq!((stats.errors, stats.is_clean()), (1, false));
/// ```
#[must_use]
pub fn decode_object_ref_array_with_stats(data: &[u8], bit_count: u32, stats: &mut ArrayDecodeStats) -> Vec<(u32, u32)> {
    counted(try_decode_object_ref_array(data, bit_count), stats)
}

/// [`decode_object_ref_array_with_stats`] with its own counters and verdict, or refusal 1.
///
/// ```
/// use vrf_proved::{lent::Verdict, try_decode_object_ref_array};
///
/// let walk = try_decode_object_ref_array(&[0x02, 0x02, 0x04, 0x10, 0x0e, 0x00, 0x00], 48)?;
/// assert_eq!((walk.values, walk.verdict), (vec![(0, 7)], Verdict::Partial));
/// assert_eq!(try_decode_object_ref_array(&[], 524_289).unwrap_err().number, 1);
/// # Ok::<(), vrf_proved::lent::Refusal>(())
/// ```
pub fn try_decode_object_ref_array(data: &[u8], bit_count: u32) -> Result<Decoded<(u32, u32)>, Refusal> {
    scratch::lend(&PAIRS, |lent: &mut Pairs| {
        let walk = lent::object_array(data, bit_count, &mut lent.0)?;
        Ok(Decoded {
            values: lent
                .0
                .chunks_exact(PAIR_WORDS)
                .take(walk.pairs)
                .map(|pair| (pair[0], pair[1]))
                .collect(),
            stats: walk.counters,
            verdict: walk.verdict,
            padded: walk.padded,
        })
    })
}

/// A struct walk whose leaves have the form that `leaf` makes of a field and its window start.
fn structs<T>(
    data: &[u8],
    bit_count: u32,
    schema: Option<&ArrayFieldSchema>,
    declared: &[Option<&str>],
    leaf: impl Fn(FlattenedField, u32) -> T,
) -> Result<Decoded<T>, Refusal> {
    let tables = OwnTables::of(schema, declared);
    leaves_of(|lent| lent::struct_array(data, bit_count, tables.lent(), lent), leaf)
}

/// An exact walk, likewise.
fn exact_structs<T>(
    data: &[u8],
    bit_count: u32,
    declared: &[Option<&str>],
    leaf: impl Fn(FlattenedField, u32) -> T,
) -> Result<Decoded<T>, Refusal> {
    let tables = OwnTables::of(None, declared);
    let tables = tables.lent();
    leaves_of(
        |lent| lent::struct_array_exact(data, bit_count, tables.declared, tables.declared_names, lent),
        leaf,
    )
}

fn placed(field: FlattenedField, window_start: u32) -> PlacedField {
    PlacedField { field, window_start }
}

/// The original's form of an answer: values, and counters added up.
fn counted<T>(answer: Result<Decoded<T>, Refusal>, stats: &mut ArrayDecodeStats) -> Vec<T> {
    match answer {
        Ok(decoded) => {
            stats.merge_from(&decoded.stats);
            decoded.values
        }
        Err(_) => {
            stats.count_error();
            Vec::new()
        }
    }
}

// ---- buffers

thread_local! {
    static LEAVES: Cell<Leaves> = Cell::default();
    static PAIRS: Cell<Pairs> = Cell::default();
}

#[derive(Default)]
struct Leaves {
    records: Vec<u32>,
    paths: Vec<u8>,
    payloads: Vec<u8>,
}

impl scratch::Buffers for Leaves {
    fn make_room(&mut self, [leaves, path_bytes, payload_bytes]: [u64; 3]) {
        fit(&mut self.records, leaves, LEAF_WORDS);
        fit(&mut self.paths, path_bytes, 1);
        fit(&mut self.payloads, payload_bytes, 1);
    }
}

impl Leaves {
    fn lent(&mut self) -> lent::Buffers<'_> {
        lent::Buffers {
            leaves: &mut self.records,
            paths: &mut self.paths,
            payloads: &mut self.payloads,
        }
    }

    /// The leaves that an accepted walk left here.
    fn owned<T>(&self, walk: &lent::Walk, leaf: impl Fn(FlattenedField, u32) -> T) -> Vec<T> {
        let paths = std::str::from_utf8(&self.paths[..walk.path_bytes]).expect("paths are made of whole names, which were strings");
        let records = self.records.chunks_exact(LEAF_WORDS).take(walk.leaves);
        records
            .map(|record| leaf(field_of(record, paths, &self.payloads), record[5]))
            .collect()
    }
}

fn field_of(record: &[u32], paths: &str, payloads: &[u8]) -> FlattenedField {
    let [path, path_bytes, bits, payload] = [record[0], record[1], record[3], record[4]].map(|number| number as usize);
    FlattenedField {
        path: paths[path..path + path_bytes].to_owned(),
        handle: record[2],
        bit_count: record[3],
        raw_bits: payloads[payload..payload + (bits + 7) / 8].to_vec(),
    }
}

fn leaves_of<T>(
    walk: impl Fn(lent::Buffers<'_>) -> Result<lent::Walk, Refusal>,
    leaf: impl Fn(FlattenedField, u32) -> T,
) -> Result<Decoded<T>, Refusal> {
    scratch::lend(&LEAVES, |lent: &mut Leaves| {
        let walk = walk(lent.lent())?;
        Ok(Decoded {
            values: lent.owned(&walk, &leaf),
            stats: walk.counters,
            verdict: walk.verdict,
            padded: walk.padded,
        })
    })
}

#[derive(Default)]
struct Pairs(Vec<u32>);

impl scratch::Buffers for Pairs {
    fn make_room(&mut self, [pairs, ..]: [u64; 3]) {
        fit(&mut self.0, pairs, PAIR_WORDS);
    }
}
