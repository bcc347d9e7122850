//! Wrong answers on purpose, to see that the comparison tells: each fault makes one part of one call's answers wrong, and names the kinds
//! that have to tell of it. Every field of every answer has one (parts.rs), and so has every number of a record in a lent buffer (cells.rs).
mod cells;
mod list;
mod parts;
mod starts;

use crate::probes::{Probe, ProbeCall};
use cells::{DELETED, FIELDS, ITEMS, LEAVES, NAMES, PAIRS, PATHS, PAYLOADS, ROWS, TARGET};
pub use list::all;
use parts::Parts;
use std::cell::Cell;
use std::fmt;
use vrf_proved::ArrayDecodeStats;
use vrf_proved::lent::{
    self, Buffers, FIELD_WORDS, FastArray, ITEM_WORDS, LEAF_WORDS, Movement, Objects, PAIR_WORDS, Packed, Read, Refusal, RefusedMerge,
    Schema, Verdict, Walk,
};

/// Whose answers are made wrong.
#[derive(Clone, Copy, Debug, PartialEq)]
pub enum Call {
    Walk,
    Objects,
    Merge,
    Verdict,
    Schema,
    FastArray,
    ReadBits,
    ReadPacked,
    ReadSerialized,
    CopyBits,
    Vector,
    Normal,
    Rotation,
    /// What a byte's angle is as a whole number: the call's, and the constant's.
    ByteAngleSteps,
    ByteAngleEntry,
    Movement,
    Probe,
    /// The original's names: the leaves of a walk, what it adds to the counters, pairs with counters and without, and so on.
    DropInLeaves,
    DropInStats,
    DropInPairs,
    DropInPlainPairs,
    DropInFastArray,
    DropInMovement,
    DropInMerge,
    DropInClean,
    /// The same, by the forms that say a refusal.
    TryLeaves,
    TryPairs,
    TryFastArray,
    TryMovement,
    TryMerge,
    TryMergeSum,
}

pub struct Fault {
    pub call: Call,
    part: String,
    /// The kinds that have to tell.
    pub kinds: Vec<&'static str>,
}

impl fmt::Display for Fault {
    fn fmt(&self, f: &mut fmt::Formatter<'_>) -> fmt::Result {
        write!(f, "{:?}: {}", self.call, self.part)
    }
}

const CLEAN: &str = "partial passes for clean";
const EMPTY: &str = "empty passes for clean";
const UNCOUNTED: &str = "nothing counted passes for empty";
const NO_BITS: &str = "no bits pass for empty";
const LOST: &str = "the first record of a cut window is another";
const LOST_START: &str = "the first record of a cut window starts elsewhere";

const SHORT_FORM: &str = "no number is padded";
const ONE_PADDED: &str = "at most one number is padded";
const ONE_MORE: &str = "one more number is padded";

const STOPS: &str = "a sum that passes stops at the largest";
const ONE_ERROR: &str = "a sum that passes counts one error";

const GIVEN: &str = "given";
const REFUSED: &str = "refused";

fn probed(call: ProbeCall, which: &str, part: &str) -> String {
    format!("{}, {which}: {part}", call.name())
}

thread_local! {
    static ON: Cell<Option<&'static Fault>> = const { Cell::new(None) };
}

/// Turns one fault on, or none.
pub fn turn_on(fault: Option<&'static Fault>) {
    ON.set(fault);
}

/// The part of this call's answers that is to be made wrong.
fn part(call: Call) -> Option<&'static str> {
    ON.get().filter(|fault| fault.call == call).map(|fault| fault.part.as_str())
}

pub fn answer<T: Parts>(call: Call, answer: &mut T) {
    if let Some(part) = part(call) {
        answer.alter(part);
    }
}

pub fn probe(call: ProbeCall, probe: &mut Probe) {
    let Some(part) = part(Call::Probe) else { return };
    let which = if probe.refusal == 0 { GIVEN } else { REFUSED };
    if let Some(part) = part.strip_prefix(&probed(call, which, "")) {
        probe.alter(part);
    }
}

/// Of how many padded numbers are counted; of another part nothing.
fn miscount(part: &str, padded: &mut u32) {
    match part {
        SHORT_FORM => *padded = 0,
        ONE_PADDED => *padded = 1.min(*padded),
        ONE_MORE => *padded += 1,
        _ => {}
    }
}

pub fn packed(r: &mut Read<Packed>) {
    if let (Some(SHORT_FORM), Ok(packed)) = (part(Call::ReadPacked), &mut r.result) {
        packed.padded = false;
    }
    answer(Call::ReadPacked, r);
}

pub fn movement(r: &mut Read<Movement>) {
    if let (Some(part), Ok(record)) = (part(Call::Movement), &mut r.result) {
        miscount(part, &mut record.padded);
    }
    answer(Call::Movement, r);
}

pub fn walk(r: &mut Result<Walk, Refusal>, bytes: &[u8], bits: u32, lent: Buffers<'_>) {
    let Some(part) = part(Call::Walk) else { return };
    let filled = r.as_ref().ok().map(|w| [LEAF_WORDS * w.leaves, w.path_bytes, w.payload_bytes]);
    let Buffers { leaves, paths, payloads } = lent;
    if let Ok(w) = r {
        miscount(part, &mut w.padded);
    }
    match r {
        Ok(w) if part == CLEAN && w.verdict == Verdict::Partial => w.verdict = Verdict::Clean,
        Ok(w) if part == EMPTY && w.verdict == Verdict::Empty => w.verdict = Verdict::Clean,
        Ok(w) if part == UNCOUNTED && w.counters == ArrayDecodeStats::default() => w.verdict = Verdict::Empty,
        Ok(w) if part == LOST && w.counters.implicit_terminations > 0 && w.leaves > 0 => leaves[2] ^= 1,
        Ok(w) if part == LOST_START && w.counters.implicit_terminations > 0 && w.leaves > 0 => leaves[5] ^= 1,
        _ => r.alter(part),
    }
    if let Some([records, ..]) = filled {
        starts::misplace(part, bytes, bits, &mut leaves[..records]);
    }
    LEAVES.alter(part, leaves, filled.map(|f| f[0]));
    PATHS.alter(part, paths, filled.map(|f| f[1]));
    PAYLOADS.alter(part, payloads, filled.map(|f| f[2]));
}

pub fn objects(r: &mut Result<Objects, Refusal>, bits: u32, pairs: &mut [u32]) {
    let Some(part) = part(Call::Objects) else { return };
    let filled = r.as_ref().ok().map(|o| PAIR_WORDS * o.pairs);
    if let Ok(o) = r {
        miscount(part, &mut o.padded);
    }
    match r {
        Ok(o) if part == CLEAN => o.verdict = Verdict::Clean,
        Ok(o) if part == UNCOUNTED && o.counters == ArrayDecodeStats::default() => o.verdict = Verdict::Empty,
        Ok(o) if part == NO_BITS && bits == 0 => o.verdict = Verdict::Empty,
        Ok(o) if part == LOST && o.counters.implicit_terminations > 0 && o.pairs > 0 => pairs[1] ^= 1,
        _ => r.alter(part),
    }
    PAIRS.alter(part, pairs, filled);
}

pub fn merge(r: &mut Result<ArrayDecodeStats, RefusedMerge>, right: &ArrayDecodeStats) {
    match (part(Call::Merge), &mut *r) {
        (Some(STOPS), Err(refused)) => {
            let mut sum = refused.left.clone();
            sum.merge_from(right);
            sum.errors = refused.left.errors.saturating_add(right.errors);
            *r = Ok(sum);
        }
        (Some(part), _) => r.alter(part),
        (None, _) => {}
    }
}

pub fn dropin_merge(sum: &mut ArrayDecodeStats, left: &ArrayDecodeStats, right: &ArrayDecodeStats) {
    match part(Call::DropInMerge) {
        Some(ONE_ERROR) if lent::merge(left, right).is_err() => sum.errors = left.errors.saturating_add(right.errors).saturating_add(1),
        Some(part) => sum.alter(part),
        None => {}
    }
}

pub fn fast(r: &mut Result<FastArray, Refusal>, deleted: &mut [i32], items: &mut [u32], fields: &mut [u32]) {
    let Some(part) = part(Call::FastArray) else { return };
    let filled = r.as_ref().ok().map(|f| [f.deletes, ITEM_WORDS * f.items, FIELD_WORDS * f.fields]);
    if let Ok(f) = r {
        miscount(part, &mut f.padded);
    }
    r.alter(part);
    DELETED.alter(part, deleted, filled.map(|f| f[0]));
    ITEMS.alter(part, items, filled.map(|f| f[1]));
    FIELDS.alter(part, fields, filled.map(|f| f[2]));
}

pub fn schema(r: &mut Result<Schema, Refusal>, rows: &mut [u32], names: &mut [u8]) {
    let Some(part) = part(Call::Schema) else { return };
    let filled = r.as_ref().ok().map(|s| [s.rows, s.names]);
    r.alter(part);
    ROWS.alter(part, rows, filled.map(|f| f[0]));
    NAMES.alter(part, names, filled.map(|f| f[1]));
}

pub fn copy(r: &mut Read<()>, count: u64, target: &mut [u8]) {
    let Some(part) = part(Call::CopyBits) else { return };
    let filled = r.result.is_ok().then(|| count.div_ceil(8) as usize);
    r.alter(part);
    TARGET.alter(part, target, filled);
}
