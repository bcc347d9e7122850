//! The same cases through the names that host/rust takes over from the original.
use crate::answer::{Difference, of_decode_error, refused};
use crate::fast::FastCase;
use crate::faults::{self, Call};
use crate::movement::MovementCase;
use crate::walk::{WalkCase, port_counters};
use crate::window::Window;
use counting_decode::Seen;
use decode::array::{ArrayDecodeStats, FlattenedField};
use decode::decode::DecodeError;
use decode::fastarray::FastArrayDelta;
use decode::types::{FRepMovement, RotatorQuantization, VectorQuantization};
use oracle::answers::counters;
use oracle::tables::{Links, Names};
use vrf_proved::lent::{Refusal, Verdict};
use vrf_proved::{self as port, ArrayFieldSchema, Decoded};

pub fn level(sub_arrays: Links<ArrayFieldSchema>, field_names: Names) -> ArrayFieldSchema {
    ArrayFieldSchema { sub_arrays, field_names }
}

/// The twelve levels, the statics themselves, in the order of their numbers; the private ones are reached by links.
pub fn levels() -> [&'static ArrayFieldSchema; 12] {
    fn below(s: &'static ArrayFieldSchema, i: usize) -> &'static ArrayFieldSchema {
        s.sub_arrays[i].1
    }
    let report = below(&port::COMBAT_ROUNDS_SCHEMA, 0);
    let participant = below(report, 0);
    let (dealt, received) = (below(participant, 0), below(participant, 1));
    [
        below(dealt, 0),
        &port::COMBAT_ROUNDS_SCHEMA,
        &port::ABILITY_CASTS_SCHEMA,
        &port::ABILITY_EFFECTS_SCHEMA,
        &port::LIFE_CHANGE_DAMAGE_SCHEMA,
        &port::LIFE_CHANGE_SECTION_SCHEMA,
        &port::LIFE_CHANGE_BY_SECTION_SCHEMA,
        dealt,
        received,
        participant,
        report,
        below(&port::ABILITY_EFFECTS_SCHEMA, 0),
    ]
}

/// Stats are handed in with something in them: a walk adds to them.
const BEFORE: u64 = 3;

fn before() -> port::ArrayDecodeStats {
    port::ArrayDecodeStats {
        elements_decoded: BEFORE,
        ..Default::default()
    }
}

fn same_stats(rust: &ArrayDecodeStats, given: &mut port::ArrayDecodeStats) -> bool {
    faults::answer(Call::DropInStats, given);
    let mut clean = given.is_clean();
    faults::answer(Call::DropInClean, &mut clean);
    let mut expected = counters(rust);
    expected[0] += BEFORE;
    port_counters(given) == expected && clean == rust.is_clean()
}

/// What a form that says a refusal gives: the walk's own counters, from zero; `said`: the verdict on its window, and its padded numbers.
fn same_decoded<T>(
    given: &Result<Decoded<T>, Refusal>,
    stats: &ArrayDecodeStats,
    said: (Verdict, u32),
    values: impl FnOnce(&[T]) -> bool,
) -> bool {
    given
        .as_ref()
        .is_ok_and(|d| values(&d.values) && port_counters(&d.stats) == counters(stats) && (d.verdict, d.padded) == said)
}

fn same_fields<'a>(rust: &[FlattenedField], given: impl ExactSizeIterator<Item = &'a port::FlattenedField>) -> bool {
    let same = |(a, b): (&FlattenedField, &port::FlattenedField)| {
        a.path == b.path && a.handle == b.handle && a.bit_count == b.bit_count && a.raw_bits == b.raw_bits
    };
    rust.len() == given.len() && rust.iter().zip(given).all(same)
}

pub fn walk(case: &WalkCase, fields: &[FlattenedField], stats: &ArrayDecodeStats, verdict: Verdict, seen: &Seen) -> Result<(), Difference> {
    if case.schema.dropin.is_none() && case.schema.linked.is_some() {
        return Ok(()); // an unrolled table that is larger than a table may be
    }
    let (w, names, mut given) = (&case.window, case.declared.names(), before());
    let mut leaves = if case.exact {
        port::decode_struct_array_exact(&w.bytes, w.bits, &names, &mut given)
    } else {
        port::decode_struct_array(&w.bytes, w.bits, case.schema.dropin, &names, &mut given)
    };
    faults::answer(Call::DropInLeaves, &mut leaves);
    let mut tried = if case.exact {
        port::try_decode_struct_array_exact(&w.bytes, w.bits, &names)
    } else {
        port::try_decode_struct_array(&w.bytes, w.bits, case.schema.dropin, &names)
    };
    faults::answer(Call::TryLeaves, &mut tried);
    let same_tried = same_decoded(&tried, stats, (verdict, seen.padded), |leaves| {
        let starts = leaves.iter().map(|leaf| u64::from(leaf.window_start));
        same_fields(fields, leaves.iter().map(|leaf| &leaf.field)) && starts.eq(seen.starts.iter().copied())
    });
    if same_fields(fields, leaves.iter()) && same_stats(stats, &mut given) && same_tried {
        return Ok(());
    }
    Err(Difference::new(
        "the drop-in",
        format!("{fields:?} {stats:?}, padded {}, starts {:?}", seen.padded, seen.starts),
        format!("{leaves:?} {given:?}, tried: {tried:?}"),
    ))
}

pub fn objects(w: &Window, pairs: &[(u32, u32)], stats: &ArrayDecodeStats, verdict: Verdict, padded: u32) -> Result<(), Difference> {
    let mut given = before();
    let mut found = port::decode_object_ref_array_with_stats(&w.bytes, w.bits, &mut given);
    let mut plain = port::decode_object_ref_array(&w.bytes, w.bits);
    faults::answer(Call::DropInPairs, &mut found);
    faults::answer(Call::DropInPlainPairs, &mut plain);
    let mut tried = port::try_decode_object_ref_array(&w.bytes, w.bits);
    faults::answer(Call::TryPairs, &mut tried);
    let same_tried = same_decoded(&tried, stats, (verdict, padded), |found| found == pairs);
    if found == pairs && plain == pairs && same_stats(stats, &mut given) && same_tried {
        return Ok(());
    }
    Err(Difference::new(
        "the drop-in",
        format!("{pairs:?} {stats:?}, padded {padded}"),
        format!("{found:?} {given:?}, without counters {plain:?}, tried: {tried:?}"),
    ))
}

pub fn fast(case: &FastCase, body: Option<&FastArrayDelta>, padded: u32) -> Result<(), Difference> {
    use port::fastarray::{ChecksumMode, decode_fast_array_delta, try_decode_fast_array_delta};
    let mode = if case.flags { ChecksumMode::Present } else { ChecksumMode::Absent };
    let mut found = decode_fast_array_delta(&case.window.bytes, case.window.bits, mode);
    if let Some(body) = &mut found {
        faults::answer(Call::DropInFastArray, body);
    }
    // The types have the same fields under the same names, so the same text.
    let (rust, found) = (format!("{body:?}"), format!("{:?}", found.as_ref()));
    let mut tried = try_decode_fast_array_delta(&case.window.bytes, case.window.bits, mode);
    faults::answer(Call::TryFastArray, &mut tried);
    let tried_same = match &tried {
        Ok(given) => body.is_some_and(|body| format!("{body:?}") == format!("{:?}", given.delta)) && given.padded == padded,
        Err(refusal) => body.is_none() && *refusal == refused(6, [0; 3]),
    };
    if rust == found && tried_same {
        return Ok(());
    }
    let rust = format!("{rust}, padded {padded}");
    Err(Difference::new("the drop-in", rust, format!("{found}, tried: {tried:?}")))
}

pub fn movement(case: &MovementCase, answer: &Result<FRepMovement, DecodeError>, position: u64, padded: u32) -> Result<(), Difference> {
    let (rotation, location) = case.quantization();
    let rotation = match rotation {
        RotatorQuantization::ByteComponents => port::RotatorQuantization::ByteComponents,
        RotatorQuantization::ShortComponents => port::RotatorQuantization::ShortComponents,
    };
    let location = match location {
        VectorQuantization::RoundWholeNumber => port::VectorQuantization::RoundWholeNumber,
        VectorQuantization::RoundOneDecimal => port::VectorQuantization::RoundOneDecimal,
        VectorQuantization::RoundTwoDecimals => port::VectorQuantization::RoundTwoDecimals,
    };
    let mut found = port::read_rep_movement(&case.window.bytes, case.window.bits, rotation, location);
    faults::answer(Call::DropInMovement, &mut found);
    // The same text: fields by `Debug`, which prints -0 and every digit, and the record's own JSON form.
    let rust = answer.as_ref().map(|m| format!("{m} {m:?}")).map_err(|e| format!("{e:?}"));
    let found = found.map(|m| format!("{m} {m:?}")).map_err(|e| format!("{e:?}"));
    let mut tried = port::try_read_rep_movement(&case.window.bytes, case.window.bits, rotation, location);
    faults::answer(Call::TryMovement, &mut tried);
    let expected = answer
        .as_ref()
        .map(|m| (format!("{m:?}"), position, padded))
        .map_err(of_decode_error);
    let tried = tried.map(|read| (format!("{:?}", read.record), read.used, read.padded));
    if rust == found && expected == tried {
        return Ok(());
    }
    let rust = format!("{rust:?} @{position}, padded {padded}");
    Err(Difference::new("the drop-in", rust, format!("{found:?}, tried: {tried:?}")))
}

/// A window over the longest, which the Rust would walk: refusal 1 where a refusal can be said; else one error and nothing decoded.
pub fn too_long(w: &Window) -> Result<(), Difference> {
    use port::fastarray::{ChecksumMode, decode_fast_array_delta, try_decode_fast_array_delta};
    let (bytes, bits) = (&w.bytes, w.bits);
    let one_error = ArrayDecodeStats {
        errors: 1,
        ..Default::default()
    };
    let mut stats = [before(), before(), before()];
    let [structs, exact, objects] = &mut stats;
    let nothing = port::decode_struct_array(bytes, bits, None, &[], structs).is_empty()
        && port::decode_struct_array_exact(bytes, bits, &[], exact).is_empty()
        && port::decode_object_ref_array_with_stats(bytes, bits, objects).is_empty()
        && decode_fast_array_delta(bytes, bits, ChecksumMode::Absent).is_none();
    let counted = stats.iter_mut().all(|given| same_stats(&one_error, given));
    let mut leaves = port::try_decode_struct_array(bytes, bits, None, &[]);
    let mut exact = port::try_decode_struct_array_exact(bytes, bits, &[]);
    let mut pairs = port::try_decode_object_ref_array(bytes, bits);
    let mut body = try_decode_fast_array_delta(bytes, bits, ChecksumMode::Present);
    let (width, scale) = (port::RotatorQuantization::ByteComponents, port::VectorQuantization::RoundOneDecimal);
    let mut record = port::try_read_rep_movement(bytes, bits, width, scale);
    let mut movement = port::read_rep_movement(bytes, bits, width, scale);
    faults::answer(Call::TryLeaves, &mut leaves);
    faults::answer(Call::TryLeaves, &mut exact);
    faults::answer(Call::TryPairs, &mut pairs);
    faults::answer(Call::TryFastArray, &mut body);
    faults::answer(Call::TryMovement, &mut record);
    faults::answer(Call::DropInMovement, &mut movement);
    let said = [
        leaves.err(),
        exact.err(),
        pairs.err(),
        body.err(),
        record.err(),
        movement.err().map(|e| e.refusal()),
    ];
    if nothing && counted && said == [Some(refused(1, [0; 3])); 6] {
        return Ok(());
    }
    let expected = "nothing decoded, one error, refusal 1 six times";
    Err(Difference::new(
        "the drop-in",
        expected,
        format!("nothing: {nothing}, {stats:?}, {said:?}"),
    ))
}
