//! Which faults there are, and the kinds that have to tell of each.
use super::cells::{Buffer, DELETED, FIELDS, ITEMS, LEAVES, NAMES, PAIRS, PATHS, PAYLOADS, ROWS, TARGET};
use super::parts::Parts;
use super::starts::{BEFORE_WIDTH, BEHIND_NUMBER, FROM_CHILD, ONE_BIT_MORE, PAYLOAD_TWICE, TAIL_FROM_CHILD, WINDOW_TWICE};
use super::{
    CLEAN, Call, EMPTY, Fault, GIVEN, LOST, LOST_START, NO_BITS, ONE_ERROR, ONE_MORE, ONE_PADDED, REFUSED, SHORT_FORM, STOPS, UNCOUNTED,
    probed,
};
use crate::probes::{Probe, ProbeCall};
use std::sync::OnceLock;
use vrf_proved::fastarray::{FastArrayDelta, FastArrayRead};
use vrf_proved::lent::{FastArray, Movement, Objects, Packed, Read, Refusal, RefusedMerge, Schema, Walk};
use vrf_proved::{ArrayDecodeStats, DecodeError, Decoded, FRepMovement, FlattenedField, MovementRead, PlacedField};

const STRUCTS: &[&str] = &["none", "twelve", "tables", "deep", "edges", "exact", "padded"];
const OBJECTS: &[&str] = &["objects", "edges", "padded"];
const WALKS: &[&str] = &["none", "twelve", "tables", "deep", "edges", "exact", "objects", "padded"];
const FAST: &[&str] = &["fast"];
const MOVEMENT: &[&str] = &["movement"];
const MERGE: &[&str] = &["merge"];
const SCHEMA: &[&str] = &["schema"];

/// The faults, numbered from 1 on the command line.
pub fn all() -> &'static [Fault] {
    static ALL: OnceLock<Vec<Fault>> = OnceLock::new();
    ALL.get_or_init(|| {
        let mut list = List(vec![]);
        list.lent();
        list.dropin();
        list.further();
        list.0
    })
}

struct List(Vec<Fault>);

impl List {
    fn add(&mut self, call: Call, parts: Vec<String>, kinds: &[&'static str]) {
        for part in parts {
            let kinds = kinds.to_vec();
            self.0.push(Fault { call, part, kinds });
        }
    }

    fn answer<T: Parts>(&mut self, call: Call, kinds: &[&'static str]) {
        self.add(call, T::names(""), kinds);
    }

    fn buffers(&mut self, call: Call, buffers: &[Buffer], kinds: &[&'static str]) {
        for buffer in buffers {
            self.add(call, buffer.names(), kinds);
        }
    }

    /// More kinds that have to tell of those faults of a call that are asked for.
    fn also(&mut self, kinds: &[&'static str], asked: impl Fn(Call, &str) -> bool) {
        for fault in self.0.iter_mut().filter(|f| asked(f.call, &f.part)) {
            fault.kinds.extend(kinds);
        }
    }

    /// The interface with lent buffers, and the calls for tests.
    fn lent(&mut self) {
        self.answer::<Result<Walk, Refusal>>(Call::Walk, STRUCTS);
        self.buffers(Call::Walk, &[LEAVES, PATHS, PAYLOADS], STRUCTS);
        self.answer::<Result<Objects, Refusal>>(Call::Objects, OBJECTS);
        self.buffers(Call::Objects, &[PAIRS], OBJECTS);
        self.answer::<Result<ArrayDecodeStats, RefusedMerge>>(Call::Merge, MERGE);
        self.add(Call::Verdict, vec!["verdict".into()], MERGE);
        self.answer::<Result<Schema, Refusal>>(Call::Schema, SCHEMA);
        self.buffers(Call::Schema, &[ROWS, NAMES], SCHEMA);
        self.answer::<Result<FastArray, Refusal>>(Call::FastArray, FAST);
        self.buffers(Call::FastArray, &[DELETED, ITEMS, FIELDS], FAST);
        self.answer::<Read<u64>>(Call::ReadBits, &["bits"]);
        self.answer::<Read<Packed>>(Call::ReadPacked, &["packed"]);
        self.answer::<Read<u64>>(Call::ReadSerialized, &["serialized"]);
        self.answer::<Read<()>>(Call::CopyBits, &["copy"]);
        self.buffers(Call::CopyBits, &[TARGET], &["copy"]);
        self.answer::<Read<[f64; 3]>>(Call::Vector, &["vector"]);
        self.answer::<Read<[f64; 3]>>(Call::Normal, &["normal"]);
        self.answer::<Read<[f32; 3]>>(Call::Rotation, &["rotation"]);
        self.answer::<Option<u32>>(Call::ByteAngleSteps, &["angles"]);
        self.answer::<Option<u32>>(Call::ByteAngleEntry, &["angles"]);
        self.answer::<Read<Movement>>(Call::Movement, MOVEMENT);
        for call in ProbeCall::all(0) {
            self.probes(call);
        }
    }

    /// Every part of what each call for tests gives, accepted and refused.
    fn probes(&mut self, call: ProbeCall) {
        let parts = |which| Probe::names("").into_iter().map(|part| probed(call, which, &part)).collect();
        let random = if call.width().is_some() { "reads" } else { "readers" };
        self.add(Call::Probe, parts(GIVEN), &[random, "all-cursors"]);
        let refusing: &[&str] = match call {
            ProbeCall::New => return,
            ProbeCall::Open(_) => &["readers", "all-cursors"],
            ProbeCall::SkipBits(_) | ProbeCall::SubReader(_) => &["readers", "cursors", "all-cursors"],
            _ if call.width().is_some() => &["reads", "cursors", "all-cursors"],
            _ => &["cursors", "all-cursors"],
        };
        self.add(Call::Probe, parts(REFUSED), refusing);
    }

    /// The original's names.
    fn dropin(&mut self) {
        self.answer::<Vec<FlattenedField>>(Call::DropInLeaves, STRUCTS);
        self.answer::<ArrayDecodeStats>(Call::DropInStats, WALKS);
        self.answer::<Vec<(u32, u32)>>(Call::DropInPairs, OBJECTS);
        self.answer::<Vec<(u32, u32)>>(Call::DropInPlainPairs, OBJECTS);
        self.answer::<FastArrayDelta>(Call::DropInFastArray, FAST);
        self.answer::<FRepMovement>(Call::DropInMovement, MOVEMENT);
        let (other, errors) = DecodeError::names("refused").into_iter().partition(|part| part.contains("other"));
        self.add(Call::DropInMovement, errors, MOVEMENT);
        self.add(Call::DropInMovement, other, &["refusals"]);
        self.answer::<ArrayDecodeStats>(Call::DropInMerge, MERGE);
        self.add(Call::DropInClean, vec!["truth".into()], &["merge", "none", "objects"]);
        self.answer::<Decoded<PlacedField>>(Call::TryLeaves, STRUCTS);
        self.answer::<Decoded<(u32, u32)>>(Call::TryPairs, OBJECTS);
        self.answer::<Result<FastArrayRead, Refusal>>(Call::TryFastArray, FAST);
        self.answer::<Result<MovementRead, Refusal>>(Call::TryMovement, MOVEMENT);
        self.answer::<Result<(), Refusal>>(Call::TryMerge, MERGE);
        self.answer::<ArrayDecodeStats>(Call::TryMergeSum, MERGE);
    }

    /// What else has to tell: the kinds that run to their end, and those that hold the port to the rules or to itself.
    fn further(&mut self) {
        let plain = |part: &str| !part.contains("refused") && !part.contains(": ");
        self.also(&["windows"], |call, part| call == Call::Walk && plain(part));
        self.also(&["strings"], |call, part| {
            call == Call::Walk && (plain(part) || part.starts_with("leaves: ") || part.starts_with("paths: "))
        });
        self.also(&["windows", "strings"], |call, part| call == Call::Objects && part == "verdict");
        self.also(&["largest"], |call, part| {
            call == Call::Walk && (part.contains("last") || part.contains("refused")) || call == Call::Objects && part.contains("last")
        });
        self.also(&["numbers"], |call, part| {
            matches!(call, Call::Vector | Call::Normal | Call::Rotation) && !part.contains("refused")
        });
        self.also(&["angles"], |call, part| {
            call == Call::Rotation && !part.contains("refused") || call == Call::Movement && part.starts_with("rotation")
        });
        self.also(&["refusals"], |call, part| {
            let elsewhere = matches!(
                call,
                Call::Merge | Call::Schema | Call::Probe | Call::DropInMovement | Call::TryMerge
            );
            !elsewhere && (part.contains("refused") || part.contains("written")) || call == Call::DropInStats
        });
        self.add(Call::TryLeaves, Refusal::names("refused"), &["refusals"]);
        self.add(Call::TryPairs, Refusal::names("refused"), &["refusals"]);
        self.add(Call::Walk, vec![CLEAN.into()], &["windows", "strings", "openings", "all-openings"]);
        self.add(Call::Walk, vec![EMPTY.into()], &["windows", "openings", "all-openings"]);
        self.add(Call::Walk, vec![UNCOUNTED.into()], &["windows", "strings"]);
        self.add(Call::Walk, [LOST, LOST_START].map(String::from).into(), &["openings"]);
        self.add(Call::Objects, vec![CLEAN.into()], &["openings", "all-openings"]);
        self.add(Call::Objects, vec![UNCOUNTED.into()], &["windows", "strings"]);
        self.add(Call::Objects, vec![NO_BITS.into()], &["windows"]);
        self.add(Call::Objects, vec![LOST.into()], &["openings"]);
        self.also(&["totals"], |call, part| {
            let sums = matches!(call, Call::Merge | Call::Verdict | Call::DropInMerge | Call::TryMergeSum);
            sums && !part.contains("refused")
        });
        for (call, kinds) in [
            (Call::Walk, STRUCTS),
            (Call::Objects, OBJECTS),
            (Call::FastArray, FAST),
            (Call::Movement, MOVEMENT),
        ] {
            self.add(call, [SHORT_FORM, ONE_PADDED, ONE_MORE].map(String::from).into(), kinds);
        }
        self.add(Call::ReadPacked, vec![SHORT_FORM.into()], &["packed"]);
        let placed = [ONE_BIT_MORE, BEFORE_WIDTH, PAYLOAD_TWICE, WINDOW_TWICE];
        self.add(Call::Walk, placed.map(String::from).into(), STRUCTS);
        self.also(&["strings", "largest"], |call, part| call == Call::Walk && placed.contains(&part));
        let children = &["twelve", "tables", "deep", "edges", "padded", "largest"];
        self.add(Call::Walk, vec![FROM_CHILD.into()], children);
        self.add(Call::Walk, vec![TAIL_FROM_CHILD.into()], &["edges", "padded"]);
        self.add(Call::Walk, vec![BEHIND_NUMBER.into()], STRUCTS);
        let walks = |call| matches!(call, Call::Walk | Call::Objects);
        self.also(&["windows"], |call, part| walks(call) && [SHORT_FORM, ONE_MORE].contains(&part));
        self.also(&["strings"], |call, part| {
            walks(call) && [SHORT_FORM, ONE_PADDED, ONE_MORE].contains(&part)
        });
        self.add(Call::Merge, vec![STOPS.into()], &["merge", "totals"]);
        self.add(Call::DropInMerge, vec![ONE_ERROR.into()], &["merge", "totals"]);
    }
}
