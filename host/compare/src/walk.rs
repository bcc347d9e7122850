//! Struct and exact walks.
use crate::answer::{Difference, Outcome, told, walked};
use crate::lent::Room;
use crate::port::Desk;
use crate::seen;
use crate::tables::{Declared, Schema};
use crate::verdicts;
use crate::window::Window;
use counting_decode::Seen;
use decode::array::{ArrayDecodeStats, FlattenedField, decode_struct_array, decode_struct_array_exact};
use oracle::answers::counters;
use oracle::text::{esc, hex};
use std::fmt;
use std::rc::Rc;
use vrf_proved::lent::{LEAF_WORDS, Refusal, Tables, Verdict, Walk};

#[derive(Clone)]
pub struct WalkCase {
    pub exact: bool,
    pub window: Window,
    pub schema: Rc<Schema>,
    pub declared: Rc<Declared>,
}

/// A walk's whole answer: what is counted, and what stands in the buffers.
#[derive(PartialEq)]
pub struct Flat {
    pub counters: [u64; 7],
    pub verdict: Verdict,
    pub padded: u32,
    pub leaves: Vec<u32>,
    pub paths: Vec<u8>,
    pub payloads: Vec<u8>,
}

/// Of a walk that was sent nothing.
impl Default for Flat {
    fn default() -> Self {
        Self {
            counters: [0; 7],
            verdict: Verdict::Empty,
            padded: 0,
            leaves: vec![],
            paths: vec![],
            payloads: vec![],
        }
    }
}

impl Flat {
    fn fill(&mut self, bits: u32, fields: &[FlattenedField], stats: &ArrayDecodeStats, seen: &Seen) {
        self.counters = counters(stats);
        self.verdict = verdicts::of_leaves(bits, stats.is_clean());
        self.padded = seen.padded;
        self.leaves.clear();
        self.paths.clear();
        self.payloads.clear();
        for (f, start) in fields.iter().zip(&seen.starts) {
            let (path, payload) = (self.paths.len() as u32, self.payloads.len() as u32);
            let record: [u32; LEAF_WORDS] = [path, f.path.len() as u32, f.handle, f.bit_count, payload, *start as u32];
            self.leaves.extend(record);
            self.paths.extend_from_slice(f.path.as_bytes());
            self.payloads.extend_from_slice(&f.raw_bits);
        }
    }

    fn needs(&self) -> [usize; 3] {
        [self.leaves.len(), self.paths.len(), self.payloads.len()]
    }
}

/// In the oracle's form with its trace, whose second number, the bits of all packed numbers, isn't known here.
impl fmt::Display for Flat {
    fn fmt(&self, f: &mut fmt::Formatter<'_>) -> fmt::Result {
        for c in self.counters {
            write!(f, "{c} ")?;
        }
        let verdict = verdicts::word(self.verdict);
        let (leaves, paths, payloads) = (self.leaves.len() / LEAF_WORDS, self.paths.len(), self.payloads.len());
        write!(f, "{verdict} need {leaves} {paths} {payloads}")?;
        for l in self.leaves.chunks(LEAF_WORDS) {
            let path = part(&self.paths, l[0], l[1]);
            let payload = part(&self.payloads, l[4], l[3].div_ceil(8));
            write!(f, " {}:{}:{}:{}", esc(path), l[2], l[3], hex(payload))?;
        }
        write!(f, " trace {} -", self.padded)?;
        self.leaves.chunks(LEAF_WORDS).try_for_each(|l| write!(f, " {}", l[5]))
    }
}

/// A part of a pool, or nothing where a wrong record points outside.
fn part(pool: &[u8], start: u32, len: u32) -> &[u8] {
    let start = start as usize;
    pool.get(start..start + len as usize).unwrap_or(&[])
}

pub fn port_counters(w: &vrf_proved::ArrayDecodeStats) -> [u64; 7] {
    [
        w.elements_decoded,
        w.fields_emitted,
        w.truncations,
        w.errors,
        w.unconsumed_nested_bits,
        w.unconsumed_root_bits,
        w.implicit_terminations,
    ]
}

impl WalkCase {
    pub fn line(&self) -> String {
        let kind = if self.exact { "X" } else { "S" };
        format!("{kind} {} {} {}", self.window.line(), self.schema.line(), self.declared.line())
    }

    pub fn rust(&self) -> (Vec<FlattenedField>, ArrayDecodeStats) {
        let mut stats = ArrayDecodeStats::default();
        let (bytes, bits, names) = (&self.window.bytes, self.window.bits, self.declared.names());
        let fields = if self.exact {
            decode_struct_array_exact(bytes, bits, &names, &mut stats)
        } else {
            decode_struct_array(bytes, bits, self.schema.linked, &names, &mut stats)
        };
        (fields, stats)
    }

    pub fn port(&self, desk: &mut Desk) -> Result<Walk, Refusal> {
        let (s, d, w) = (&self.schema, &self.declared, &self.window);
        if self.exact {
            return desk.struct_array_exact(&w.bytes, w.bits, &d.rows, &d.pool);
        }
        let tables = Tables {
            rows: &s.rows,
            levels: s.levels,
            root: s.root,
            names: &s.names,
            declared: &d.rows,
            declared_names: &d.pool,
        };
        desk.struct_array(&w.bytes, w.bits, tables)
    }

    /// `expected` is scratch: it holds the Rust's answer afterwards.
    pub fn check(&self, desk: &mut Desk, expected: &mut Flat) -> Result<Outcome, Difference> {
        let (fields, stats) = self.rust();
        let seen = seen::of_walk(self, &fields, &stats);
        expected.fill(self.window.bits, &fields, &stats, &seen);
        let needs = expected.needs();
        for room in Room::all(needs) {
            let lent = room.of(needs);
            desk.leaves.lend(lent[0], room.words());
            desk.paths.lend(lent[1], room.pattern());
            desk.payloads.lend(lent[2], room.pattern());
            let answer = self.port(desk);
            if !agrees(&answer, desk, expected, room) {
                let call = room.name(["leaves", "paths", "payloads"]);
                let asked = if let Room::Short(_) = room {
                    "refusal 3, nothing written, where: "
                } else {
                    ""
                };
                return Err(Difference::new(call, format!("{asked}{expected}"), shown(&answer, desk, needs)));
            }
        }
        crate::dropin::walk(self, &fields, &stats, expected.verdict, &seen)?;
        Ok(walked(expected.verdict))
    }

    pub fn smaller(&self) -> Box<dyn Iterator<Item = Self> + '_> {
        let windows = self.window.smaller().map(|window| Self { window, ..self.clone() });
        let schemas = self.schema.smaller().into_iter().map(|schema| Self { schema, ..self.clone() });
        let bare = (!self.declared.rows.is_empty()).then(|| Self {
            declared: Declared::none(),
            ..self.clone()
        });
        Box::new(bare.into_iter().chain(windows).chain(schemas))
    }
}

fn agrees(answer: &Result<Walk, Refusal>, desk: &Desk, e: &Flat, room: Room) -> bool {
    let [leaves, paths, payloads] = e.needs();
    let leaves = leaves / LEAF_WORDS;
    match (answer, room) {
        (Err(r), Room::Short(_)) => {
            r.number == 3
                && r.values == [leaves, paths, payloads].map(|n| n as u64)
                && desk.leaves.holds(&[])
                && desk.paths.holds(&[])
                && desk.payloads.holds(&[])
        }
        (Ok(w), Room::Full | Room::Longer) => {
            (w.leaves, w.path_bytes, w.payload_bytes) == (leaves, paths, payloads)
                && port_counters(&w.counters) == e.counters
                && w.verdict == e.verdict
                && w.padded == e.padded
                && desk.leaves.holds(&e.leaves)
                && desk.paths.holds(&e.paths)
                && desk.payloads.holds(&e.payloads)
        }
        _ => false,
    }
}

fn shown(answer: &Result<Walk, Refusal>, desk: &Desk, needs: [usize; 3]) -> String {
    let clean = [desk.leaves.holds(&[]), desk.paths.holds(&[]), desk.payloads.holds(&[])];
    match answer {
        Err(r) => format!("{}{}", told(r), if clean == [true; 3] { "" } else { ", and a buffer is written" }),
        Ok(w) => {
            let flat = Flat {
                counters: port_counters(&w.counters),
                verdict: w.verdict,
                padded: w.padded,
                leaves: desk.leaves.front(LEAF_WORDS * w.leaves).to_vec(),
                paths: desk.paths.front(w.path_bytes).to_vec(),
                payloads: desk.payloads.front(w.payload_bytes).to_vec(),
            };
            let untouched = desk.leaves.holds(&flat.leaves) && desk.paths.holds(&flat.paths) && desk.payloads.holds(&flat.payloads)
                || flat.needs() != needs;
            format!(
                "{flat}{}",
                if untouched {
                    ""
                } else {
                    ", and a cell behind the filled ones is written"
                }
            )
        }
    }
}
