//! Every short window: all of up to so many bits; all strings of bytes that matter; all of up to so many bits against their openings. And
//! every cursor of small numbers.
use crate::answer::Difference;
use crate::case::{Bench, Case};
use crate::objects::ObjectCase;
use crate::openings::{Given, OpeningCase};
use crate::probes::ProbeCall;
use crate::reader::ReaderCase;
use crate::runner::Runner;
use crate::tables::{Declared, Schema};
use crate::walk::WalkCase;
use crate::window::Window;
use std::rc::Rc;
use vrf_proved::lent::{Cursor, Verdict};

/// The four walks that short windows are given to.
pub const WALKS: [&str; 4] = ["S", "S cycle", "X", "O"];

/// Bytes that begin, end, pad, fail or mean a small number, for strings.
const BYTES: [u8; 8] = [0x00, 0x01, 0x02, 0x03, 0x04, 0x08, 0x10, 0xff];

fn empty() -> Window {
    Window { bytes: vec![], bits: 0 }
}

/// A level that leads back to itself by the handles 0 and 1, in the types of both sides and of the counting copy.
static RUST_CYCLE: decode::array::ArrayFieldSchema = decode::array::ArrayFieldSchema {
    sub_arrays: &[(0, &RUST_CYCLE), (1, &RUST_CYCLE)],
    field_names: &[(0, "a")],
};
static COUNTING_CYCLE: counting_decode::array::ArrayFieldSchema = counting_decode::array::ArrayFieldSchema {
    sub_arrays: &[(0, &COUNTING_CYCLE), (1, &COUNTING_CYCLE)],
    field_names: &[(0, "a")],
};
static PORT_CYCLE: vrf_proved::ArrayFieldSchema = vrf_proved::ArrayFieldSchema {
    sub_arrays: &[(0, &PORT_CYCLE), (1, &PORT_CYCLE)],
    field_names: &[(0, "a")],
};

/// The same as a table, and declared names for the handles 0 to 2.
fn cycle() -> (Rc<Schema>, Rc<Declared>) {
    let schema = Schema {
        levels: 1,
        root: 0,
        rows: [[0, 0, 0, 0, 0], [0, 0, 1, 0, 0], [0, 1, 0, 0, 1]].concat(),
        names: b"a".to_vec(),
        linked: Some(&RUST_CYCLE),
        counting: Some(&COUNTING_CYCLE),
        dropin: Some(&PORT_CYCLE),
        twelve: None,
    };
    let names = ["x", "z", "y"].map(|n| Some(n.to_string()));
    (Rc::new(schema), Declared::of(names.to_vec()))
}

fn walk(number: usize) -> WalkCase {
    let (schema, declared) = if number == 1 { cycle() } else { (Schema::none(), Declared::none()) };
    WalkCase {
        exact: number == 2,
        window: empty(),
        schema,
        declared,
    }
}

fn case(number: usize) -> Case {
    match number {
        3 => Case::Objects(ObjectCase(empty())),
        _ => Case::Walk(walk(number)),
    }
}

fn window(case: &mut Case) -> Option<&mut Window> {
    match case {
        Case::Walk(w) => Some(&mut w.window),
        Case::Objects(o) => Some(&mut o.0),
        _ => None,
    }
}

/// Runs one walk on a window whose bytes are drawn behind its last bit.
fn one(runner: &mut Runner, row: usize, case: &mut Case, bytes: &[u8], bits: u32) -> bool {
    let Some(w) = window(case) else { return false };
    w.bytes.clear();
    w.bytes.extend_from_slice(bytes);
    w.bits = bits;
    runner.one(row, case)
}

/// Every window of 0 to `bits` bits. False: a difference was found.
pub fn windows(runner: &mut Runner, bits: u32) -> bool {
    for (number, name) in WALKS.iter().enumerate() {
        let row = runner.row(&format!("windows {name}"), &format!("all windows of up to {bits} bits"));
        let mut case = case(number);
        for len in 0..=bits {
            for value in 0..1u64 << len {
                let behind = (value ^ u64::from(len) << 40).wrapping_mul(0x9e37_79b9_7f4a_7c15);
                let bytes = (value | behind << len).to_le_bytes();
                if !one(runner, row, &mut case, &bytes[..(len as usize).div_ceil(8) + 1], len) {
                    return false;
                }
            }
        }
    }
    true
}

/// Every string of up to `len` of those bytes, cut at each bit of its last byte.
pub fn strings(runner: &mut Runner, len: usize) -> bool {
    for (number, name) in WALKS.iter().enumerate() {
        let row = runner.row(
            &format!("strings {name}"),
            &format!("all strings of up to {len} of 8 bytes, every cut"),
        );
        let mut case = case(number);
        for n in 1..=len {
            for code in 0..8usize.pow(n as u32) {
                let string: Vec<u8> = (0..n).map(|i| BYTES[code >> (3 * i) & 7]).collect();
                for cut in 0..8 {
                    if !one(runner, row, &mut case, &string, 8 * n as u32 - cut) {
                        return false;
                    }
                }
            }
        }
    }
    true
}

/// Numbers that stand about the edges of ten bytes.
const EDGES: [u64; 16] = [0, 1, 7, 8, 9, 15, 16, 31, 32, 33, 63, 64, 65, 79, 80, 81];

/// Every cursor of small numbers over 0, 1 and 2 bytes, and of edges over 10: every call of the bit reader that only tests have.
pub fn cursors(runner: &mut Runner) -> bool {
    let row = runner.row("all-cursors", "cursors of small numbers, good and bad, every call");
    let small: Vec<u64> = (0..=18).chain([u64::MAX]).collect();
    for bytes in [10, 0, 1, 2] {
        let numbers: &[u64] = if bytes == 10 { &EDGES } else { &small };
        let bytes: Vec<u8> = (0..bytes).map(|i: u8| 0x9d ^ i.wrapping_mul(0x47)).collect();
        let of = |i: usize| numbers[i % numbers.len()];
        for i in 0..numbers.len().pow(3) {
            let (start, pos, len) = (of(i), of(i / numbers.len()), of(i / numbers.len().pow(2)));
            let left = len.saturating_sub(pos);
            let counts = [0, 1, left, left.saturating_add(1), u64::MAX];
            let counted = counts
                .iter()
                .flat_map(|n| [ProbeCall::Open(*n), ProbeCall::SkipBits(*n), ProbeCall::SubReader(*n)]);
            for call in ProbeCall::all(2).into_iter().chain(counted) {
                let cursor = Cursor { start, pos, len };
                let case = ReaderCase {
                    call,
                    bytes: bytes.clone(),
                    cursor,
                };
                if !runner.one(row, &Case::Reader(case)) {
                    return false;
                }
            }
        }
    }
    true
}

/// Demand 3: every window of up to `bits` bits against every opening of it.
pub fn openings(runner: &mut Runner, bits: u32) -> bool {
    for (number, name) in WALKS.iter().enumerate() {
        let row = runner.row(
            &format!("all-openings {name}"),
            &format!("demand 3: all windows of up to {bits} bits"),
        );
        let mut root = match number {
            3 => OpeningCase::Objects(empty()),
            _ => OpeningCase::Walk(walk(number)),
        };
        root.window_mut().bytes = vec![0; (bits as usize).div_ceil(8)];
        let mut search = Search {
            case: root,
            bits,
            given: vec![Given::default(); bits as usize + 1],
            windows: 1,
            clean: 0,
        };
        OpeningCase::lend(&mut runner.bench.desk, bits);
        let found = search.start(&mut runner.bench);
        runner.many(row, search.windows, search.clean);
        if let Err(d) = found {
            return runner.differs(Case::Opening(search.case), d);
        }
    }
    true
}

/// A window that grows bit by bit, with the answers to all its openings.
struct Search {
    case: OpeningCase,
    bits: u32,
    given: Vec<Given>,
    windows: u64,
    clean: u64,
}

impl Search {
    fn start(&mut self, bench: &mut Bench) -> Result<(), Difference> {
        self.answer(bench, 0)?;
        self.grow(bench, 0)
    }

    fn answer(&mut self, bench: &mut Bench, len: u32) -> Result<(), Difference> {
        self.case.window_mut().bits = len;
        let answer = self.case.given(&mut bench.desk, &mut self.given[len as usize]);
        answer.map_err(|r| Difference::new("demand 3", "accepted", r))
    }

    fn grow(&mut self, bench: &mut Bench, len: u32) -> Result<(), Difference> {
        if len == self.bits {
            return Ok(());
        }
        for _ in 0..2 {
            self.answer(bench, len + 1)?;
            let long = &self.given[len as usize + 1];
            self.windows += 1;
            self.clean += u64::from(long.verdict == Verdict::Clean);
            for (i, short) in self.given[..=len as usize].iter().enumerate() {
                if let Some(what) = self.case.broken(i as u32, short, len + 1, long) {
                    return Err(Difference::new(
                        format!("demand 3, opening of {i} bits"),
                        "(the port by itself)",
                        what,
                    ));
                }
            }
            self.grow(bench, len + 1)?;
            // the second time with the bit set; after that it is 0 again
            self.case.window_mut().bytes[(len / 8) as usize] ^= 1 << (len % 8);
        }
        Ok(())
    }
}
