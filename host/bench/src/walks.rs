//! Struct and exact walks.

use crate::bits::Bits;
use crate::row::{alike, side, Row, Sides, Way};
use crate::windows;
use decode::array as original;
use std::hint::black_box;
use std::rc::Rc;
use vrf_proved::lent::{self, Buffers, Refusal, Tables, Walk, LEAF_WORDS, SCHEMA_NAMES, SCHEMA_ROWS};

/// Which call, with which tables.
#[derive(Clone, Copy, PartialEq)]
enum Kind {
    /// The combat rounds' schema.
    Combat,
    /// No schema.
    Plain,
    /// No schema, ten declared names.
    Named,
    /// The exact walk.
    Exact,
}

const NAMES: [&str; 10] = [
    "Subject", "Team", "Score", "Kills", "Deaths", "Assists", "Credits", "Loadout", "Ultimate", "Alive",
];

/// A window with the tables of its kind, as both sides take them.
struct Case {
    window: Bits,
    kind: Kind,
    rows: Vec<u32>,
    names: Vec<u8>,
    levels: u32,
    declared: Vec<u32>,
    pool: Vec<u8>,
    declared_names: Vec<Option<&'static str>>,
}

impl Case {
    fn new(window: Bits, kind: Kind) -> Self {
        let (mut rows, mut names) = (vec![0; SCHEMA_ROWS], vec![0; SCHEMA_NAMES]);
        let levels = match lent::schema(&mut rows, &mut names) {
            Ok(schema) if kind == Kind::Combat => schema.levels,
            _ => 0,
        };
        if levels == 0 {
            (rows, names) = (Vec::new(), Vec::new());
        }
        let declared_names: Vec<_> = NAMES.iter().copied().filter(|_| kind == Kind::Named).map(Some).collect();
        let (mut declared, mut pool) = (Vec::new(), Vec::new());
        for name in declared_names.iter().flatten() {
            declared.extend([pool.len() as u32, name.len() as u32]);
            pool.extend(name.bytes());
        }
        Self {
            window,
            kind,
            rows,
            names,
            levels,
            declared,
            pool,
            declared_names,
        }
    }

    fn port(&self, lent: Buffers<'_>) -> Result<Walk, Refusal> {
        let (bytes, bits) = (&self.window.bytes[..], self.window.count);
        if self.kind == Kind::Exact {
            return lent::struct_array_exact(bytes, bits, &self.declared, &self.pool, lent);
        }
        let tables = Tables {
            rows: &self.rows,
            levels: self.levels,
            root: if self.levels == 0 { lent::NONE } else { 1 },
            names: &self.names,
            declared: &self.declared,
            declared_names: &self.pool,
        };
        lent::struct_array(bytes, bits, tables, lent)
    }

    fn drop_in(&self) -> Vec<vrf_proved::FlattenedField> {
        let (bytes, bits) = (&self.window.bytes[..], self.window.count);
        let mut stats = vrf_proved::ArrayDecodeStats::default();
        let schema = (self.kind == Kind::Combat).then_some(&vrf_proved::COMBAT_ROUNDS_SCHEMA);
        match self.kind {
            Kind::Exact => vrf_proved::decode_struct_array_exact(bytes, bits, &self.declared_names, &mut stats),
            _ => vrf_proved::decode_struct_array(bytes, bits, schema, &self.declared_names, &mut stats),
        }
    }

    fn rust(&self) -> (Vec<original::FlattenedField>, original::ArrayDecodeStats) {
        let (bytes, bits) = (&self.window.bytes[..], self.window.count);
        let mut stats = original::ArrayDecodeStats::default();
        let schema = (self.kind == Kind::Combat).then_some(&original::COMBAT_ROUNDS_SCHEMA);
        let leaves = match self.kind {
            Kind::Exact => original::decode_struct_array_exact(bytes, bits, &self.declared_names, &mut stats),
            _ => original::decode_struct_array(bytes, bits, schema, &self.declared_names, &mut stats),
        };
        (leaves, stats)
    }
}

/// Buffers as large as a walk needs.
struct Lent {
    leaves: Vec<u32>,
    paths: Vec<u8>,
    payloads: Vec<u8>,
}

impl Lent {
    fn needed(case: &Case) -> Self {
        let [leaves, paths, payloads] = match case.port(Buffers::default()) {
            Err(refusal) => refusal.values.map(|n| n as usize),
            Ok(_) => [0; 3],
        };
        Self {
            leaves: vec![0; LEAF_WORDS * leaves],
            paths: vec![0; paths],
            payloads: vec![0; payloads],
        }
    }

    fn buffers(&mut self) -> Buffers<'_> {
        Buffers {
            leaves: &mut self.leaves,
            paths: &mut self.paths,
            payloads: &mut self.payloads,
        }
    }

    fn clear(&mut self) {
        self.leaves.fill(0);
        self.paths.fill(0);
        self.payloads.fill(0);
    }
}

/// Both sides give the same leaves and counters.
fn agree(case: &Case, lent: &mut Lent) -> bool {
    let (leaves, stats) = case.rust();
    let Ok(walk) = case.port(lent.buffers()) else {
        return false;
    };
    alike(&case.drop_in(), &leaves)
        && alike(&walk.counters, &stats)
        && walk.leaves == leaves.len()
        && leaves.iter().zip(lent.leaves.chunks(LEAF_WORDS)).all(|(f, w)| same(f, w, lent))
}

fn same(field: &original::FlattenedField, words: &[u32], lent: &Lent) -> bool {
    let at = |k: usize| words[k] as usize;
    let path = &lent.paths[at(0)..at(0) + at(1)];
    let payload = &lent.payloads[at(4)..at(4) + field.raw_bits.len()];
    path == field.path.as_bytes() && payload == field.raw_bits && [words[2], words[3]] == [field.handle, field.bit_count]
}

fn sides(window: Bits, kind: Kind, way: Way) -> Sides {
    let case = Rc::new(Case::new(window, kind));
    let mut lent = Lent::needed(&case);
    assert!(agree(&case, &mut lent), "the walks differ");
    let theirs = Rc::clone(&case);
    let rust = side(move || {
        black_box(black_box(&*theirs).rust());
    });
    let port = match way {
        Way::Lent => side(move || {
            black_box((black_box(&*case).port(lent.buffers()).is_ok(), &lent.leaves));
        }),
        Way::Cleared => side(move || {
            lent.clear();
            black_box(&lent.leaves);
            black_box((black_box(&*case).port(lent.buffers()).is_ok(), &lent.leaves));
        }),
        Way::Nothing => side(move || {
            black_box(black_box(&*case).port(Buffers::default()).is_ok());
        }),
        Way::DropIn => side(move || {
            black_box(black_box(&*case).drop_in());
        }),
    };
    Sides { units: 1, rust, port }
}

fn row(what: &str, window: &Bits, kind: Kind, way: Way) -> Row {
    let window = window.clone();
    Row::new(format!("{what}, {} bits{}", window.count, way.told()), "window", move || {
        sides(window.clone(), kind, way)
    })
}

pub fn rows() -> Vec<Row> {
    let combat = windows::combat(6, false);
    let cut = Bits {
        count: 60_000,
        ..combat.clone()
    };
    let flat = windows::flat(200);
    let mut rows = Vec::new();
    for way in [Way::Lent, Way::Cleared, Way::Nothing, Way::DropIn] {
        rows.push(row("nested combat", &combat, Kind::Combat, way));
    }
    rows.push(row("nested combat", &windows::combat(1, false), Kind::Combat, Way::Lent));
    for way in [Way::Lent, Way::Cleared, Way::Nothing, Way::DropIn] {
        rows.push(row("flat", &flat, Kind::Plain, way));
    }
    rows.push(row("flat, declared names", &flat, Kind::Named, Way::Lent));
    rows.push(row("flat, exact", &flat, Kind::Exact, Way::Lent));
    for way in [Way::Lent, Way::Cleared, Way::Nothing, Way::DropIn] {
        rows.push(row("one element, ten fields", &windows::flat(1), Kind::Plain, way));
    }
    for way in [Way::Lent, Way::DropIn] {
        rows.push(row("one element, one field", &windows::least(), Kind::Plain, way));
    }
    rows.push(row("one element, one field, schema", &windows::least(), Kind::Combat, Way::Lent));
    rows.push(row("one element, one field, exact", &windows::least(), Kind::Exact, Way::Lent));
    rows.push(row("no elements", &windows::no_elements(), Kind::Plain, Way::Lent));
    rows.push(row("nothing sent", &Bits::default(), Kind::Plain, Way::Lent));
    rows.push(row("damaged: combat cut", &cut, Kind::Combat, Way::Lent));
    rows.push(row(
        "damaged: combat broken inside",
        &windows::combat(6, true),
        Kind::Combat,
        Way::Lent,
    ));
    rows.push(row("damaged: kept tail", &windows::tail(90_000), Kind::Plain, Way::Lent));
    rows
}
