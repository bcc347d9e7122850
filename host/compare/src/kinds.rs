//! The kinds of random cases: how each is drawn, and how many of it in a round.
use crate::bits::Bits;
use crate::case::Case;
use crate::generate::tables::{Bank, cyclic, random_declared};
use crate::generate::{arrays, edges, fast, numbers, padded, readers, refusals, totals};
use crate::objects::ObjectCase;
use crate::openings::OpeningCase;
use crate::rng::Rng;
use crate::tables::{Declared, Schema};
use crate::walk::WalkCase;
use crate::window::Window;
use std::rc::Rc;

pub struct Kind {
    pub name: &'static str,
    /// Cases in a round.
    pub share: usize,
    pub what: &'static str,
    draw: fn(&mut Rng, &mut Stock) -> Case,
}

/// Tables that cases are drawn over.
pub struct Stock {
    none: Rc<Schema>,
    twelve: Vec<Rc<Schema>>,
    cyclic: Vec<Rc<Schema>>,
    nesting: Rc<Schema>,
    bank: Bank,
}

impl Default for Stock {
    fn default() -> Self {
        Self {
            none: Schema::none(),
            twelve: (0..12).map(Schema::twelve).collect(),
            cyclic: cyclic(),
            nesting: edges::nesting(),
            bank: Bank::default(),
        }
    }
}

impl Kind {
    pub fn draw(&self, rng: &mut Rng, stock: &mut Stock) -> Case {
        (self.draw)(rng, stock)
    }
}

const fn kind(name: &'static str, share: usize, what: &'static str, draw: fn(&mut Rng, &mut Stock) -> Case) -> Kind {
    Kind { name, share, what, draw }
}

/// A kind that is added stands last: the numbers of the others are the streams that they draw from.
pub const KINDS: [Kind; 24] = [
    kind("none", 40, "struct walks without a schema", |r, s| walk(r, s.none.clone(), false)),
    kind("twelve", 60, "struct walks over the twelve levels, each root", |r, s| {
        let schema = s.twelve[r.below(12)].clone();
        walk(r, schema, false)
    }),
    kind("tables", 80, "struct walks over random tables with cycles", |r, s| {
        let schema = s.bank.draw(r);
        walk(r, schema, false)
    }),
    kind("deep", 20, "struct walks of chains of 1 to 14 levels", deep),
    kind("edges", 4, "limits on their edges, all three walks", edge),
    kind("exact", 40, "exact walks", |r, s| walk(r, s.none.clone(), true)),
    kind("objects", 60, "object walks", |r, s| Case::Objects(ObjectCase(objects(r, s)))),
    kind("fast", 60, "fast arrays, both modes", |r, _| Case::Fast(fast::case(r))),
    kind("movement", 80, "movement, three scales, two widths", |r, _| {
        Case::Movement(numbers::movement(r))
    }),
    kind("vector", 100, "quantized vectors", |r, _| Case::Read(numbers::vector(r))),
    kind("normal", 30, "fixed normals", |r, _| Case::Read(numbers::normal(r))),
    kind("rotation", 30, "rotations", |r, _| Case::Read(numbers::rotation(r))),
    kind("packed", 60, "packed numbers", |r, _| Case::Read(numbers::packed(r))),
    kind("serialized", 60, "serialized integers", |r, _| Case::Read(numbers::serialized(r))),
    kind("bits", 60, "read_bits", |r, _| Case::Read(numbers::bits(r))),
    kind("copy", 30, "copies", |r, _| Case::Read(numbers::copy(r))),
    kind("reads", 60, "read_bit, read_u8 to read_u64, read_i32", |r, _| {
        Case::Reader(readers::read(r))
    }),
    kind("readers", 60, "new, open, positions, skips, sub_reader", |r, _| {
        Case::Reader(readers::reader(r))
    }),
    kind("cursors", 30, "bad cursors, by the rules", |r, _| {
        Case::Reader(readers::bad_cursor(r))
    }),
    kind("refusals", 20, "refusals that only the rules have", |r, _| {
        Case::Refusal(refusals::case(r))
    }),
    kind("merge", 10, "sums of counters, verdicts", |r, _| Case::Merge(refusals::merge(r))),
    kind("openings", 1, "demand 3: windows against all their openings", opening),
    kind("totals", 10, "totals of many sets, in two orders and in brackets", |r, _| {
        Case::Totals(totals::case(r))
    }),
    kind("padded", 20, "padded numbers, all three walks", padded_numbers),
];

fn window(rng: &mut Rng, bits: &Bits) -> Window {
    if rng.percent(1) {
        Window::past(rng)
    } else {
        Window::around(rng, bits)
    }
}

fn walk(rng: &mut Rng, schema: Rc<Schema>, exact: bool) -> Case {
    let declared = random_declared(rng);
    let bits = arrays::window(rng, &schema, &declared, false, 300);
    Case::Walk(WalkCase {
        exact,
        window: window(rng, &bits),
        schema,
        declared,
    })
}

fn objects(rng: &mut Rng, stock: &Stock) -> Window {
    let bits = arrays::window(rng, &stock.none, &Declared::default(), true, 100);
    window(rng, &bits)
}

fn deep(rng: &mut Rng, stock: &mut Stock) -> Case {
    let bits = arrays::chain(rng);
    Case::Walk(WalkCase {
        exact: false,
        window: window(rng, &bits),
        schema: stock.cyclic[rng.below(stock.cyclic.len())].clone(),
        declared: random_declared(rng),
    })
}

fn edge(rng: &mut Rng, stock: &mut Stock) -> Case {
    let objects = rng.percent(30);
    let bits = edges::window(rng, objects);
    if objects {
        return Case::Objects(ObjectCase(window(rng, &bits)));
    }
    let nested = rng.percent(50);
    let bits = if nested { edges::nested(rng, bits) } else { bits };
    Case::Walk(WalkCase {
        exact: !nested && rng.percent(30),
        window: window(rng, &bits),
        schema: if nested { stock.nesting.clone() } else { stock.none.clone() },
        declared: random_declared(rng),
    })
}

fn padded_numbers(rng: &mut Rng, stock: &mut Stock) -> Case {
    let objects = rng.percent(25);
    let bits = padded::window(rng, objects);
    let window = Window::around(rng, &bits);
    if objects {
        return Case::Objects(ObjectCase(window));
    }
    let exact = rng.percent(20);
    let schema = if exact {
        &stock.none
    } else {
        &stock.cyclic[rng.below(stock.cyclic.len())]
    };
    Case::Walk(WalkCase {
        exact,
        window,
        schema: schema.clone(),
        declared: random_declared(rng),
    })
}

/// The longest window that is held against all its openings.
const LONGEST: usize = 2000;

fn opening(rng: &mut Rng, stock: &mut Stock) -> Case {
    let inside = |rng: &mut Rng, bits: Bits| Window::around(rng, &bits.opening(bits.len().min(LONGEST)));
    if rng.percent(20) {
        let bits = arrays::window(rng, &stock.none, &Declared::default(), true, 60);
        return Case::Opening(OpeningCase::Objects(inside(rng, bits)));
    }
    let (schema, exact) = match rng.below(10) {
        0..2 => (stock.none.clone(), false),
        2..4 => (stock.none.clone(), true),
        4..7 => (stock.twelve[rng.below(12)].clone(), false),
        _ => (stock.bank.draw(rng), false),
    };
    let declared = random_declared(rng);
    let bits = match rng.below(10) {
        0..2 if !exact => arrays::chain(rng),
        2 => edges::window(rng, false),
        _ => arrays::window(rng, &schema, &declared, false, 120),
    };
    Case::Opening(OpeningCase::Walk(WalkCase {
        exact,
        window: inside(rng, bits),
        schema,
        declared,
    }))
}
