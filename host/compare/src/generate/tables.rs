//! Tables: random ones with cycles, repeated rows, empty names and names of 64 bytes; declared names.
use crate::rng::Rng;
use crate::tables::{Declared, Schema};
use std::rc::Rc;
use vrf_proved::lent::NONE;

fn name(rng: &mut Rng) -> String {
    let fixed = [
        "",
        "",
        "a",
        "x",
        "Name",
        "_raw",
        "_h1",
        "[0]",
        "a.b",
        "h\u{e9}",
        "\u{20ac}\u{1f600}",
        "q\"c,",
        "Value",
        "line\nfeed",
        "%",
    ];
    match rng.below(20) {
        0..2 => "W".repeat(64),
        2 => "Z".repeat(63),
        _ => rng.pick(&fixed).into(),
    }
}

/// Drawn anew this many times; after that the old ones come again, since what the Rust takes is never freed.
const MOST_TABLES: usize = 6000;

#[derive(Default)]
pub struct Bank(Vec<Rc<Schema>>);

impl Bank {
    pub fn draw(&mut self, rng: &mut Rng) -> Rc<Schema> {
        if self.0.len() >= MOST_TABLES || !self.0.is_empty() && rng.percent(80) {
            return self.0[rng.below(self.0.len())].clone();
        }
        self.0.push(random_schema(rng));
        self.0[self.0.len() - 1].clone()
    }
}

pub fn random_rows(rng: &mut Rng) -> (u32, Vec<[u32; 5]>, Vec<u8>) {
    let (levels, rows) = match rng.below(100) {
        0 => (64, rng.between(300, 512)),
        1..4 => (rng.between(6, 64), rng.between(0, 100)),
        _ => (rng.between(1, 5), rng.between(0, 14)),
    };
    let (mut table, mut names) = (Vec::new(), Vec::new());
    for _ in 0..rows {
        let level = rng.below(levels) as u32;
        let handle = rng.pick(&[0, 0, 1, 1, 2, 3, 9, 127, NONE - 1, NONE]);
        if rng.percent(55) {
            table.push([level, 0, handle, rng.below(levels) as u32, 0]);
        } else {
            let name = name(rng);
            table.push([level, 1, handle, names.len() as u32, name.len() as u32]);
            names.extend_from_slice(name.as_bytes());
        }
        if rng.percent(5) {
            table.extend(table.last().copied());
        }
    }
    table.truncate(512);
    (levels as u32, table, names)
}

fn random_schema(rng: &mut Rng) -> Rc<Schema> {
    let (levels, rows, names) = random_rows(rng);
    let root = match rng.below(10) {
        0 => NONE,
        1 => rng.below(levels as usize) as u32,
        _ => 0,
    };
    Schema::of_rows(levels, root, rows, names)
}

/// Levels that lead back to themselves.
pub fn cyclic() -> Vec<Rc<Schema>> {
    let long = "W".repeat(64).into_bytes();
    vec![
        Schema::of_rows(1, 0, vec![[0, 0, 0, 0, 0], [0, 1, 0, 0, 1]], b"a".to_vec()),
        Schema::of_rows(2, 0, vec![[0, 0, 0, 1, 0], [1, 0, 0, 0, 0], [1, 1, 0, 0, 64]], long),
        Schema::of_rows(
            2,
            1,
            vec![[0, 0, 0, 0, 0], [0, 0, 1, 1, 0], [1, 0, 0, 0, 0], [1, 0, 1, 1, 0]],
            vec![],
        ),
        Schema::of_rows(1, 0, vec![[0, 0, 0, 0, 0], [0, 0, 1, 0, 0]], vec![]),
    ]
}

pub fn random_declared(rng: &mut Rng) -> Rc<Declared> {
    if rng.percent(50) {
        return Declared::none();
    }
    let n = rng.pick(&[1, 2, 3, 4, 12, 20, 130, 130]);
    let n = if rng.percent(1) { 1024 } else { n };
    Declared::of((0..n).map(|_| rng.percent(50).then(|| name(rng))).collect())
}
