//! Schemas and declared names in both forms: as the port is lent them, and as the Rust takes them.
use crate::{dropin, seen};
use decode::array::ArrayFieldSchema;
use oracle::tables::{Table, builtin, levels, unroll, unroll_as};
use oracle::text::hex;
use std::collections::BTreeSet;
use std::fmt::Write;
use std::rc::Rc;
use vrf_proved::lent::{self, NONE};

pub struct Schema {
    pub levels: u32,
    pub root: u32,
    pub rows: Vec<u32>,
    pub names: Vec<u8>,
    /// For the Rust: the twelve levels' own statics, or the rows unrolled.
    pub linked: Option<&'static ArrayFieldSchema>,
    /// For the Rust over the counting reader: the rows unrolled.
    pub counting: Option<&'static counting_decode::array::ArrayFieldSchema>,
    /// For the drop-in: its own statics, or the rows unrolled; `None` too where they are more than it takes.
    pub dropin: Option<&'static vrf_proved::ArrayFieldSchema>,
    /// The root, if this is the port's table of the twelve levels.
    pub twelve: Option<u32>,
}

impl Schema {
    pub fn none() -> Rc<Self> {
        Rc::new(Self {
            levels: 0,
            root: NONE,
            rows: vec![],
            names: vec![],
            linked: None,
            counting: None,
            dropin: None,
            twelve: None,
        })
    }

    /// The port's own table of the twelve levels beside the Rust's own statics.
    pub fn twelve(root: u32) -> Rc<Self> {
        let (mut rows, mut names) = (vec![0; lent::SCHEMA_ROWS], vec![0; lent::SCHEMA_NAMES]);
        let filled = lent::schema(&mut rows, &mut names).expect("the header's sizes are enough");
        Rc::new(Self {
            levels: filled.levels,
            root,
            rows,
            names,
            linked: Some(levels()[root as usize]),
            counting: unroll_as(&builtin(root), seen::level),
            dropin: Some(dropin::levels()[root as usize]),
            twelve: Some(root),
        })
    }

    pub fn of_rows(levels: u32, root: u32, rows: Vec<[u32; 5]>, names: Vec<u8>) -> Rc<Self> {
        let table = Table {
            levels,
            root,
            rows,
            pool: names,
        };
        Rc::new(Self {
            levels,
            root,
            rows: table.rows.concat(),
            linked: unroll(&table),
            counting: unroll_as(&table, seen::level),
            dropin: if unrolled_fits(&table) {
                unroll_as(&table, dropin::level)
            } else {
                None
            },
            names: table.pool,
            twelve: None,
        })
    }

    pub fn row(&self, i: usize) -> [u32; 5] {
        std::array::from_fn(|k| self.rows[5 * i + k])
    }

    pub fn all_rows(&self) -> impl Iterator<Item = [u32; 5]> + '_ {
        (0..self.rows.len() / 5).map(|i| self.row(i))
    }

    /// In the oracle's form.
    pub fn line(&self) -> String {
        if let Some(root) = self.twelve {
            return format!("B{root}");
        }
        if self.levels == 0 {
            return "-".into();
        }
        let rows: Vec<String> = self.all_rows().map(|r| r.map(|n| n.to_string()).join(",")).collect();
        let rows = if rows.is_empty() { "-".into() } else { rows.join("/") };
        format!("T{}:{}:{rows}:{}", self.levels, self.root, hex(&self.names))
    }

    /// One row less each, or no schema.
    pub fn smaller(&self) -> Vec<Rc<Self>> {
        if self.levels == 0 {
            return vec![];
        }
        let mut all = vec![Self::none()];
        if self.twelve.is_none() {
            for i in 0..self.rows.len() / 5 {
                let mut rows: Vec<_> = self.all_rows().collect();
                rows.remove(i);
                all.push(Self::of_rows(self.levels, self.root, rows, self.names.clone()));
            }
        }
        all
    }
}

/// Whether the unrolled rows are within the sizes of a table, so that the drop-in can turn them back into one.
fn unrolled_fits(t: &Table) -> bool {
    let mut met = BTreeSet::from([t.root]);
    let (mut levels, mut rows, mut bytes) = (1, 0, 0);
    for _ in 0..12 {
        let here: Vec<_> = t.rows.iter().filter(|r| met.contains(&r[0])).collect();
        rows += here.len();
        bytes += here.iter().filter(|r| r[1] == 1).map(|r| r[4]).sum::<u32>();
        met = here.iter().filter(|r| r[1] == 0).map(|r| r[3]).collect();
        levels += met.len();
    }
    levels <= 64 && rows <= 512 && bytes <= 65_536
}

#[derive(Default)]
pub struct Declared {
    pub rows: Vec<u32>,
    pub pool: Vec<u8>,
    names: Vec<Option<String>>,
}

impl Declared {
    pub fn of(names: Vec<Option<String>>) -> Rc<Self> {
        let mut d = Self {
            rows: vec![],
            pool: vec![],
            names,
        };
        for name in &d.names {
            match name {
                None => d.rows.extend([NONE, 0]),
                Some(name) => {
                    d.rows.extend([d.pool.len() as u32, name.len() as u32]);
                    d.pool.extend_from_slice(name.as_bytes());
                }
            }
        }
        Rc::new(d)
    }

    pub fn none() -> Rc<Self> {
        Rc::default()
    }

    pub fn names(&self) -> Vec<Option<&str>> {
        self.names.iter().map(Option::as_deref).collect()
    }

    /// Handles that have a name.
    pub fn handles(&self) -> Vec<u32> {
        (0..self.names.len() as u32).filter(|h| self.names[*h as usize].is_some()).collect()
    }

    pub fn line(&self) -> String {
        if self.names.is_empty() {
            return "-".into();
        }
        let mut s = String::from("D");
        for (i, r) in self.rows.chunks(2).enumerate() {
            let sep = if i == 0 { "" } else { "/" };
            let _ = match r {
                [NONE, 0] => write!(s, "{sep}n"),
                _ => write!(s, "{sep}{},{}", r[0], r[1]),
            };
        }
        format!("{s}:{}", hex(&self.pool))
    }
}
