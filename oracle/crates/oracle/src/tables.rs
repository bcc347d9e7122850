//! Schemas and declared names: document 01's tables, and the linked form that the Rust takes.
use crate::text::{hex, unhex};
use decode::array::*;
use decode_traced::array as tr;
use std::cell::RefCell;
use std::collections::HashMap;

/// Document 01's table, as lent: levels, root, rows of five u32, name pool.
#[derive(Clone)]
pub struct Table {
    pub levels: u32,
    pub root: u32,
    pub rows: Vec<[u32; 5]>,
    pub pool: Vec<u8>,
}

/// Links of a level: a handle and the level below it.
pub type Links<S> = &'static [(u32, &'static S)];
/// Names of a level: a handle and its name.
pub type Names = &'static [(u32, &'static str)];

/// The Rust's linked form of a table, its levels made by `make`; cycles are unrolled to depth 12. At depth 11 the links point to an
/// empty level, which no walk enters. What is made is never freed.
pub fn unroll_as<S: 'static>(t: &Table, make: fn(Links<S>, Names) -> S) -> Option<&'static S> {
    fn go<S: 'static>(
        t: &Table,
        (level, depth): (u32, u32),
        make: fn(Links<S>, Names) -> S,
        memo: &mut HashMap<(u32, u32), &'static S>,
    ) -> &'static S {
        if let Some(s) = memo.get(&(level, depth)) {
            return s;
        }
        let mut links = Vec::new();
        let mut names: Vec<(u32, &'static str)> = Vec::new();
        for r in t.rows.iter().filter(|r| depth < 12 && r[0] == level) {
            if r[1] == 0 {
                links.push((r[2], go(t, (r[3], depth + 1), make, memo)));
            } else {
                let name = &t.pool[r[3] as usize..(r[3] + r[4]) as usize];
                names.push((r[2], Box::leak(std::str::from_utf8(name).unwrap().into())));
            }
        }
        let s: &'static S = Box::leak(Box::new(make(links.leak(), names.leak())));
        memo.insert((level, depth), s);
        s
    }
    (t.root != u32::MAX).then(|| go(t, (t.root, 0), make, &mut HashMap::new()))
}

pub fn unroll(t: &Table) -> Option<&'static ArrayFieldSchema> {
    unroll_as(t, |sub_arrays, field_names| ArrayFieldSchema { sub_arrays, field_names })
}

fn unroll_traced(t: &Table) -> Option<&'static tr::ArrayFieldSchema> {
    unroll_as(t, |sub_arrays, field_names| tr::ArrayFieldSchema { sub_arrays, field_names })
}

/// The twelve levels of schema.rs, the statics themselves, in the order of their numbers; the private ones are reached by links.
pub fn levels() -> [&'static ArrayFieldSchema; 12] {
    fn below(s: &'static ArrayFieldSchema, i: usize) -> &'static ArrayFieldSchema {
        s.sub_arrays[i].1
    }
    let report = below(&COMBAT_ROUNDS_SCHEMA, 0);
    let participant = below(report, 0);
    let (dealt, received) = (below(participant, 0), below(participant, 1));
    [
        below(dealt, 0),
        &COMBAT_ROUNDS_SCHEMA,
        &ABILITY_CASTS_SCHEMA,
        &ABILITY_EFFECTS_SCHEMA,
        &LIFE_CHANGE_DAMAGE_SCHEMA,
        &LIFE_CHANGE_SECTION_SCHEMA,
        &LIFE_CHANGE_BY_SECTION_SCHEMA,
        dealt,
        received,
        participant,
        report,
        below(&ABILITY_EFFECTS_SCHEMA, 0),
    ]
}

/// The twelve levels of schema.rs as a table, read off the linked statics themselves.
pub fn builtin(root: u32) -> Table {
    let ls = levels();
    let mut t = Table {
        levels: 12,
        root,
        rows: vec![],
        pool: vec![],
    };
    for (i, l) in ls.iter().enumerate() {
        for (h, c) in l.sub_arrays {
            let child = ls.iter().position(|x| std::ptr::eq(*x, *c)).unwrap();
            t.rows.push([i as u32, 0, *h, child as u32, 0]);
        }
        for (h, n) in l.field_names {
            t.rows.push([i as u32, 1, *h, t.pool.len() as u32, n.len() as u32]);
            t.pool.extend_from_slice(n.as_bytes());
        }
    }
    t
}

pub fn dump_schema() {
    let t = builtin(0);
    println!("levels 12 rows {} pool {}", t.rows.len(), t.pool.len());
    for r in &t.rows {
        let n = if r[1] == 1 {
            String::from_utf8_lossy(&t.pool[r[3] as usize..(r[3] + r[4]) as usize]).into_owned()
        } else {
            String::new()
        };
        println!("{},{},{},{},{} {n}", r[0], r[1], r[2], r[3], r[4]);
    }
    println!("{}", hex(&t.pool));
}

/// `-` none; `B<root>` the twelve; `T<levels>:<root>:<rows>:<pool hex>`, rows `l,k,h,a,b/..` or `-`.
pub fn parse_table(s: &str) -> Option<Table> {
    if s == "-" {
        return None;
    }
    if let Some(r) = s.strip_prefix('B') {
        return Some(builtin(r.parse().unwrap()));
    }
    let p: Vec<&str> = s[1..].split(':').collect();
    let rows = if p[2] == "-" {
        vec![]
    } else {
        p[2].split('/')
            .map(|r| {
                let v: Vec<u32> = r.split(',').map(|x| x.parse().unwrap()).collect();
                [v[0], v[1], v[2], v[3], v[4]]
            })
            .collect()
    };
    Some(Table {
        levels: p[0].parse().unwrap(),
        root: p[1].parse().unwrap(),
        rows,
        pool: unhex(p[3]),
    })
}

type Both = (Option<&'static ArrayFieldSchema>, Option<&'static tr::ArrayFieldSchema>);
thread_local!(static CACHE: RefCell<HashMap<String, Both>> = RefCell::new(HashMap::new()));
pub fn schema(s: &str) -> Both {
    CACHE.with(|c| {
        let mut c = c.borrow_mut();
        if let Some(v) = c.get(s) {
            return *v;
        }
        let v = match parse_table(s) {
            None => (None, None),
            Some(t) => {
                // The twelve: the real statics for the plain walk, not a rebuilt copy.
                let plain = if s.starts_with('B') {
                    Some(levels()[t.root as usize])
                } else {
                    unroll(&t)
                };
                (plain, unroll_traced(&t))
            }
        };
        c.insert(s.to_string(), v);
        v
    })
}

/// `-` empty; `D<rows>:<pool hex>`, rows `start,len/..`, `n` = none.
pub fn declared(s: &str) -> Vec<Option<String>> {
    if s == "-" {
        return vec![];
    }
    let (rows, pool) = s[1..].split_once(':').unwrap();
    let pool = unhex(pool);
    rows.split('/')
        .map(|r| {
            if r == "n" {
                return None;
            }
            let (a, b) = r.split_once(',').unwrap();
            let (a, b): (usize, usize) = (a.parse().unwrap(), b.parse().unwrap());
            Some(String::from_utf8(pool[a..a + b].to_vec()).unwrap())
        })
        .collect()
}
