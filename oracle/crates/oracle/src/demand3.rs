//! Demand 3 on the Rust itself: the answers to a window and to all its openings.
use crate::answers::walk_struct;
use crate::tables::{declared, schema};
use crate::text::{hex, unhex};
use decode::array::*;
use std::collections::BTreeMap;

struct Ans {
    leaves: Vec<(String, u32, u32, Vec<u8>)>,
    clean: bool,
}

fn run(kind: char, data: &[u8], bits: u32, sch: Option<&ArrayFieldSchema>, decl: &[Option<&str>]) -> Ans {
    let mut st = ArrayDecodeStats::default();
    if kind == 'O' {
        let p = decode_object_ref_array_with_stats(data, bits, &mut st);
        return Ans {
            leaves: p.into_iter().map(|(a, b)| (String::new(), a, b, vec![])).collect(),
            clean: st.is_clean(),
        };
    }
    let (l, st) = walk_struct(kind, data, bits, sch, decl);
    Ans {
        leaves: l.into_iter().map(|f| (f.path, f.handle, f.bit_count, f.raw_bits)).collect(),
        clean: st.is_clean(),
    }
}

fn bit(d: &[u8], i: u32) -> bool {
    d[(i / 8) as usize] >> (i % 8) & 1 == 1
}

/// What broke, or which exception was used. By the Rust's `is_clean` there are two: a struct or exact walk of no bits, and the zero trailer.
fn check(kind: char, data: &[u8], ls: u32, s: &Ans, ll: u32, l: &Ans) -> Result<&'static str, &'static str> {
    let mut n = s.leaves.len();
    if kind != 'O' && n > 0 && s.leaves[n - 1].1 == u32::MAX {
        n -= 1;
    }
    if n > l.leaves.len() || s.leaves[..n] != l.leaves[..n] {
        return Err("prefix");
    }
    if ls < ll && l.clean && s.clean {
        if ls == 0 && kind != 'O' {
            return Ok("empty");
        }
        if ls + 8 == ll && kind != 'X' && (ls..ll).all(|i| !bit(data, i)) {
            return Ok("trailer");
        }
        return Err("clean");
    }
    Ok("")
}

/// A window that grows, with the answers to all its openings.
struct Search<'a> {
    kind: char,
    schema: Option<&'a ArrayFieldSchema>,
    data: Vec<u8>,
    stack: Vec<Ans>,
    seen: BTreeMap<&'static str, u64>,
    windows: u64,
    clean: u64,
    bad: u64,
    leaves: usize,
}

impl<'a> Search<'a> {
    fn new(kind: char, schema: Option<&'a ArrayFieldSchema>, data: Vec<u8>) -> Self {
        Self {
            kind,
            schema,
            stack: vec![run(kind, &data, 0, schema, &[])],
            data,
            seen: BTreeMap::new(),
            windows: 1,
            clean: 0,
            bad: 0,
            leaves: 0,
        }
    }

    /// The window one bit longer, against its openings.
    fn step(&mut self) {
        let n = self.stack.len() as u32;
        let long = run(self.kind, &self.data, n, self.schema, &[]);
        self.windows += 1;
        self.clean += u64::from(long.clean);
        self.leaves = self.leaves.max(long.leaves.len());
        for (i, short) in self.stack.iter().enumerate() {
            match check(self.kind, &self.data, i as u32, short, n, &long) {
                Ok(e) => *self.seen.entry(e).or_default() += 1,
                Err(e) => {
                    self.bad += 1;
                    if self.bad < 20 {
                        println!("COUNTEREXAMPLE {e} {} shorter {i} longer {n} {}", self.kind, hex(&self.data));
                    }
                }
            }
        }
        self.stack.push(long);
    }

    fn bits(&mut self, most: usize) {
        let n = self.stack.len() - 1;
        if n == most {
            return;
        }
        for _ in 0..2 {
            self.step();
            self.bits(most);
            self.stack.pop();
            self.data[n / 8] ^= 1 << (n % 8);
        }
    }

    fn bytes(&mut self, most: usize, alphabet: &[u8]) {
        if self.data.len() == most {
            return;
        }
        let keep = self.stack.len();
        for &b in alphabet {
            self.data.push(b);
            for _ in 0..8 {
                self.step();
            }
            self.bytes(most, alphabet);
            self.data.pop();
            self.stack.truncate(keep);
        }
    }

    fn tell(&self, what: &str) {
        let Self {
            windows,
            clean,
            leaves,
            seen,
            bad,
            ..
        } = self;
        println!("d3 {what}: {windows} windows, {clean} clean, up to {leaves} leaves, pairs {seen:?}, counterexamples {bad}");
    }
}

/// Every window of 0..=bits bits against every opening of it.
pub fn exhaustive(bits: u32, kind: char, schema_text: &str) {
    let (sch, _) = schema(schema_text);
    let mut s = Search::new(kind, sch, vec![0u8; (bits as usize).div_ceil(8)]);
    s.bits(bits as usize);
    s.tell(&format!("{kind} {schema_text} up to {bits} bits"));
}

/// Every string of up to `len` bytes from `alphabet`, each also cut at every bit, against every opening.
pub fn alphabet(len: usize, kind: char, schema_text: &str, alphabet: &[u8]) {
    let (sch, _) = schema(schema_text);
    let mut s = Search::new(kind, sch, vec![]);
    s.bytes(len, alphabet);
    s.tell(&format!("{kind} {schema_text} strings of up to {len} bytes of {}", hex(alphabet)));
}

pub fn file(path: &str) {
    let text = std::fs::read_to_string(path).unwrap();
    let mut seen: BTreeMap<&'static str, u64> = BTreeMap::new();
    let (mut cases, mut bad, mut cleanl) = (0u64, 0u64, 0u64);
    let mut rnd = 0x1234567u64;
    for line in text.lines() {
        let p: Vec<&str> = line.split(' ').collect();
        if p.len() < 4 || !["S", "X", "O"].contains(&p[1]) {
            continue;
        }
        let kind = p[1].chars().next().unwrap();
        let bits: u32 = p[2].parse().unwrap();
        let data = unhex(p[3]);
        if u64::from(bits) > data.len() as u64 * 8 {
            continue;
        }
        let (sch, _) = if kind == 'S' { schema(p[4]) } else { (None, None) };
        let names = if kind == 'O' { vec![] } else { declared(p[5]) };
        let decl: Vec<Option<&str>> = names.iter().map(|n| n.as_deref()).collect();
        let long = run(kind, &data, bits, sch, &decl);
        cases += 1;
        cleanl += long.clean as u64;
        // all openings of windows up to 600 bits; of longer ones the last 40, the first 40 and 80 drawn
        let cuts: Vec<u32> = if bits <= 600 {
            (0..=bits).collect()
        } else {
            let mut v: Vec<u32> = (0..40).chain(bits - 40..=bits).collect();
            for _ in 0..80 {
                rnd = rnd.wrapping_mul(6364136223846793005).wrapping_add(1442695040888963407);
                v.push(((rnd >> 33) % u64::from(bits)) as u32);
            }
            v
        };
        for c in cuts {
            // the bits beyond the opening are turned over: they must not matter
            let mut d2 = data.clone();
            for i in c..(d2.len() as u32 * 8).min(c + 64) {
                d2[(i / 8) as usize] ^= 1 << (i % 8);
            }
            let s = run(kind, &d2, c, sch, &decl);
            match check(kind, &data, c, &s, bits, &long) {
                Ok(e) => *seen.entry(e).or_default() += 1,
                Err(e) => {
                    bad += 1;
                    if bad < 20 {
                        println!("COUNTEREXAMPLE {e} {kind} shorter {c} of: {line}");
                    }
                }
            }
        }
    }
    println!("d3file: {cases} windows ({cleanl} clean), pairs {seen:?}, counterexamples {bad}");
}
