//! Demand 3 on the port itself: what a cut window gives is the front of what the whole one gives, and both are clean only where the cut
//! took nothing off, or a zero trailer.
use crate::answer::{Difference, Outcome, walked};
use crate::port::Desk;
use crate::walk::WalkCase;
use crate::window::Window;
use vrf_proved::lent::{LEAF_WORDS, LONGEST_PATH, NONE, PAIR_WORDS, Refusal, Verdict};

#[derive(Clone)]
pub enum OpeningCase {
    Walk(WalkCase),
    Objects(Window),
}

/// An answer of the port, by itself.
#[derive(Clone)]
pub struct Given {
    records: Vec<u32>,
    paths: Vec<u8>,
    payloads: Vec<u8>,
    pub verdict: Verdict,
}

/// Of a walk that was sent nothing.
impl Default for Given {
    fn default() -> Self {
        Self {
            records: vec![],
            paths: vec![],
            payloads: vec![],
            verdict: Verdict::Empty,
        }
    }
}

impl OpeningCase {
    pub fn window(&self) -> &Window {
        match self {
            Self::Walk(w) => &w.window,
            Self::Objects(w) => w,
        }
    }

    pub fn window_mut(&mut self) -> &mut Window {
        match self {
            Self::Walk(w) => &mut w.window,
            Self::Objects(w) => w,
        }
    }

    fn walk(&self) -> Option<&WalkCase> {
        match self {
            Self::Walk(w) => Some(w),
            Self::Objects(_) => None,
        }
    }

    /// Room for any answer to a window of so many bits: no leaf or pair takes fewer than 16.
    pub fn lend(desk: &mut Desk, bits: u32) {
        let records = bits as usize / 16 + 2;
        desk.leaves.lend(LEAF_WORDS * records, 0);
        desk.paths.lend(LONGEST_PATH * records, 0);
        desk.payloads.lend(bits as usize / 8 + records, 0);
        desk.pairs.lend(PAIR_WORDS * records, 0);
    }

    pub fn given(&self, desk: &mut Desk, into: &mut Given) -> Result<(), Refusal> {
        match self {
            Self::Objects(w) => {
                let o = desk.object_array(&w.bytes, w.bits)?;
                into.records.clear();
                into.records.extend_from_slice(desk.pairs.front(PAIR_WORDS * o.pairs));
                into.verdict = o.verdict;
            }
            Self::Walk(c) => {
                let w = c.port(desk)?;
                into.records.clear();
                into.records.extend_from_slice(desk.leaves.front(LEAF_WORDS * w.leaves));
                into.paths.clear();
                into.paths.extend_from_slice(desk.paths.front(w.path_bytes));
                into.payloads.clear();
                into.payloads.extend_from_slice(desk.payloads.front(w.payload_bytes));
                into.verdict = w.verdict;
            }
        }
        Ok(())
    }

    /// What breaks, of the opening of `len` bits and the whole window of `bits`.
    pub fn broken(&self, len: u32, short: &Given, bits: u32, long: &Given) -> Option<&'static str> {
        if !self.fronts(short, long) {
            return Some("what the opening gives is not the front of what the window gives");
        }
        if len == bits || (short.verdict, long.verdict) != (Verdict::Clean, Verdict::Clean) {
            return None;
        }
        let exact = self.walk().is_some_and(|w| w.exact);
        let trailer = len + 8 == bits && !exact && (len..bits).all(|i| !bit(&self.window().bytes, i));
        (!trailer).then_some("the opening and the window are both clean")
    }

    /// A kept tail at the opening's end doesn't count: the whole window may go on in it.
    fn fronts(&self, short: &Given, long: &Given) -> bool {
        let mut records = short.records.len();
        if self.walk().is_none() {
            return records <= long.records.len() && short.records == long.records[..records];
        }
        if let Some([_, _, NONE, _, _, _]) = short.records.last_chunk::<LEAF_WORDS>() {
            records -= LEAF_WORDS;
        }
        if records > long.records.len() || short.records[..records] != long.records[..records] {
            return false;
        }
        let Some([path, path_len, _, bits, payload, _]) = short.records[..records].last_chunk::<LEAF_WORDS>() else {
            return true;
        };
        let (paths, payloads) = ((path + path_len) as usize, (payload + bits.div_ceil(8)) as usize);
        same_front(&short.paths, &long.paths, paths) && same_front(&short.payloads, &long.payloads, payloads)
    }

    /// Every opening of the window; the 64 bits behind it are turned over, since they must not matter.
    pub fn check(&self, desk: &mut Desk) -> Result<(Outcome, u64), Difference> {
        let bits = self.window().bits;
        let refused = |r: Refusal| Difference::new("demand 3", "accepted", r);
        Self::lend(desk, bits);
        let (mut long, mut short) = (Given::default(), Given::default());
        self.given(desk, &mut long).map_err(refused)?;
        let mut cut = self.clone();
        for len in 0..=bits {
            let w = cut.window_mut();
            w.bits = len;
            turn(&mut w.bytes, len);
            cut.given(desk, &mut short).map_err(refused)?;
            turn(&mut cut.window_mut().bytes, len);
            if let Some(what) = self.broken(len, &short, bits, &long) {
                return Err(Difference::new(
                    format!("demand 3, opening of {len} bits"),
                    "(the port by itself)",
                    what,
                ));
            }
        }
        Ok((walked(long.verdict), u64::from(bits) + 1))
    }

    pub fn line(&self) -> String {
        match self {
            Self::Walk(w) => w.line(),
            Self::Objects(w) => format!("O {}", w.line()),
        }
    }

    pub fn smaller(&self) -> Box<dyn Iterator<Item = Self> + '_> {
        match self {
            Self::Walk(w) => Box::new(w.smaller().map(Self::Walk)),
            Self::Objects(w) => Box::new(w.smaller().map(Self::Objects)),
        }
    }
}

fn bit(bytes: &[u8], at: u32) -> bool {
    bytes[(at / 8) as usize] >> (at % 8) & 1 == 1
}

fn same_front(short: &[u8], long: &[u8], len: usize) -> bool {
    len <= short.len() && len <= long.len() && short[..len] == long[..len]
}

fn turn(bytes: &mut [u8], from: u32) {
    let end = (from + 64).min(8 * bytes.len() as u32);
    for at in from..end {
        bytes[(at / 8) as usize] ^= 1 << (at % 8);
    }
}
