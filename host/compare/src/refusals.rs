//! Refusals that the Rust doesn't have: what is expected is said here, from the rules of document 01.
use crate::answer::{Difference, Outcome, refused, told};
use crate::port::{self, Desk};
use crate::window::Window;
use vrf_proved::lent::{Cursor, LONGEST_WINDOW, LocationScale, NONE, Refusal, RotationWidth, Tables};

#[derive(Clone, Debug, Default)]
pub struct Lists {
    pub rows: Vec<u32>,
    pub levels: u32,
    pub root: u32,
    pub names: Vec<u8>,
    pub declared: Vec<u32>,
    pub pool: Vec<u8>,
}

#[derive(Clone, Copy, Debug, PartialEq)]
pub enum ReadCall {
    Bits(u64),
    Packed,
    Serialized(u32),
    Copy(u64),
    Vector(u32),
    Normal,
    Rotation(u32),
}

#[derive(Clone)]
pub enum RefusalCase {
    Struct(Window, Lists),
    Exact(Window, Lists),
    Objects(Window),
    Fast(Window, bool),
    Movement(Vec<u8>, u64),
    Read(ReadCall, Vec<u8>, Cursor),
}

/// Words and bytes lent: enough for the small windows that go with tables.
const ROOM: usize = 256;

fn names_lie(start: u32, len: u32, pool: &[u8]) -> bool {
    len <= 64 && u64::from(start) + u64::from(len) <= pool.len() as u64
}

impl Lists {
    fn declared_laid_out(&self) -> bool {
        let fits = |r: &[u32]| matches!(r, [NONE, 0]) || names_lie(r[0], r[1], &self.pool);
        self.declared.len().is_multiple_of(2)
            && self.declared.len() <= 2 * 1024
            && self.pool.len() <= 65_536
            && self.declared.chunks(2).all(fits)
    }

    fn schema_laid_out(&self) -> bool {
        let fits = |r: &[u32]| {
            r[0] < self.levels
                && match r[1] {
                    0 => r[3] < self.levels && r[4] == 0,
                    1 => names_lie(r[3], r[4], &self.names),
                    _ => false,
                }
        };
        self.rows.len().is_multiple_of(5)
            && self.rows.len() <= 5 * 512
            && self.levels <= 64
            && self.names.len() <= 65_536
            && (self.root == NONE || self.root < self.levels)
            && self.rows.chunks(5).all(fits)
    }
}

impl RefusalCase {
    /// The refusal that the rules give; `None`: the call is accepted.
    fn expected(&self) -> Option<Refusal> {
        let plain = |number| Some(refused(number, [0; 3]));
        match self {
            Self::Struct(w, _) | Self::Exact(w, _) | Self::Objects(w) | Self::Fast(w, _) if w.bits > LONGEST_WINDOW => plain(1),
            Self::Struct(_, t) if !t.schema_laid_out() || !t.declared_laid_out() => plain(2),
            Self::Exact(_, t) if !t.declared_laid_out() => plain(2),
            Self::Struct(..) | Self::Exact(..) | Self::Objects(_) => None,
            Self::Fast(..) => plain(6),
            Self::Movement(_, count) if *count > u64::from(LONGEST_WINDOW) => plain(1),
            Self::Movement(bytes, count) => Some(refused(14, [*count, 8 * bytes.len() as u64, 0])),
            Self::Read(call, bytes, c) => Some(Self::of_read(*call, bytes, *c)),
        }
    }

    fn of_read(call: ReadCall, bytes: &[u8], c: Cursor) -> Refusal {
        let available = 8 * bytes.len() as u64;
        let fits = c.pos <= c.len && c.start.checked_add(c.len).is_some_and(|end| end <= available);
        if !fits {
            return refused(14, [c.len, available, 0]);
        }
        match call {
            ReadCall::Bits(n) if n > 64 => refused(13, [0; 3]),
            ReadCall::Rotation(w) if w != 8 && w != 16 => refused(13, [0; 3]),
            ReadCall::Serialized(0) => refused(10, [0; 3]),
            ReadCall::Vector(0) => refused(11, [0; 3]),
            ReadCall::Copy(n) if n.div_ceil(8) > ROOM as u64 => refused(14, [n, 8 * ROOM as u64, 0]),
            _ => refused(0, [0; 3]),
        }
    }

    fn answer(&self, desk: &mut Desk) -> (Option<Refusal>, u64) {
        match self {
            Self::Struct(w, t) => (desk.struct_array(&w.bytes, w.bits, tables(t)).err(), 0),
            Self::Exact(w, t) => (desk.struct_array_exact(&w.bytes, w.bits, &t.declared, &t.pool).err(), 0),
            Self::Objects(w) => (desk.object_array(&w.bytes, w.bits).err(), 0),
            Self::Fast(w, flags) => (desk.fast_array(&w.bytes, w.bits, *flags).err(), 0),
            Self::Movement(bytes, count) => {
                let r = port::movement(bytes, *count, RotationWidth::Eight, LocationScale::Ten);
                (r.result.err(), r.position)
            }
            Self::Read(call, bytes, c) => {
                let a = match *call {
                    ReadCall::Bits(n) => port::read_bits(bytes, *c, n),
                    ReadCall::Packed => port::read_packed(bytes, *c),
                    ReadCall::Serialized(m) => port::read_serialized(bytes, *c, m),
                    ReadCall::Copy(n) => desk.copy_bits(bytes, *c, n),
                    ReadCall::Vector(s) => port::vector(bytes, *c, s),
                    ReadCall::Normal => port::normal(bytes, *c),
                    ReadCall::Rotation(w) => port::rotation(bytes, *c, w),
                };
                (a.result.err(), a.position)
            }
        }
    }

    /// Where the cursor has to stand: where it stood.
    fn position(&self) -> u64 {
        match self {
            Self::Read(_, _, c) => c.pos,
            _ => 0,
        }
    }

    pub fn check(&self, desk: &mut Desk) -> Result<Outcome, Difference> {
        for lent in [&mut desk.leaves, &mut desk.pairs, &mut desk.items, &mut desk.fields] {
            lent.lend(ROOM, 0x1111_1111);
        }
        desk.deleted.lend(ROOM, 0x1111_1111);
        for lent in [&mut desk.paths, &mut desk.payloads, &mut desk.target] {
            lent.lend(ROOM, 0x11);
        }
        let expected = self.expected();
        let (answer, position) = self.answer(desk);
        let untouched = expected.is_none()
            || [&desk.leaves, &desk.pairs, &desk.items, &desk.fields].iter().all(|l| l.holds(&[]))
                && [&desk.paths, &desk.payloads, &desk.target].iter().all(|l| l.holds(&[]))
                && desk.deleted.holds(&[]);
        if answer == expected && position == self.position() && untouched {
            match self {
                Self::Struct(w, _) | Self::Exact(w, _) | Self::Objects(w) | Self::Fast(w, _) if w.bits > LONGEST_WINDOW => {
                    crate::dropin::too_long(w)?;
                }
                _ => {}
            }
            return Ok(if expected.is_some() { Outcome::Refused } else { Outcome::Accepted });
        }
        let text = |r: &Option<Refusal>, at| format!("{} @{at}", r.as_ref().map_or("accepted".into(), told));
        let written = if untouched { "" } else { ", and a buffer is written" };
        Err(Difference::new(
            "the rules stand for the Rust here",
            text(&expected, self.position()),
            text(&answer, position) + written,
        ))
    }

    /// No case of the oracle: the Rust has no such refusal.
    pub fn line(&self) -> String {
        let head = |bytes: &[u8]| format!("{} bytes", bytes.len());
        match self {
            Self::Struct(w, t) => format!("struct_array {} bits of {}, {t:?}", w.bits, head(&w.bytes)),
            Self::Exact(w, t) => format!("struct_array_exact {} bits of {}, {t:?}", w.bits, head(&w.bytes)),
            Self::Objects(w) => format!("object_array {} bits of {}", w.bits, head(&w.bytes)),
            Self::Fast(w, flags) => format!("fast_array {} bits of {}, flags {flags}", w.bits, head(&w.bytes)),
            Self::Movement(bytes, count) => format!("movement {count} bits of {}", head(bytes)),
            Self::Read(call, bytes, c) => format!("{call:?} of {}, {c:?}", head(bytes)),
        }
    }
}

fn tables(t: &Lists) -> Tables<'_> {
    Tables {
        rows: &t.rows,
        levels: t.levels,
        root: t.root,
        names: &t.names,
        declared: &t.declared,
        declared_names: &t.pool,
    }
}
