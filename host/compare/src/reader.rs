//! Readers and plain reads: the calls of the bit reader that only tests have through C (probes.rs). A good cursor is held to the Rust's
//! reader at the same place; a bad one, which the Rust can't make, to the rules.
use crate::answer::{Difference, Outcome, Value, of_bit_error, refused};
use crate::port;
use crate::probes::{self, Probe, ProbeCall, Reader};
use oracle::text::hex;
use vrf_bitio::{BitError, BitReader};
use vrf_proved::lent::{Cursor, LONGEST_WINDOW, Refusal};

#[derive(Clone)]
pub struct ReaderCase {
    pub call: ProbeCall,
    pub bytes: Vec<u8>,
    pub cursor: Cursor,
}

fn refusal_at(r: Refusal, position: u64) -> Probe {
    let [first, second, third] = r.values;
    Probe {
        refusal: r.number,
        first,
        second,
        third,
        position,
        ..Probe::default()
    }
}

/// What the Rust says of the reader; where its window starts only the rules say.
fn reader_at(start: u64, r: &BitReader<'_>) -> Reader {
    Reader {
        start,
        pos: r.position(),
        len: r.len_bits(),
    }
}

/// The first and the last 64 bits of a reader's window: they tell where it starts.
fn ends_of(r: &BitReader<'_>) -> Result<[u64; 2], BitError> {
    let n = r.len_bits().min(64);
    let (mut front, mut back) = (r.clone(), r.clone());
    back.skip_bits(r.len_bits() - n)?;
    Ok([front.read_bits(n as u32)?, back.read_bits(n as u32)?])
}

impl ReaderCase {
    pub fn line(&self) -> String {
        let Cursor { start, pos, len } = self.cursor;
        format!("{:?} window {start}+{len} at {pos} of {}", self.call, hex(&self.bytes))
    }

    fn good(&self) -> bool {
        let Cursor { start, pos, len } = self.cursor;
        pos <= len && start.checked_add(len).is_some_and(|end| end <= 8 * self.bytes.len() as u64)
    }

    /// The Rust's reader at the cursor, which is good.
    fn reader(&self) -> Result<BitReader<'_>, BitError> {
        let Cursor { start, pos, len } = self.cursor;
        let mut whole = BitReader::new(&self.bytes);
        whole.skip_bits(start)?;
        let mut reader = whole.sub_reader(len)?;
        reader.skip_bits(pos)?;
        Ok(reader)
    }

    fn made(&self) -> Result<Probe, BitError> {
        let reader = match self.call {
            ProbeCall::Open(count) => BitReader::with_bit_len(&self.bytes, count)?,
            _ => BitReader::new(&self.bytes),
        };
        Ok(Probe {
            reader: reader_at(0, &reader),
            ..Probe::default()
        })
    }

    /// What the Rust answers; `r` stands where it leaves it.
    fn told<'a>(&self, r: &mut BitReader<'a>) -> Result<Probe, BitError> {
        let number = |value| Probe { value, ..Probe::default() };
        let truth = |truth| Probe { truth, ..Probe::default() };
        Ok(match self.call {
            ProbeCall::New | ProbeCall::Open(_) => self.made()?,
            ProbeCall::Position => number(r.position()),
            ProbeCall::LenBits => number(r.len_bits()),
            ProbeCall::BitsRemaining => number(r.bits_remaining()),
            ProbeCall::AtEnd => truth(r.at_end()),
            ProbeCall::SkipBits(count) => r.skip_bits(count).map(|()| Probe::default())?,
            ProbeCall::SkipRemaining => {
                r.skip_remaining();
                Probe::default()
            }
            ProbeCall::SubReader(count) => {
                let start = self.cursor.start + r.position();
                let inner = r.sub_reader(count)?;
                Probe {
                    reader: reader_at(start, &inner),
                    ..Probe::default()
                }
            }
            ProbeCall::ReadBit => truth(r.read_bit()?),
            ProbeCall::ReadU8 => number(r.read_u8()?.into()),
            ProbeCall::ReadU16 => number(r.read_u16()?.into()),
            ProbeCall::ReadU32 => number(r.read_u32()?.into()),
            ProbeCall::ReadI32 => Probe {
                signed: r.read_i32()?,
                ..Probe::default()
            },
            ProbeCall::ReadU64 => number(r.read_u64()?),
        })
    }

    fn expected(&self) -> Result<Probe, BitError> {
        let stands = |answer: Result<Probe, BitError>, position| match answer {
            Ok(probe) => Probe { position, ..probe },
            Err(e) => refusal_at(of_bit_error(&e), position),
        };
        match self.call {
            ProbeCall::Open(count) if count > u64::from(LONGEST_WINDOW) => Ok(refusal_at(refused(1, [0; 3]), 0)),
            ProbeCall::New | ProbeCall::Open(_) => Ok(stands(self.made(), 0)),
            _ if !self.good() => {
                let available = 8 * self.bytes.len() as u64;
                Ok(refusal_at(refused(14, [self.cursor.len, available, 0]), self.cursor.pos))
            }
            _ => {
                let mut reader = self.reader()?;
                let answer = self.told(&mut reader);
                Ok(stands(answer, reader.position()))
            }
        }
    }

    pub fn check(&self) -> Result<Outcome, Difference> {
        let differs = |rust: String, port: String| Err(Difference::new("a call of the bit reader", rust, port));
        let expected = match self.expected() {
            Ok(expected) => expected,
            Err(e) => return differs(format!("no reader there: {e:?}"), "-".into()),
        };
        let given = probes::call(self.call, &self.bytes, self.cursor);
        if given != expected {
            return differs(format!("{expected:?}"), format!("{given:?}"));
        }
        if expected.refusal != 0 {
            return Ok(Outcome::Refused);
        }
        if let Some((rust, port)) = self.windows_differ(given.reader) {
            return differs(format!("{expected:?}, its ends {rust}"), format!("{given:?}, its ends {port}"));
        }
        Ok(Outcome::Accepted)
    }

    /// A reader that was made is read at both ends, on both sides.
    fn windows_differ(&self, made: Reader) -> Option<(String, String)> {
        let rust = match self.call {
            ProbeCall::SubReader(count) => self.reader().and_then(|mut r| r.sub_reader(count)).and_then(|r| ends_of(&r)),
            ProbeCall::Open(count) => BitReader::with_bit_len(&self.bytes, count).and_then(|r| ends_of(&r)),
            ProbeCall::New => ends_of(&BitReader::new(&self.bytes)),
            _ => return None,
        };
        let n = made.len.min(64);
        let read = |pos| {
            let Reader { start, pos: _, len } = made;
            port::read_bits(&self.bytes, Cursor { start, pos, len }, n)
        };
        let (front, back) = (read(made.pos), read(made.len - n));
        let same = match &rust {
            Ok([first, last]) => front.result == Ok(Value::Number(*first)) && back.result == Ok(Value::Number(*last)),
            Err(_) => false,
        };
        (!same).then(|| (format!("{rust:x?}"), format!("{front:x?} {back:x?}")))
    }

    pub fn smaller(&self) -> Box<dyn Iterator<Item = Self> + '_> {
        let cleared = (0..self.bytes.len()).filter(|i| self.bytes[*i] != 0).map(|i| {
            let mut bytes = self.bytes.clone();
            bytes[i] = 0;
            Self { bytes, ..self.clone() }
        });
        let shorter = (!self.bytes.is_empty()).then(|| Self {
            bytes: self.bytes[..self.bytes.len() - 1].to_vec(),
            ..self.clone()
        });
        let Cursor { start, pos, len } = self.cursor;
        let cursors = [(start / 2, pos, len), (start, pos / 2, len), (start, pos, len / 2)];
        let cursors = cursors.into_iter().map(|(start, pos, len)| Cursor { start, pos, len });
        let moved = cursors.filter(|c| *c != self.cursor).map(|cursor| Self { cursor, ..self.clone() });
        Box::new(shorter.into_iter().chain(moved).chain(cleared))
    }
}
