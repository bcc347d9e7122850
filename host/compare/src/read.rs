//! Single reads: at a place of a window that may start anywhere in its bytes.
use crate::answer::{Difference, Outcome, ReadAnswer, Value, of_bit_error, of_decode_error};
use crate::port::{self, Desk};
use crate::seen;
use crate::window::Window;
use decode::decode as rust;
use decode::types::{FRotator, FVector};
use oracle::text::hex;
use vrf_bitio::{BitError, BitReader};
use vrf_proved::lent::{Cursor, Refusal};

#[derive(Clone, Copy)]
pub enum What {
    Vector { scale: u32 },
    Normal,
    Rotation { width: u32 },
    Packed,
    Serialized { maximum: u32 },
    Bits { count: u32 },
    Copy { count: u64, room: usize },
}

#[derive(Clone)]
pub struct ReadCase {
    pub what: What,
    /// The window's first bit in the bytes.
    pub start: u64,
    /// Where in the window the cursor stands.
    pub skip: u64,
    pub window: Window,
}

/// Copies are made twice, over two patterns.
const PATTERNS: [u8; 2] = [0xee, 0x11];

impl ReadCase {
    pub fn line(&self) -> String {
        let what = match self.what {
            What::Vector { scale } => format!("V {scale}"),
            What::Normal => "N".into(),
            What::Rotation { width } => format!("R {width}"),
            What::Packed => "P".into(),
            What::Serialized { maximum } => format!("I {maximum}"),
            What::Bits { count } => format!("G {count}"),
            What::Copy { count, room } => format!("C {count} {room}"),
        };
        let place = match self.start {
            0 => self.skip.to_string(),
            start => format!("{start}+{}", self.skip),
        };
        format!("{what} {place} {}", self.window.line())
    }

    pub fn cursor(&self) -> Cursor {
        Cursor {
            start: self.start,
            pos: self.skip,
            len: u64::from(self.window.bits),
        }
    }

    fn reader(&self) -> Result<BitReader<'_>, BitError> {
        let bits = u64::from(self.window.bits);
        let mut reader = if self.start == 0 {
            BitReader::with_bit_len(&self.window.bytes, bits)?
        } else {
            let mut whole = BitReader::new(&self.window.bytes);
            whole.skip_bits(self.start)?;
            whole.sub_reader(bits)?
        };
        reader.skip_bits(self.skip)?;
        Ok(reader)
    }

    fn rust(&self, target: &mut [u8]) -> ReadAnswer {
        let mut r = match self.reader() {
            Ok(r) => r,
            Err(e) => {
                return ReadAnswer {
                    result: Err(of_bit_error(&e)),
                    position: self.skip,
                };
            }
        };
        let bit = |e: BitError| of_bit_error(&e);
        let result: Result<Value, Refusal> = match self.what {
            What::Vector { scale } => rust::vector(&mut r, scale).map(doubles).map_err(|e| of_decode_error(&e)),
            What::Normal => rust::normal(&mut r).map(doubles).map_err(bit),
            What::Rotation { width } => rust::rotation(&mut r, width).map(floats).map_err(bit),
            What::Packed => self.packed(&mut r).map_err(bit),
            What::Serialized { maximum } => r.read_serialized_int(maximum).map(|v| Value::Number(v.into())).map_err(bit),
            What::Bits { count } => r.read_bits(count).map(Value::Number).map_err(bit),
            What::Copy { count, .. } => r.copy_bits_to(target, count).map(|()| Value::Copied).map_err(bit),
        };
        ReadAnswer {
            result,
            position: r.position(),
        }
    }

    /// The number, and its form by the way that the reader went.
    fn packed(&self, r: &mut BitReader<'_>) -> Result<Value, BitError> {
        let value = r.read_int_packed()?;
        let bytes = ((r.position() - self.skip) / 8) as u32;
        Ok(Value::Packed(value.into(), bytes, bytes > seen::needed(value)))
    }

    pub fn port(&self, desk: &mut Desk) -> ReadAnswer {
        let (bytes, cursor) = (&self.window.bytes, self.cursor());
        match self.what {
            What::Vector { scale } => port::vector(bytes, cursor, scale),
            What::Normal => port::normal(bytes, cursor),
            What::Rotation { width } => port::rotation(bytes, cursor, width),
            What::Packed => port::read_packed(bytes, cursor),
            What::Serialized { maximum } => port::read_serialized(bytes, cursor, maximum),
            What::Bits { count } => port::read_bits(bytes, cursor, u64::from(count)),
            What::Copy { count, .. } => desk.copy_bits(bytes, cursor, count),
        }
    }

    pub fn check(&self, desk: &mut Desk) -> Result<Outcome, Difference> {
        let room = match self.what {
            What::Copy { room, .. } => Some(room),
            _ => None,
        };
        let mut accepted = true;
        for pattern in PATTERNS.iter().take(if room.is_some() { 2 } else { 1 }) {
            let mut target = vec![*pattern; room.unwrap_or(0)];
            desk.target.lend(target.len(), *pattern);
            let (rust, port) = (self.rust(&mut target), self.port(desk));
            if rust != port || !desk.target.holds(&target) {
                let shown = |answer: &ReadAnswer, target: &[u8]| match room {
                    None => answer.to_string(),
                    Some(_) => format!("{answer} target {}", hex(target)),
                };
                let found = desk.target.front(target.len() + 1);
                return Err(Difference::new("read", shown(&rust, &target), shown(&port, found)));
            }
            accepted = rust.result.is_ok();
        }
        Ok(if accepted { Outcome::Accepted } else { Outcome::Refused })
    }

    pub fn smaller(&self) -> Box<dyn Iterator<Item = Self> + '_> {
        let plain = (self.start > 0).then(|| Self { start: 0, ..self.clone() });
        let first = (self.skip > 0).then(|| Self { skip: 0, ..self.clone() });
        // Of a window with a start the bytes are left as they are.
        let windows = self.window.smaller().filter(|_| self.start == 0);
        let windows = windows.filter(|w| u64::from(w.bits) >= self.skip);
        let windows = windows.map(|window| Self { window, ..self.clone() });
        Box::new(plain.into_iter().chain(first).chain(windows))
    }
}

fn doubles(v: FVector) -> Value {
    Value::Doubles([v.x, v.y, v.z].map(f64::to_bits))
}

fn floats(v: FRotator) -> Value {
    Value::Floats([v.pitch, v.yaw, v.roll].map(f32::to_bits))
}
