//! A window: bytes and a bit count. What stands behind the count must not matter, so it is drawn at random.
use crate::bits::Bits;
use crate::rng::Rng;
use oracle::text::hex;

#[derive(Clone)]
pub struct Window {
    pub bytes: Vec<u8>,
    pub bits: u32,
}

impl Window {
    pub fn around(rng: &mut Rng, bits: &Bits) -> Self {
        let mut bytes = bits.bytes().to_vec();
        spill(rng, &mut bytes, bits.len());
        if rng.percent(20) {
            for _ in 0..rng.between(1, 9) {
                bytes.push(rng.next() as u8);
            }
        }
        Self {
            bytes,
            bits: bits.len() as u32,
        }
    }

    /// Exactly the bytes that the bits take, zeros behind the last bit.
    pub fn of(bits: &Bits) -> Self {
        Self {
            bytes: bits.bytes().to_vec(),
            bits: bits.len() as u32,
        }
    }

    /// Exactly the bytes that the bits take.
    pub fn close(rng: &mut Rng, bits: &Bits) -> Self {
        let mut bytes = bits.bytes().to_vec();
        spill(rng, &mut bytes, bits.len());
        Self {
            bytes,
            bits: bits.len() as u32,
        }
    }

    /// More bits than bytes.
    pub fn past(rng: &mut Rng) -> Self {
        let bytes: Vec<u8> = (0..rng.below(5)).map(|_| rng.next() as u8).collect();
        let bits = (bytes.len() * 8 + rng.between(1, 40)) as u32;
        Self { bytes, bits }
    }

    pub fn line(&self) -> String {
        format!("{} {}", self.bits, hex(&self.bytes))
    }

    fn inside(&self) -> Option<Bits> {
        let bits = self.bits as usize;
        (bits <= self.bytes.len() * 8).then(|| Bits::of_bytes(&self.bytes).opening(bits))
    }

    /// Smaller windows, the boldest first: without what stands behind, without a run of bits, with a bit cleared.
    pub fn smaller(&self) -> Box<dyn Iterator<Item = Window> + '_> {
        let Some(bits) = self.inside() else {
            let shorter = (1..=self.bytes.len()).map(|n| Window {
                bytes: self.bytes[n..].to_vec(),
                bits: self.bits - 8 * n as u32,
            });
            return Box::new(shorter);
        };
        let of = |b: &Bits| Window {
            bytes: b.bytes().to_vec(),
            bits: b.len() as u32,
        };
        let bare = of(&bits);
        let bare = (bare.bytes != self.bytes).then_some(bare);
        let len = bits.len();
        let sizes = std::iter::successors(Some(len), |n| (*n > 1).then_some(n / 2)).filter(|n| *n > 0);
        let runs = sizes.flat_map(move |n| (0..len).step_by(n).filter(move |at| at + n <= len).map(move |at| (at, n)));
        let kept = bits.clone();
        let cut = runs.map(move |(at, n)| of(&kept.without(at, n)));
        let cleared = (0..len).filter(|at| bits.bit(*at)).collect::<Vec<_>>().into_iter().map(move |at| {
            let mut b = bits.clone();
            b.flip(at);
            of(&b)
        });
        Box::new(bare.into_iter().chain(cut).chain(cleared))
    }
}

/// Random bits in the last byte, behind the window.
fn spill(rng: &mut Rng, bytes: &mut [u8], len: usize) {
    if !len.is_multiple_of(8)
        && let Some(last) = bytes.last_mut()
    {
        *last |= (rng.next() as u8) << (len % 8);
    }
}
