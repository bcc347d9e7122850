//! All angles and normals, and vectors of every width with components on their edges and next to every tie.
use crate::bits::Bits;
use crate::case::Case;
use crate::read::{ReadCase, What};
use crate::rng::Rng;
use crate::runner::Runner;
use crate::window::Window;
use std::collections::BTreeSet;
use vrf_proved::lent::NONE;

/// A read at the front of a window that holds these bits.
pub fn case(what: What, bits: &Bits) -> Case {
    Case::Read(ReadCase {
        what,
        start: 0,
        skip: 0,
        window: Window::of(bits),
    })
}

fn angle(width: u32, k: u64) -> Case {
    let mut b = Bits::new();
    for value in [k, !k, k.wrapping_mul(40_503)] {
        b.put(1, 1).put(value, width as usize);
    }
    case(What::Rotation { width }, &b)
}

fn normal(k: u64) -> Case {
    let mut b = Bits::new();
    b.put(k, 16).put(!k, 16).put(k.wrapping_mul(40_503), 16);
    case(What::Normal, &b)
}

fn single(pattern: u32) -> Case {
    let mut b = Bits::new();
    b.put(0, 7)
        .put(pattern.into(), 32)
        .put((pattern ^ 1 << 31).into(), 32)
        .put((pattern ^ 1).into(), 32);
    case(What::Vector { scale: 1 }, &b)
}

/// Components of a width: the ends, powers of two, ties of the conversion to binary64, and their neighbours.
fn edges(rng: &mut Rng, width: u32) -> BTreeSet<i64> {
    let top = 1i128 << (width - 1);
    let mut all = BTreeSet::from([0, 1, 2, 3, -1, -2, -3, top - 1, top - 2, -top, 1 - top]);
    for bit in 52..width.saturating_sub(1) {
        for near in -2..=2 {
            all.extend([(1i128 << bit) + near, near - (1i128 << bit)]);
        }
    }
    for shift in 1..width.saturating_sub(53) {
        for odd in 0..2 {
            let tie = (i128::from(1u64 << 52 | rng.bits(51) << 1 | odd) << shift) + (1 << (shift - 1));
            all.extend([tie, tie - 1, tie + 1, -tie, 1 - tie, -tie - 1]);
        }
    }
    all.into_iter().filter(|x| -top <= *x && *x < top).map(|x| x as i64).collect()
}

fn vector(width: u32, scale: u32, flag: u64, x: i64) -> Case {
    let mut b = Bits::new();
    b.put(u64::from(width) | flag << 6, 7);
    for component in [x, x.wrapping_neg(), x ^ 1] {
        b.put(component as u64, width as usize);
    }
    case(What::Vector { scale }, &b)
}

/// False: a difference was found.
pub fn run(runner: &mut Runner) -> bool {
    let row = runner.row("numbers", "all angles and normals, vectors on their edges");
    let mut rng = Rng::new(7, 0);
    let angles = (0..256).map(|k| angle(8, k)).chain((0..65_536).map(|k| angle(16, k)));
    let normals = (0..65_536).map(normal);
    let fractions = [0, 1, 2, 3, 0x3f_ffff, 0x40_0000, 0x40_0001, 0x7f_fffe, 0x7f_ffff];
    let singles = (0..256).flat_map(|e| fractions.map(|f| single(e << 23 | f)));
    let subnormals = (0..23).flat_map(|bit| [single(1 << bit), single((1 << bit) - 1)]);
    let mut fixed = angles.chain(normals).chain(singles).chain(subnormals);
    if !fixed.all(|c| runner.one(row, &c)) {
        return false;
    }
    for width in 1..64 {
        for x in edges(&mut rng, width) {
            for (scale, flag) in [(1, 1), (10, 1), (100, 1), (3, 1), (NONE, 1), (10, 0)] {
                if !runner.one(row, &vector(width, scale, flag, x)) {
                    return false;
                }
            }
        }
    }
    true
}
