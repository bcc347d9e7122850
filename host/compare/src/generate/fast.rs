//! Fast-array bodies, then damage; wrong counts; a byte too many or too few; read in the other mode.
use super::{damage, put_packed, random_payload};
use crate::bits::Bits;
use crate::fast::FastCase;
use crate::rng::Rng;
use crate::window::Window;
use vrf_proved::lent::NONE;

fn wrong_count(rng: &mut Rng, right: u32) -> u32 {
    let any = rng.number() >> 1;
    rng.pick(&[right + 1, NONE, (1 << 31) - 1, 1 << 31, any])
}

pub fn case(rng: &mut Rng) -> FastCase {
    let flags = rng.percent(50);
    let (deletes, changes) = (rng.pick(&[0, 0, 1, 2, 3]), rng.pick(&[0, 0, 1, 1, 2, 3]));
    let mut w = Bits::new();
    w.put(u64::from(!rng.percent(3)), 1).put(rng.next(), 64);
    let written = match rng.below(100) {
        0..6 => [wrong_count(rng, deletes), changes],
        6..12 => [deletes, wrong_count(rng, changes)],
        _ => [deletes, changes],
    };
    for n in written {
        w.put(n.into(), 32);
    }
    for _ in 0..deletes {
        let any = rng.number();
        w.put(rng.pick(&[0, 1, NONE, 1 << 31, any]).into(), 32);
    }
    for _ in 0..changes {
        item(rng, &mut w, flags);
    }
    if rng.percent(35) {
        w = damage(rng, w);
    }
    let mut window = Window::close(rng, &w);
    match rng.below(100) {
        0..3 => window.bytes.push(0),
        3..5 => {
            window.bytes.pop();
        }
        _ => {}
    }
    FastCase {
        flags: flags != rng.percent(5),
        window,
    }
}

fn item(rng: &mut Rng, w: &mut Bits, flags: bool) {
    let any = rng.number();
    w.put(rng.pick(&[0, 7, NONE, any]).into(), 32);
    if flags {
        w.put(rng.next(), 1);
    }
    for _ in 0..rng.pick(&[0, 0, 1, 2, 5]) {
        let any = rng.any_size().max(1);
        let handle = rng.pick(&[1, 2, 128, NONE, any]);
        let payload = random_payload(rng);
        put_packed(rng, w, handle, 10);
        put_packed(rng, w, payload.len() as u32, 10);
        w.join(&payload);
    }
    put_packed(rng, w, 0, 10);
}
