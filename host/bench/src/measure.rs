//! Times of a row: both sides by turns, so that a busy machine slows both.

use crate::clock::spent;
use crate::row::{Side, Sides};

/// How long a batch of one side takes at least, in nanoseconds.
const BATCH: u64 = 4_000_000;

/// Nanoseconds for one unit of work.
pub struct Times {
    pub best: f64,
    pub median: f64,
}

pub struct Measured {
    pub rust: Times,
    pub port: Times,
}

fn time(side: &mut Side, turns: u64) -> u64 {
    let start = spent();
    side(turns);
    spent() - start
}

/// Turns that fill a batch. They are tried out, which warms the caches too.
fn turns(side: &mut Side) -> u64 {
    let mut turns = 1;
    while time(side, turns) < BATCH {
        turns *= 2;
    }
    turns
}

fn summary(mut rounds: Vec<f64>) -> Times {
    rounds.sort_by(f64::total_cmp);
    Times {
        best: rounds[0],
        median: rounds[rounds.len() / 2],
    }
}

/// Best and median of `rounds` rounds, at least one. A round runs a batch of each side, and each round begins with the other.
pub fn measure(sides: &mut Sides, rounds: u32) -> Measured {
    let units = sides.units as f64;
    let counts = [turns(&mut sides.rust), turns(&mut sides.port)];
    let (mut rust, mut port) = (Vec::new(), Vec::new());
    let each = |side: &mut Side, turns: u64| time(side, turns) as f64 / (turns as f64 * units);
    for round in 0..rounds.max(1) {
        if round % 2 == 0 {
            rust.push(each(&mut sides.rust, counts[0]));
            port.push(each(&mut sides.port, counts[1]));
        } else {
            port.push(each(&mut sides.port, counts[1]));
            rust.push(each(&mut sides.rust, counts[0]));
        }
    }
    Measured {
        rust: summary(rust),
        port: summary(port),
    }
}
