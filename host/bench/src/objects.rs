//! Object walks.

use crate::bits::Bits;
use crate::row::{side, Row, Side, Sides, Way};
use crate::windows;
use decode::array::decode_object_ref_array;
use std::hint::black_box;
use vrf_proved::lent::{self, PAIR_WORDS};

fn sides(window: Bits, way: Way) -> Sides {
    let mut pairs = needed(&window);
    assert!(agree(&window, &mut pairs), "the object walks differ");
    let same = window.clone();
    let rust = side(move || {
        let window = black_box(&same);
        black_box(decode_object_ref_array(&window.bytes, window.count));
    });
    let given = window.clone();
    let walk = move |pairs: &mut [u32]| {
        let window = black_box(&given);
        black_box(lent::object_array(&window.bytes, window.count, pairs).is_ok());
    };
    let port = match way {
        Way::Lent => side(move || walk(&mut pairs)),
        Way::Cleared => side(move || {
            pairs.fill(0);
            walk(black_box(&mut pairs));
        }),
        Way::Nothing => side(move || walk(&mut [])),
        Way::DropIn => drop_in(window),
    };
    Sides { units: 1, rust, port }
}

fn needed(window: &Bits) -> Vec<u32> {
    match lent::object_array(&window.bytes, window.count, &mut []) {
        Err(refusal) => vec![0; PAIR_WORDS * refusal.values[0] as usize],
        Ok(_) => Vec::new(),
    }
}

fn agree(window: &Bits, pairs: &mut [u32]) -> bool {
    let theirs = decode_object_ref_array(&window.bytes, window.count);
    let owned = vrf_proved::decode_object_ref_array(&window.bytes, window.count);
    let accepted = lent::object_array(&window.bytes, window.count, pairs).is_ok();
    let lent = pairs.chunks_exact(PAIR_WORDS).map(|pair| (pair[0], pair[1]));
    accepted && owned == theirs && lent.eq(theirs)
}

fn drop_in(window: Bits) -> Side {
    side(move || {
        let window = black_box(&window);
        black_box(vrf_proved::decode_object_ref_array(&window.bytes, window.count));
    })
}

fn row(what: &str, window: &Bits, way: Way) -> Row {
    let window = window.clone();
    Row::new(format!("{what}, {} bits{}", window.count, way.told()), "window", move || {
        sides(window.clone(), way)
    })
}

pub fn rows() -> Vec<Row> {
    let many = windows::objects(1_000);
    let few = windows::objects(4);
    let cut = Bits {
        count: many.count / 2 + 3,
        ..many.clone()
    };
    let mut rows = Vec::new();
    for way in [Way::Lent, Way::Cleared, Way::Nothing, Way::DropIn] {
        rows.push(row("1,000 objects", &many, way));
    }
    for way in [Way::Lent, Way::DropIn] {
        rows.push(row("4 objects", &few, way));
    }
    rows.push(row("damaged: 1,000 objects cut", &cut, Way::Lent));
    rows
}
