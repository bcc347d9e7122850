//! The largest windows, and the largest needs that a window of that size is known to have.
use crate::bits::Bits;
use crate::case::Case;
use crate::objects::ObjectCase;
use crate::tables::{Declared, Schema};
use crate::walk::WalkCase;
use crate::window::Window;
use std::rc::Rc;
use vrf_proved::lent::LONGEST_WINDOW;

const MOST: usize = LONGEST_WINDOW as usize;

fn walk(bits: Bits, exact: bool, schema: &Rc<Schema>, declared: &Rc<Declared>) -> Case {
    Case::Walk(WalkCase {
        exact,
        window: Window::of(&bits),
        schema: schema.clone(),
        declared: declared.clone(),
    })
}

/// One leaf as wide as fits.
fn one_leaf() -> Bits {
    let mut w = Bits::new();
    // count, index, handle: a byte each; the width: three bytes; two closing zeros
    let width = MOST - 24 - 24 - 16;
    w.packed(1).packed(1).packed(1).packed(width as u32);
    for i in 0..width / 8 {
        w.byte((i * 37 + 11) as u8);
    }
    w.put(0, 16);
    w
}

/// Elements of 128 empty fields, as many as fit into `most` bits.
fn empty_leaves(index: u32, handle: u32, most: usize) -> Bits {
    let mut unit = Bits::new();
    unit.packed(index + 1);
    for _ in 0..128 {
        unit.packed(handle + 1).packed(0);
    }
    unit.packed(0);
    let mut w = Bits::new();
    w.packed(4096);
    while w.len() + unit.len() + 8 <= most {
        w.join(&unit);
    }
    w.packed(0);
    w
}

/// The most pairs: 4,096 elements with an object each.
fn most_pairs() -> Bits {
    let mut w = Bits::new();
    w.packed(4096);
    for i in 0..4096 {
        let mut object = Bits::new();
        object.packed(i * 1_048_571);
        w.packed(i + 1).packed(1).packed(object.len() as u32).join(&object).packed(0);
    }
    w.packed(0);
    w
}

/// In eleven containers, at the last index of each.
fn nested(inner: Bits) -> Bits {
    let mut w = inner;
    for _ in 0..11 {
        let mut out = Bits::new();
        out.packed(4096).packed(4096).packed(1).packed(w.len() as u32).join(&w).put(0, 16);
        w = out;
    }
    w
}

pub fn cases() -> Vec<Case> {
    let (none, bare) = (Schema::none(), Declared::none());
    let name = "W".repeat(64);
    let rows = vec![[0, 0, 0, 0, 0], [0, 1, 0, 0, 64]];
    let cycle = Schema::of_rows(1, 0, rows, name.clone().into_bytes());
    let named = Declared::of(vec![None, Some(name)]);
    let mut longest_path = Bits::new();
    longest_path.packed(4096).packed(4096).packed(2).packed(8).byte(0xab).put(0, 16);
    let fill = |byte: u8| Bits::of_bytes(&vec![byte; MOST / 8]);
    vec![
        walk(one_leaf(), false, &none, &bare),
        walk(one_leaf(), true, &none, &bare),
        walk(empty_leaves(0, 0, MOST), false, &none, &bare),
        walk(empty_leaves(4095, 1, MOST), true, &none, &named),
        walk(nested(longest_path), false, &cycle, &named),
        walk(nested(empty_leaves(4095, 1, MOST - 11 * 80)), false, &cycle, &named),
        walk(fill(0), false, &none, &bare),
        walk(fill(2), false, &cycle, &named),
        Case::Objects(ObjectCase(Window::of(&most_pairs()))),
        Case::Objects(ObjectCase(Window::of(&fill(2)))),
        Case::Objects(ObjectCase(Window::of(&fill(0)))),
    ]
}
