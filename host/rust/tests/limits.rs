//! The limits stand where the constants say.

mod common;

use common::{stats, Window};
use vrf_proved::*;

fn walk(window: &Window) -> Decoded<PlacedField> {
    try_decode_struct_array(&window.bytes, window.bits, None, &[]).unwrap()
}

#[test]
fn elements() {
    let most = Window::array(&vec![vec![]; MAX_ELEMENTS as usize]);
    assert_eq!(walk(&most).stats, stats([4096, 0, 0, 0, 0, 0, 0]));

    // a count above the limit: everything behind it is kept as one tail
    let mut over = Window::default();
    over.packed(MAX_ELEMENTS + 1);
    over.push(0x1ff, 9);
    let kept = walk(&over);
    assert_eq!(kept.stats, stats([0, 1, 1, 0, 0, 0, 0]));
    let tail = FlattenedField {
        path: "._raw".to_string(),
        handle: u32::MAX,
        bit_count: 9,
        raw_bits: vec![0xff, 0x01],
    };
    let window_start = 16; // behind the count
    assert_eq!(kept.values, [PlacedField { field: tail, window_start }]);
}

#[test]
fn fields() {
    let element = |fields: u32| Window::array(&[(0..fields).map(|handle| (handle, Window::default())).collect()]);
    let most = walk(&element(MAX_FIELDS_PER_ELEMENT));
    assert_eq!((most.values.len(), most.stats), (128, stats([1, 128, 0, 0, 0, 0, 0])));
    let over = walk(&element(MAX_FIELDS_PER_ELEMENT + 1));
    assert_eq!(over.stats, stats([1, 129, 1, 0, 0, 0, 0]));
    assert_eq!(over.values[128].field.path, "[0]._raw");
}
