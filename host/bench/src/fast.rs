//! Fast arrays.

use crate::bits::Bits;
use crate::row::{alike, side, Row, Side, Sides, Way};
use crate::windows;
use decode::fastarray::{decode_fast_array_delta, ChecksumMode};
use std::hint::black_box;
use vrf_proved::lent::{self, FIELD_WORDS, ITEM_WORDS};

/// Buffers as large as a body needs.
struct Lent {
    deleted: Vec<i32>,
    items: Vec<u32>,
    fields: Vec<u32>,
}

impl Lent {
    fn needed(body: &Bits, flags: bool) -> Self {
        let [deletes, items, fields] = match lent::fast_array(&body.bytes, body.count, flags, &mut [], &mut [], &mut []) {
            Err(refusal) => refusal.values.map(|n| n as usize),
            Ok(_) => [0; 3],
        };
        Self {
            deleted: vec![0; deletes],
            items: vec![0; ITEM_WORDS * items],
            fields: vec![0; FIELD_WORDS * fields],
        }
    }

    fn nothing() -> Self {
        Self {
            deleted: Vec::new(),
            items: Vec::new(),
            fields: Vec::new(),
        }
    }

    fn clear(&mut self) {
        self.deleted.fill(0);
        self.items.fill(0);
        self.fields.fill(0);
    }

    fn read(&mut self, body: &Bits, flags: bool) -> bool {
        lent::fast_array(&body.bytes, body.count, flags, &mut self.deleted, &mut self.items, &mut self.fields).is_ok()
    }
}

fn mode(flags: bool) -> ChecksumMode {
    if flags {
        ChecksumMode::Present
    } else {
        ChecksumMode::Absent
    }
}

fn agree(body: &Bits, flags: bool, lent: &mut Lent) -> bool {
    let Some(delta) = decode_fast_array_delta(&body.bytes, body.count, mode(flags)) else {
        return false;
    };
    let items: Vec<u32> = delta
        .changed_items
        .iter()
        .flat_map(|i| [i.replication_id as u32, i.fields.len() as u32])
        .collect();
    let fields: Vec<u32> = delta
        .changed_items
        .iter()
        .flat_map(|i| &i.fields)
        .flat_map(|f| [f.handle, f.payload_bit_offset, f.payload_bit_count])
        .collect();
    let owned = vrf_proved::fastarray::decode_fast_array_delta(&body.bytes, body.count, same_mode(flags));
    let same_owned = owned.is_some_and(|owned| alike(&owned, &delta));
    same_owned && lent.read(body, flags) && lent.deleted == delta.deleted_replication_ids && lent.items == items && lent.fields == fields
}

fn sides(body: Bits, flags: bool, way: Way) -> Sides {
    let mut lent = Lent::needed(&body, flags);
    assert!(agree(&body, flags, &mut lent), "the fast arrays differ");
    let same = body.clone();
    let rust = side(move || {
        let body = black_box(&same);
        black_box(decode_fast_array_delta(&body.bytes, body.count, black_box(mode(flags))));
    });
    let port = match way {
        Way::Lent => reading(body, flags, lent),
        Way::Nothing => reading(body, flags, Lent::nothing()),
        Way::Cleared => side(move || {
            lent.clear();
            black_box((black_box(&mut lent).read(black_box(&body), black_box(flags)), &lent.fields));
        }),
        Way::DropIn => side(move || {
            let body = black_box(&body);
            black_box(vrf_proved::fastarray::decode_fast_array_delta(
                &body.bytes,
                body.count,
                black_box(same_mode(flags)),
            ));
        }),
    };
    Sides { units: 1, rust, port }
}

fn reading(body: Bits, flags: bool, mut lent: Lent) -> Side {
    side(move || {
        let done = lent.read(black_box(&body), black_box(flags));
        black_box((done, &lent.fields));
    })
}

fn same_mode(flags: bool) -> vrf_proved::fastarray::ChecksumMode {
    if flags {
        vrf_proved::fastarray::ChecksumMode::Present
    } else {
        vrf_proved::fastarray::ChecksumMode::Absent
    }
}

fn row(what: &str, body: &Bits, flags: bool, way: Way) -> Row {
    let body = body.clone();
    Row::new(format!("{what}, {} bits{}", body.count, way.told()), "body", move || {
        sides(body.clone(), flags, way)
    })
}

pub fn rows() -> Vec<Row> {
    let large = windows::body(50, 100, 5, false);
    let small = windows::body(0, 1, 3, false);
    let mut rows = Vec::new();
    for way in [Way::Lent, Way::Cleared, Way::Nothing, Way::DropIn] {
        rows.push(row("50 deletes, 500 fields", &large, false, way));
    }
    rows.push(row(
        "50 deletes, 500 fields, flags",
        &windows::body(50, 100, 5, true),
        true,
        Way::Lent,
    ));
    for way in [Way::Lent, Way::DropIn] {
        rows.push(row("1 item of 3 fields", &small, false, way));
    }
    rows
}
