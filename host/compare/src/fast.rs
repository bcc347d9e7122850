//! Fast-array bodies.
use crate::answer::{Difference, Outcome, refused, told};
use crate::lent::Room;
use crate::port::Desk;
use crate::seen;
use crate::window::Window;
use decode::fastarray::{ChecksumMode, FastArrayDelta, decode_fast_array_delta};
use vrf_proved::lent::{FIELD_WORDS, FastArray, ITEM_WORDS, Refusal};

#[derive(Clone)]
pub struct FastCase {
    pub flags: bool,
    pub window: Window,
}

/// The buffers as the Rust's answer fills them.
struct Flat {
    deleted: Vec<i32>,
    items: Vec<u32>,
    fields: Vec<u32>,
}

impl Flat {
    fn of(d: &FastArrayDelta) -> Self {
        let item = |i: &decode::fastarray::ChangedItem| [i.replication_id as u32, i.fields.len() as u32];
        let fields = d.changed_items.iter().flat_map(|i| &i.fields);
        Self {
            deleted: d.deleted_replication_ids.clone(),
            items: d.changed_items.iter().flat_map(item).collect(),
            fields: fields.flat_map(|f| [f.handle, f.payload_bit_offset, f.payload_bit_count]).collect(),
        }
    }

    fn needs(&self) -> [usize; 3] {
        [self.deleted.len(), self.items.len(), self.fields.len()]
    }

    fn records(&self) -> [u64; 3] {
        [self.deleted.len(), self.items.len() / ITEM_WORDS, self.fields.len() / FIELD_WORDS].map(|n| n as u64)
    }
}

fn lend(desk: &mut Desk, lent: [usize; 3], room: Room) {
    desk.deleted.lend(lent[0], room.words() as i32);
    desk.items.lend(lent[1], room.words());
    desk.fields.lend(lent[2], room.words());
}

fn untouched(desk: &Desk) -> bool {
    desk.deleted.holds(&[]) && desk.items.holds(&[]) && desk.fields.holds(&[])
}

impl FastCase {
    pub fn line(&self) -> String {
        format!("F {} {}", u8::from(self.flags), self.window.line())
    }

    pub fn check(&self, desk: &mut Desk) -> Result<Outcome, Difference> {
        let mode = if self.flags { ChecksumMode::Present } else { ChecksumMode::Absent };
        let (bytes, bits) = (&self.window.bytes, self.window.bits);
        let given = decode_fast_array_delta(bytes, bits, mode);
        let padded = given.as_ref().map_or(0, |_| seen::of_fast(self));
        crate::dropin::fast(self, given.as_ref(), padded)?;
        let Some(d) = given else {
            lend(desk, [4; 3], Room::Longer);
            let answer = desk.fast_array(bytes, bits, self.flags);
            if answer == Err(refused(6, [0; 3])) && untouched(desk) {
                return Ok(Outcome::Refused);
            }
            return Err(Difference::new(
                "a body that isn't one",
                "refusal 6, nothing written",
                shown(&answer, desk),
            ));
        };
        let flat = Flat::of(&d);
        for room in Room::all(flat.needs()) {
            lend(desk, room.of(flat.needs()), room);
            let answer = desk.fast_array(bytes, bits, self.flags);
            if !agrees(&answer, desk, (&d, padded), &flat, room) {
                let call = room.name(["deleted", "items", "fields"]);
                let rust = format!("{d:?}, padded {padded}, needs {:?}", flat.records());
                return Err(Difference::new(call, rust, shown(&answer, desk)));
            }
        }
        Ok(Outcome::Accepted)
    }

    pub fn smaller(&self) -> Box<dyn Iterator<Item = Self> + '_> {
        Box::new(self.window.smaller().map(|window| Self { window, ..*self }))
    }
}

/// `given`: the Rust's body, and its padded numbers.
fn agrees(answer: &Result<FastArray, Refusal>, desk: &Desk, given: (&FastArrayDelta, u32), flat: &Flat, room: Room) -> bool {
    let (d, padded) = given;
    match (answer, room) {
        (Err(r), Room::Short(_)) => r.number == 3 && r.values == flat.records() && untouched(desk),
        (Ok(f), Room::Full | Room::Longer) => {
            [f.deletes, f.items, f.fields].map(|n| n as u64) == flat.records()
                && [f.deletes, f.items] == [d.header.num_deletes, d.header.num_changed].map(|n| n as usize)
                && (f.key, f.base, f.used) == (d.header.array_replication_key, d.header.base_replication_key, d.consumed_bits)
                && f.padded == padded
                && d.supports_delta_struct
                && desk.deleted.holds(&flat.deleted)
                && desk.items.holds(&flat.items)
                && desk.fields.holds(&flat.fields)
        }
        _ => false,
    }
}

fn shown(answer: &Result<FastArray, Refusal>, desk: &Desk) -> String {
    match answer {
        Err(r) => format!("{}{}", told(r), if untouched(desk) { "" } else { ", and a buffer is written" }),
        Ok(f) => format!(
            "{f:?}, deleted {:?}, items {:?}, fields {:?}",
            desk.deleted.front(f.deletes + 1),
            desk.items.front(ITEM_WORDS * f.items + 1),
            desk.fields.front(FIELD_WORDS * f.fields + 1)
        ),
    }
}
