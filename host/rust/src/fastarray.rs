//! The fast-array body: replication keys, deleted ids, and the fields of changed items as places in the payload.

use crate::lent::{self, Refusal, FIELD_WORDS, ITEM_WORDS};
use crate::scratch::{self, fit};
use std::cell::Cell;

/// Whether a flag bit stands behind each changed item's id. The bits can't tell: the caller has to know.
#[derive(Debug, Clone, Copy, PartialEq, Eq)]
pub enum ChecksumMode {
    /// No flag.
    Absent,
    /// One flag, which is read and passed over.
    Present,
}

/// The body's four leading numbers.
#[derive(Debug, Clone, PartialEq, Eq)]
#[must_use]
pub struct Header {
    /// The array's key.
    pub array_replication_key: i32,
    /// The key it is a change from.
    pub base_replication_key: i32,
    /// How many ids are deleted.
    pub num_deletes: u32,
    /// How many items are changed.
    pub num_changed: u32,
}

/// A field of a changed item: where its payload stands.
#[derive(Debug, Clone, PartialEq, Eq)]
#[must_use]
pub struct RawField {
    /// The field's handle.
    pub handle: u32,
    /// The payload's first bit in the window.
    pub payload_bit_offset: u32,
    /// The payload's bits.
    pub payload_bit_count: u32,
}

/// A changed item.
#[derive(Debug, Clone, PartialEq, Eq)]
#[must_use]
pub struct ChangedItem {
    /// The item's id.
    pub replication_id: i32,
    /// Its fields, in the order of the window.
    pub fields: Vec<RawField>,
}

/// A whole fast-array body.
#[derive(Debug, Clone, PartialEq, Eq)]
#[must_use]
pub struct FastArrayDelta {
    /// The leading bit. A body without it is refused, so it is set.
    pub supports_delta_struct: bool,
    /// Keys and counts.
    pub header: Header,
    /// Deleted ids, in the order of the window.
    pub deleted_replication_ids: Vec<i32>,
    /// Changed items, in the order of the window.
    pub changed_items: Vec<ChangedItem>,
    /// All bits of the window.
    pub consumed_bits: u32,
}

/// What [`try_decode_fast_array_delta`] gives of an accepted body.
#[derive(Debug, Clone, PartialEq, Eq)]
#[must_use]
pub struct FastArrayRead {
    /// The body.
    pub delta: FastArrayDelta,
    /// How many of its handles, widths and closing zeros are padded ([`lent`] says what that is).
    pub padded: u32,
}

/// The fast-array body that the first `bit_count` bits are, or `None` if they are none, if `payload` has not as many bytes as the bits
/// take, or if the window is longer than 524,288 bits ([`try_decode_fast_array_delta`] tells these apart).
///
/// ```
/// use vrf_proved::fastarray::{decode_fast_array_delta, ChecksumMode};
///
/// // the leading bit; keys 1 and 0; nothing deleted, nothing changed
/// let mut body = [0u8; 17];
/// body[0] = 0x03;
/// let delta = decode_fast_array_delta(&body, 129, ChecksumMode::Absent).unwrap();
/// assert_eq!((delta.header.array_replication_key, delta.header.num_changed, delta.consumed_bits), (1, 0, 129));
/// // cut by a bit
/// assert_eq!(decode_fast_array_delta(&body[..16], 128, ChecksumMode::Absent), None);
/// ```
#[must_use]
pub fn decode_fast_array_delta(payload: &[u8], bit_count: u32, checksum_mode: ChecksumMode) -> Option<FastArrayDelta> {
    try_decode_fast_array_delta(payload, bit_count, checksum_mode)
        .ok()
        .map(|read| read.delta)
}

/// [`decode_fast_array_delta`] with the number of padded numbers, or the refusal: 1 for a window that is too long, 6 for bits that are no
/// fast-array body.
///
/// ```
/// use vrf_proved::fastarray::{try_decode_fast_array_delta, ChecksumMode};
///
/// // the leading bit; keys 1 and 0; nothing deleted; one item, its id 0, with no fields: a closing zero of one byte, then of two
/// let mut body = [0u8; 23];
/// (body[0], body[12]) = (0x03, 0x02);
/// assert_eq!(try_decode_fast_array_delta(&body[..22], 169, ChecksumMode::Absent)?.padded, 0);
/// body[20] = 0x02;
/// assert_eq!(try_decode_fast_array_delta(&body, 177, ChecksumMode::Absent)?.padded, 1);
///
/// assert_eq!(try_decode_fast_array_delta(&[0; 17], 129, ChecksumMode::Present).unwrap_err().number, 6);
/// assert_eq!(try_decode_fast_array_delta(&[1; 65_537], 524_289, ChecksumMode::Present).unwrap_err().number, 1);
/// # Ok::<(), vrf_proved::lent::Refusal>(())
/// ```
pub fn try_decode_fast_array_delta(payload: &[u8], bit_count: u32, checksum_mode: ChecksumMode) -> Result<FastArrayRead, Refusal> {
    let flags = checksum_mode == ChecksumMode::Present;
    scratch::lend(&BODY, |lent: &mut Body| {
        let body = lent::fast_array(payload, bit_count, flags, &mut lent.deleted, &mut lent.items, &mut lent.fields)?;
        Ok(FastArrayRead {
            delta: lent.delta(&body),
            padded: body.padded,
        })
    })
}

// ---- buffers

thread_local! {
    static BODY: Cell<Body> = Cell::default();
}

#[derive(Default)]
struct Body {
    deleted: Vec<i32>,
    items: Vec<u32>,
    fields: Vec<u32>,
}

impl scratch::Buffers for Body {
    fn make_room(&mut self, [deletes, items, fields]: [u64; 3]) {
        fit(&mut self.deleted, deletes, 1);
        fit(&mut self.items, items, ITEM_WORDS);
        fit(&mut self.fields, fields, FIELD_WORDS);
    }
}

impl Body {
    fn delta(&self, body: &lent::FastArray) -> FastArrayDelta {
        let mut fields = self.fields.chunks_exact(FIELD_WORDS).map(|field| RawField {
            handle: field[0],
            payload_bit_offset: field[1],
            payload_bit_count: field[2],
        });
        let items = self.items.chunks_exact(ITEM_WORDS).take(body.items);
        FastArrayDelta {
            supports_delta_struct: true,
            header: Header {
                array_replication_key: body.key,
                base_replication_key: body.base,
                num_deletes: body.deletes as u32,
                num_changed: body.items as u32,
            },
            deleted_replication_ids: self.deleted[..body.deletes].to_vec(),
            changed_items: items
                .map(|item| ChangedItem {
                    replication_id: item[0] as i32,
                    fields: fields.by_ref().take(item[1] as usize).collect(),
                })
                .collect(),
            consumed_bits: body.used,
        }
    }
}
