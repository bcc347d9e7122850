//! Wrong starts: counted from elsewhere, or another number in their place.
use vrf_proved::lent::{self, Cursor, LEAF_WORDS, NONE};
use vrf_proved::try_decode_struct_array;

pub const FROM_CHILD: &str = "the start of a leaf in a child counts from the child";
pub const TAIL_FROM_CHILD: &str = "the start of a tail in a child counts from the child";
pub const BEHIND_NUMBER: &str = "a tail starts behind its first number";
pub const BEFORE_WIDTH: &str = "an empty leaf starts a byte too early";
pub const ONE_BIT_MORE: &str = "a leaf starts a bit too late";
pub const PAYLOAD_TWICE: &str = "the payload start is the window start too";
pub const WINDOW_TWICE: &str = "the window start is the payload start too";

/// Does this to the records of a walk; of another part nothing.
pub fn misplace(part: &str, bytes: &[u8], bits: u32, records: &mut [u32]) {
    let children = match part {
        FROM_CHILD | TAIL_FROM_CHILD => fields(bytes, bits),
        _ => vec![],
    };
    for record in records.chunks_exact_mut(LEAF_WORDS) {
        let [_, _, handle, width, payload, start] = record else { continue };
        match part {
            FROM_CHILD => *start -= child(&children, *start),
            TAIL_FROM_CHILD if *handle == NONE => *start -= child(&children, *start),
            BEHIND_NUMBER if *handle == NONE => *start += number(bytes, bits, *start),
            BEFORE_WIDTH if *width == 0 => *start -= 8,
            ONE_BIT_MORE => *start += 1,
            PAYLOAD_TWICE => *start = *payload,
            WINDOW_TWICE => *payload = *start,
            _ => {}
        }
    }
}

/// Where the payloads of the root's fields start.
fn fields(bytes: &[u8], bits: u32) -> Vec<u32> {
    let root = try_decode_struct_array(bytes, bits, None, &[]);
    root.map_or(vec![], |walk| walk.values.iter().map(|leaf| leaf.window_start).collect())
}

/// The start of the field that this bit is inside of; 0 where it is the field's own start.
fn child(fields: &[u32], start: u32) -> u32 {
    let before = fields.iter().copied().take_while(|field| *field <= start).last();
    before.filter(|field| *field < start).unwrap_or(0)
}

/// The bits of the number there, if it can be read.
fn number(bytes: &[u8], bits: u32, at: u32) -> u32 {
    let cursor = Cursor {
        start: 0,
        pos: at.into(),
        len: bits.into(),
    };
    lent::read_packed(bytes, cursor).result.map_or(0, |packed| 8 * packed.bytes)
}
