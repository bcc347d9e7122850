//! Lent buffers: what is filled, what stands behind it, and what a refused call may not touch.
use super::parts::Parts;

/// A buffer by its name, and the numbers of one of its records.
pub struct Buffer {
    name: &'static str,
    words: &'static [&'static str],
}

const fn buffer(name: &'static str, words: &'static [&'static str]) -> Buffer {
    Buffer { name, words }
}

pub const LEAVES: Buffer = buffer(
    "leaves",
    &["path start", "path length", "handle", "bits", "payload start", "window start"],
);
pub const PATHS: Buffer = buffer("paths", &["byte"]);
pub const PAYLOADS: Buffer = buffer("payloads", &["byte"]);
pub const PAIRS: Buffer = buffer("pairs", &["index", "object"]);
pub const ROWS: Buffer = buffer("rows", &["level", "kind", "handle", "a", "b"]);
pub const NAMES: Buffer = buffer("names", &["byte"]);
pub const DELETED: Buffer = buffer("deleted", &["id"]);
pub const ITEMS: Buffer = buffer("items", &["id", "field count"]);
pub const FIELDS: Buffer = buffer("fields", &["handle", "payload offset", "width"]);
pub const TARGET: Buffer = buffer("target", &["byte"]);

const FIRST: &str = "first";
const LAST: &str = "last";
const BEHIND: &str = "behind";
const WRITTEN: &str = "written";

impl Buffer {
    /// Each number of the first record and of the last; the cell behind those that are filled; the first cell, where the call is refused.
    pub fn names(&self) -> Vec<String> {
        let words = [FIRST, LAST]
            .into_iter()
            .flat_map(|which| self.words.iter().map(move |word| format!("{which} {word}")));
        let all = words.chain([BEHIND, WRITTEN].map(String::from));
        all.map(|part| format!("{}: {part}", self.name)).collect()
    }

    /// `filled`: so many cells are, of an accepted call.
    pub fn alter<T: Parts>(&self, part: &str, cells: &mut [T], filled: Option<usize>) {
        let Some(part) = part.strip_prefix(self.name).and_then(|rest| rest.strip_prefix(": ")) else {
            return;
        };
        let at = match (part.split_once(' ').unwrap_or((part, "")), filled) {
            ((WRITTEN, _), None) => Some(0),
            ((BEHIND, _), Some(filled)) => Some(filled),
            ((FIRST, word), Some(filled)) => self.word(word).filter(|_| filled > 0),
            ((LAST, word), Some(filled)) => self.word(word).and_then(|i| (filled + i).checked_sub(self.words.len())),
            _ => None,
        };
        if let Some(cell) = at.and_then(|at| cells.get_mut(at)) {
            cell.alter("");
        }
    }

    fn word(&self, word: &str) -> Option<usize> {
        self.words.iter().position(|w| *w == word)
    }
}
