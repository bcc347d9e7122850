//! What walks count, and the sum of two counts.

use crate::lent::{self, Refusal, Verdict};
use crate::raw;

/// What walks counted. The first two say how much was done, the last five what is damaged or missing.
#[derive(Debug, Clone, Default, PartialEq, Eq)]
#[must_use]
pub struct ArrayDecodeStats {
    /// Elements, of all levels.
    pub elements_decoded: u64,
    /// Leaves, kept tails among them; in an object walk pairs.
    pub fields_emitted: u64,
    /// More stood there than is allowed: elements, fields, levels.
    pub truncations: u64,
    /// What can't be read; the rest of that array, or that pair, is lost.
    pub errors: u64,
    /// Bits inside payloads that were stepped past.
    pub unconsumed_nested_bits: u64,
    /// Bits behind the root array.
    pub unconsumed_root_bits: u64,
    /// Times that a window ended where a closing zero was due.
    pub implicit_terminations: u64,
}

impl ArrayDecodeStats {
    /// Adds `other`, counter by counter. A counter that would pass 2^64 - 1 stops there, and the errors are put there too. Such a sum is never
    /// clean, and sets that are added in any order or grouping come to one total.
    ///
    /// ```
    /// use vrf_proved::ArrayDecodeStats;
    ///
    /// let mut season = ArrayDecodeStats { elements_decoded: 40, ..Default::default() };
    /// season.merge_from(&ArrayDecodeStats { elements_decoded: 2, implicit_terminations: 1, ..Default::default() });
    /// assert_eq!((season.elements_decoded, season.is_clean()), (42, false));
    ///
    /// let mut full = ArrayDecodeStats { elements_decoded: u64::MAX, ..Default::default() };
    /// full.merge_from(&ArrayDecodeStats { elements_decoded: 1, ..Default::default() });
    /// assert_eq!((full.elements_decoded, full.errors), (u64::MAX, u64::MAX));
    /// ```
    pub fn merge_from(&mut self, other: &Self) {
        if self.try_merge_from(other).is_err() {
            *self = self.stopped(other);
        }
    }

    /// The same, but a sum that would pass 2^64 - 1 is refused with 4 and `self`, which are the left counters that 4 names, stays as it is.
    /// Sets that are added one after another to zero give the same total in every order, or in every order one of them is refused; which one
    /// it is depends on the order, so what the others add up to is no total.
    ///
    /// ```
    /// use vrf_proved::ArrayDecodeStats;
    ///
    /// let mut full = ArrayDecodeStats { errors: u64::MAX, ..Default::default() };
    /// let refusal = full.try_merge_from(&ArrayDecodeStats { errors: 1, ..Default::default() }).unwrap_err();
    /// assert_eq!((refusal.number, full.errors), (4, u64::MAX));
    /// assert!(full.try_merge_from(&ArrayDecodeStats { fields_emitted: 1, ..Default::default() }).is_ok());
    /// ```
    pub fn try_merge_from(&mut self, other: &Self) -> Result<(), Refusal> {
        *self = lent::merge(self, other)?;
        Ok(())
    }

    /// Whether nothing is damaged or missing: the last five counters are 0. That is so too where nothing was sent: the counters of a window
    /// of no bits are all 0. The `try_` forms give a window's own verdict, which is [`Verdict::Empty`] then.
    ///
    /// ```
    /// use vrf_proved::ArrayDecodeStats;
    ///
    /// assert!(ArrayDecodeStats { elements_decoded: 3, fields_emitted: 9, ..Default::default() }.is_clean());
    /// assert!(!ArrayDecodeStats { unconsumed_root_bits: 8, ..Default::default() }.is_clean());
    /// ```
    #[must_use]
    pub fn is_clean(&self) -> bool {
        lent::verdict(self) == Verdict::Clean
    }

    /// One error more, as for a call that was refused.
    pub(crate) fn count_error(&mut self) {
        self.errors = self.errors.saturating_add(1);
    }

    /// Counters that stop at 2^64 - 1, where one would pass it.
    fn stopped(&self, other: &Self) -> Self {
        Self {
            elements_decoded: self.elements_decoded.saturating_add(other.elements_decoded),
            fields_emitted: self.fields_emitted.saturating_add(other.fields_emitted),
            truncations: self.truncations.saturating_add(other.truncations),
            errors: u64::MAX,
            unconsumed_nested_bits: self.unconsumed_nested_bits.saturating_add(other.unconsumed_nested_bits),
            unconsumed_root_bits: self.unconsumed_root_bits.saturating_add(other.unconsumed_root_bits),
            implicit_terminations: self.implicit_terminations.saturating_add(other.implicit_terminations),
        }
    }
}

impl From<&ArrayDecodeStats> for raw::VrfCounters {
    fn from(s: &ArrayDecodeStats) -> Self {
        Self {
            elements: s.elements_decoded,
            fields: s.fields_emitted,
            truncations: s.truncations,
            errors: s.errors,
            nested_bits: s.unconsumed_nested_bits,
            root_bits: s.unconsumed_root_bits,
            implicit_terminations: s.implicit_terminations,
        }
    }
}

impl From<raw::VrfCounters> for ArrayDecodeStats {
    fn from(c: raw::VrfCounters) -> Self {
        Self {
            elements_decoded: c.elements,
            fields_emitted: c.fields,
            truncations: c.truncations,
            errors: c.errors,
            unconsumed_nested_bits: c.nested_bits,
            unconsumed_root_bits: c.root_bits,
            implicit_terminations: c.implicit_terminations,
        }
    }
}
