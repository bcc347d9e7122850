//! The verdict that the rules give a window: the Rust's `is_clean`, but for windows of no bits.
use vrf_proved::lent::Verdict;

/// A set of counters, by the Rust's `is_clean`.
pub fn of_set(clean: bool) -> Verdict {
    if clean { Verdict::Clean } else { Verdict::Partial }
}

/// A struct or exact walk: of no bits nothing was sent.
pub fn of_leaves(bits: u32, clean: bool) -> Verdict {
    if bits == 0 { Verdict::Empty } else { of_set(clean) }
}

/// An object walk: of no bits it is never clean.
pub fn of_pairs(bits: u32, clean: bool) -> Verdict {
    of_set(clean && bits > 0)
}

/// In the oracle's form.
pub fn word(v: Verdict) -> &'static str {
    match v {
        Verdict::Clean => "clean",
        Verdict::Partial => "partial",
        Verdict::Empty => "empty",
    }
}
