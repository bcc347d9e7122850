//! A row of the table: the same work for both sides.

use std::fmt::Debug;

/// Does the work so many times.
pub type Side = Box<dyn FnMut(u64)>;

/// Both sides of a row, made and found to agree.
pub struct Sides {
    /// Units of work that one turn of a side does.
    pub units: u64,
    pub rust: Side,
    pub port: Side,
}

/// What is measured. The inputs are made when the row's turn comes.
pub struct Row {
    pub name: String,
    /// What the figures are for one of.
    pub unit: &'static str,
    pub make: Box<dyn Fn() -> Sides>,
}

impl Row {
    pub fn new(name: impl Into<String>, unit: &'static str, make: impl Fn() -> Sides + 'static) -> Self {
        Self {
            name: name.into(),
            unit,
            make: Box::new(make),
        }
    }
}

/// How the port is called.
#[derive(Clone, Copy, PartialEq)]
pub enum Way {
    /// Into buffers that are lent once, as large as needed, and not cleared.
    Lent,
    /// The same, all of them cleared before each call.
    Cleared,
    /// Lent nothing: the first pass alone, which ends in refusal 3.
    Nothing,
    /// By the original's names: the crate's own buffers are lent, and what the caller gets is allocated as the original does it.
    DropIn,
}

impl Way {
    /// What a row's name says of it.
    pub fn told(self) -> &'static str {
        match self {
            Way::Lent => "",
            Way::Cleared => "; cleared",
            Way::Nothing => "; first pass alone",
            Way::DropIn => "; drop-in",
        }
    }
}

/// A side whose turn is one call of `work`. The loop is compiled around the work, so only a whole batch goes through a pointer.
pub fn side(mut work: impl FnMut() + 'static) -> Side {
    Box::new(move |turns| {
        for _ in 0..turns {
            work();
        }
    })
}

/// Whether two values show the same: the original's types and the drop-in's have the same names and are different types.
pub fn alike(ours: &impl Debug, theirs: &impl Debug) -> bool {
    format!("{ours:?}") == format!("{theirs:?}")
}
