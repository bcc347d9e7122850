//! A case of any kind, and the search for a smaller one that still differs.
use crate::angles::StepsCase;
use crate::answer::{Difference, Outcome};
use crate::fast::FastCase;
use crate::merge::MergeCase;
use crate::movement::MovementCase;
use crate::objects::ObjectCase;
use crate::openings::OpeningCase;
use crate::port::Desk;
use crate::read::ReadCase;
use crate::reader::ReaderCase;
use crate::refusals::RefusalCase;
use crate::totals::TotalsCase;
use crate::twelve;
use crate::walk::{Flat, WalkCase};
use std::panic::{AssertUnwindSafe, catch_unwind};
use std::time::{Duration, Instant};

#[derive(Clone)]
pub enum Case {
    Walk(WalkCase),
    Objects(ObjectCase),
    Fast(FastCase),
    Movement(MovementCase),
    Read(ReadCase),
    Reader(ReaderCase),
    Refusal(RefusalCase),
    Merge(MergeCase),
    Totals(TotalsCase),
    Opening(OpeningCase),
    Steps(StepsCase),
    /// The twelve levels' table: one case, without a window.
    Schema,
}

/// What is kept from case to case.
#[derive(Default)]
pub struct Bench {
    pub desk: Desk,
    pub flat: Flat,
}

impl Case {
    /// The outcome, and how many windows it stands for.
    fn run(&self, bench: &mut Bench) -> Result<(Outcome, u64), Difference> {
        let desk = &mut bench.desk;
        let one = |outcome| (outcome, 1);
        match self {
            Self::Walk(c) => c.check(desk, &mut bench.flat).map(one),
            Self::Objects(c) => c.check(desk).map(one),
            Self::Fast(c) => c.check(desk).map(one),
            Self::Movement(c) => c.check().map(one),
            Self::Read(c) => c.check(desk).map(one),
            Self::Reader(c) => c.check().map(one),
            Self::Refusal(c) => c.check(desk).map(one),
            Self::Merge(c) => c.check().map(one),
            Self::Totals(c) => c.check().map(one),
            Self::Opening(c) => c.check(desk),
            Self::Steps(c) => c.check().map(one),
            Self::Schema => twelve::check().map(|calls| (Outcome::Accepted, calls)),
        }
    }

    /// A panic is a difference too: the port has none.
    pub fn check(&self, bench: &mut Bench) -> Result<(Outcome, u64), Difference> {
        catch_unwind(AssertUnwindSafe(|| self.run(bench))).unwrap_or_else(|panic| {
            *bench = Bench::default();
            let text = panic
                .downcast_ref::<String>()
                .map(String::as_str)
                .or(panic.downcast_ref::<&str>().copied());
            Err(Difference::new(Difference::PANIC, text.unwrap_or("PANIC"), "-"))
        })
    }

    /// In the oracle's form, without an id, where the oracle has the kind.
    pub fn line(&self) -> String {
        match self {
            Self::Walk(c) => c.line(),
            Self::Objects(c) => c.line(),
            Self::Fast(c) => c.line(),
            Self::Movement(c) => c.line(),
            Self::Read(c) => c.line(),
            Self::Reader(c) => c.line(),
            Self::Refusal(c) => c.line(),
            Self::Merge(c) => c.line(),
            Self::Totals(c) => c.line(),
            Self::Opening(c) => c.line(),
            Self::Steps(c) => c.line(),
            Self::Schema => "schema".into(),
        }
    }

    fn smaller(&self) -> Box<dyn Iterator<Item = Case> + '_> {
        match self {
            Self::Walk(c) => Box::new(c.smaller().map(Self::Walk)),
            Self::Objects(c) => Box::new(c.0.smaller().map(|w| Self::Objects(ObjectCase(w)))),
            Self::Fast(c) => Box::new(c.smaller().map(Self::Fast)),
            Self::Movement(c) => Box::new(c.smaller().map(Self::Movement)),
            Self::Read(c) => Box::new(c.smaller().map(Self::Read)),
            Self::Reader(c) => Box::new(c.smaller().map(Self::Reader)),
            Self::Opening(c) => Box::new(c.smaller().map(Self::Opening)),
            Self::Totals(c) => Box::new(c.smaller().map(Self::Totals)),
            Self::Refusal(_) | Self::Merge(_) | Self::Steps(_) | Self::Schema => Box::new(std::iter::empty()),
        }
    }

    /// The smallest that is found within so much time, with its difference.
    pub fn smallest(self, difference: Difference, bench: &mut Bench, time: Duration) -> (Case, Difference) {
        let (start, mut found) = (Instant::now(), (self, difference));
        loop {
            let mut next = None;
            for candidate in found.0.smaller() {
                if start.elapsed() > time {
                    break;
                }
                if let Err(d) = candidate.check(bench) {
                    next = Some((candidate, d));
                    break;
                }
            }
            match next {
                Some(smaller) => found = smaller,
                None => return found,
            }
        }
    }
}
