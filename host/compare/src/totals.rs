//! Totals of many sets of counters: the same, or refused, in every order and however the merges are bracketed. What is expected are the sums in 128 bits.
use crate::answer::{Difference, Outcome, walked};
use crate::faults::{self, Call};
use crate::merge::{ERRORS, of_port, of_rust};
use crate::port;
use crate::rng::Rng;
use crate::verdicts;
use crate::walk::port_counters;
use decode::array::ArrayDecodeStats as Original;
use oracle::answers::counters;
use vrf_proved::ArrayDecodeStats;

type Set = [u64; 7];

#[derive(Clone, Debug)]
pub struct TotalsCase {
    pub sets: Vec<Set>,
    /// Another order of them, by number.
    pub order: Vec<usize>,
    /// Seed of the brackets around that order.
    pub brackets: u64,
}

/// A way to a total.
enum Plan {
    Nothing,
    One(Set),
    Both(Box<Plan>, Box<Plan>),
}

impl Plan {
    fn draw(rng: &mut Rng, sets: &[Set]) -> Self {
        let both = |rng: &mut Rng, at| {
            let (left, right) = sets.split_at(at);
            Self::Both(Self::draw(rng, left).into(), Self::draw(rng, right).into())
        };
        match *sets {
            [] => Self::Nothing,
            [one] if rng.percent(80) => Self::One(one),
            // zero on one side now and then
            _ if sets.len() == 1 || rng.percent(10) => {
                let at = rng.pick(&[0, sets.len()]);
                both(rng, at)
            }
            _ => {
                let at = rng.between(1, sets.len() - 1);
                both(rng, at)
            }
        }
    }

    /// One after another into zero.
    fn in_turn(sets: &[Set]) -> Self {
        let onto = |total: Self, set: &Set| Self::Both(total.into(), Self::One(*set).into());
        sets.iter().fold(Self::Nothing, onto)
    }

    /// What it comes to by one of the merges; none if one of them is refused.
    fn run(&self, merge: Merge) -> Option<ArrayDecodeStats> {
        match self {
            Self::Nothing => Some(ArrayDecodeStats::default()),
            Self::One(set) => Some(of_port(*set)),
            Self::Both(left, right) => {
                let (left, right) = (left.run(merge), right.run(merge));
                merge(left?, right?)
            }
        }
    }
}

type Merge = fn(ArrayDecodeStats, ArrayDecodeStats) -> Option<ArrayDecodeStats>;

/// By `vrf_merge`.
fn lent(left: ArrayDecodeStats, right: ArrayDecodeStats) -> Option<ArrayDecodeStats> {
    port::merge(&left, &right).ok()
}

/// By the form of the original's name that says a refusal.
fn tried(mut left: ArrayDecodeStats, right: ArrayDecodeStats) -> Option<ArrayDecodeStats> {
    let mut said = left.try_merge_from(&right);
    faults::answer(Call::TryMerge, &mut said);
    faults::answer(Call::TryMergeSum, &mut left);
    said.ok().map(|()| left)
}

/// By the original's name, which can't say one.
fn dropin(left: ArrayDecodeStats, right: ArrayDecodeStats) -> Option<ArrayDecodeStats> {
    let mut sum = left.clone();
    sum.merge_from(&right);
    faults::dropin_merge(&mut sum, &left, &right);
    Some(sum)
}

fn rust(sets: &[Set]) -> Set {
    let mut total = Original::default();
    for set in sets {
        total.merge_from(&of_rust(*set));
    }
    counters(&total)
}

impl TotalsCase {
    pub fn line(&self) -> String {
        format!("totals {:?}, then by {:?}, brackets {}", self.sets, self.order, self.brackets)
    }

    pub fn check(&self) -> Result<Outcome, Difference> {
        let other: Vec<Set> = self.order.iter().map(|i| self.sets[*i]).collect();
        let sums: [u128; 7] = std::array::from_fn(|i| self.sets.iter().map(|s| u128::from(s[i])).sum());
        let saturated = sums.map(|n| u64::try_from(n).unwrap_or(u64::MAX));
        let fits = sums.iter().all(|n| *n <= u128::from(u64::MAX));
        let expected = fits.then_some(saturated);
        let mut stopped = saturated;
        if !fits {
            stopped[ERRORS] = u64::MAX;
        }
        let plans = [
            ("one after another", Plan::in_turn(&self.sets)),
            ("in another order", Plan::in_turn(&other)),
            ("in brackets", Plan::draw(&mut Rng::new(self.brackets, 0), &other)),
        ];
        let merges: [(&str, Merge, Option<Set>); 3] = [
            ("merge", lent, expected),
            ("try_merge_from", tried, expected),
            ("the drop-in's merge_from", dropin, Some(stopped)),
        ];
        for (how, plan) in &plans {
            for (name, merge, expected) in merges {
                let given = plan.run(merge).map(|t| port_counters(&t));
                if given != expected {
                    return Err(Difference::new(
                        format!("{name}, {how}"),
                        format!("{expected:?}"),
                        format!("{given:?}"),
                    ));
                }
            }
        }
        // where the Rust would pass 2^64 - 1 it panics or wraps
        if fits && rust(&other) != saturated {
            let (rust, sums) = (format!("{:?}", rust(&other)), format!("{saturated:?}"));
            return Err(Difference::new("the Rust's own sums", rust, sums));
        }
        expected.map_or(Ok(Outcome::Refused), |total| self.judged(total))
    }

    /// A total is clean exactly if every set of it is.
    fn judged(&self, total: Set) -> Result<Outcome, Difference> {
        let clean = self.sets.iter().all(|s| of_rust(*s).is_clean());
        let (rules, port) = (verdicts::of_set(clean), port::verdict(&of_port(total)));
        if port == rules {
            return Ok(walked(rules));
        }
        Err(Difference::new("verdict of the total", format!("{rules:?}"), format!("{port:?}")))
    }

    /// The same without one set.
    pub fn smaller(&self) -> impl Iterator<Item = Self> + '_ {
        (0..self.sets.len()).map(|gone| {
            let mut sets = self.sets.clone();
            sets.remove(gone);
            let kept = self.order.iter().filter(|i| **i != gone);
            Self {
                sets,
                order: kept.map(|i| if *i > gone { i - 1 } else { *i }).collect(),
                brackets: self.brackets,
            }
        })
    }
}
