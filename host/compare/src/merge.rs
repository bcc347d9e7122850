//! Sums of counters, and verdicts.
use crate::answer::{Difference, Outcome, refused};
use crate::faults::{self, Call};
use crate::port;
use crate::verdicts;
use crate::walk::port_counters;
use decode::array::ArrayDecodeStats;
use oracle::answers::counters;
use vrf_proved::lent::RefusedMerge;

#[derive(Clone, Debug)]
pub struct MergeCase {
    pub left: [u64; 7],
    pub right: [u64; 7],
}

/// Which of the seven counts errors.
pub const ERRORS: usize = 3;

pub fn of_rust(c: [u64; 7]) -> ArrayDecodeStats {
    ArrayDecodeStats {
        elements_decoded: c[0],
        fields_emitted: c[1],
        truncations: c[2],
        errors: c[3],
        unconsumed_nested_bits: c[4],
        unconsumed_root_bits: c[5],
        implicit_terminations: c[6],
    }
}

pub fn of_port(c: [u64; 7]) -> vrf_proved::ArrayDecodeStats {
    vrf_proved::ArrayDecodeStats {
        elements_decoded: c[0],
        fields_emitted: c[1],
        truncations: c[2],
        errors: c[3],
        unconsumed_nested_bits: c[4],
        unconsumed_root_bits: c[5],
        implicit_terminations: c[6],
    }
}

impl MergeCase {
    pub fn line(&self) -> String {
        format!("merge {:?} {:?}", self.left, self.right)
    }

    pub fn check(&self) -> Result<Outcome, Difference> {
        let fits = self.left.iter().zip(self.right).all(|(a, b)| a.checked_add(b).is_some());
        // Where a sum doesn't fit the Rust panics or wraps: the rules say refusal 4.
        let expected = if fits {
            let mut sum = of_rust(self.left);
            sum.merge_from(&of_rust(self.right));
            Ok(counters(&sum))
        } else {
            Err(RefusedMerge {
                number: 4,
                left: of_port(self.left),
            })
        };
        let answer = port::merge(&of_port(self.left), &of_port(self.right)).map(|s| port_counters(&s));
        if answer != expected {
            return Err(Difference::new("merge", format!("{expected:?}"), format!("{answer:?}")));
        }
        for (set, name) in [(Some(self.left), "verdict of the left"), (expected.ok(), "verdict of the sum")] {
            let Some(set) = set else { continue };
            let (rust, port) = (verdicts::of_set(of_rust(set).is_clean()), port::verdict(&of_port(set)));
            if port != rust {
                return Err(Difference::new(name, format!("{rust:?}"), format!("{port:?}")));
            }
        }
        self.dropin(fits)?;
        Ok(if fits { Outcome::Accepted } else { Outcome::Refused })
    }

    /// The drop-in's sum: the Rust's where it fits; else every counter stays at its largest at most, and the errors stand there.
    fn dropin(&self, fits: bool) -> Result<(), Difference> {
        let mut sum = of_port(self.left);
        sum.merge_from(&of_port(self.right));
        faults::dropin_merge(&mut sum, &of_port(self.left), &of_port(self.right));
        let mut clean = sum.is_clean();
        faults::answer(Call::DropInClean, &mut clean);
        let mut expected: [u64; 7] = std::array::from_fn(|i| self.left[i].saturating_add(self.right[i]));
        if !fits {
            expected[ERRORS] = u64::MAX;
        }
        if port_counters(&sum) != expected || clean != expected[2..].iter().all(|c| *c == 0) {
            let (rust, port) = (format!("{expected:?}"), format!("{sum:?}"));
            return Err(Difference::new("the drop-in's merge_from", rust, port));
        }
        self.tried(fits, expected)
    }

    /// The form that says a refusal: where it does, the left counters are as they were.
    fn tried(&self, fits: bool, sum: [u64; 7]) -> Result<(), Difference> {
        let mut left = of_port(self.left);
        let mut said = left.try_merge_from(&of_port(self.right));
        faults::answer(Call::TryMerge, &mut said);
        faults::answer(Call::TryMergeSum, &mut left);
        let expected = if fits {
            (Ok(()), sum)
        } else {
            (Err(refused(4, [0; 3])), self.left)
        };
        let given = (said, port_counters(&left));
        if given == expected {
            return Ok(());
        }
        let (rust, port) = (format!("{expected:?}"), format!("{given:?}"));
        Err(Difference::new("the drop-in's try_merge_from", rust, port))
    }
}
