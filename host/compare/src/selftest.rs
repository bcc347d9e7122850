//! That the comparison tells: every fault is turned on, and each kind that has to tell of it is run.
use crate::answer::Difference;
use crate::args::{Args, Until, all_kinds};
use crate::compare;
use crate::faults::{self, Fault};
use crate::runner::Runner;
use std::time::Instant;

/// Cases within which a fault has to show.
const CASES: u64 = 50_000;

/// A panic doesn't tell: it would hide that nothing was compared.
fn told(kind: &str, seed: u64) -> bool {
    let args = Args {
        seed,
        until: Until::Count(CASES),
        only: Some(kind.into()),
        bits: 16,
        ..Args::default()
    };
    let mut runner = Runner::new(true);
    let same = compare(&mut runner, &args);
    !same && runner.found.is_some_and(|(_, _, difference)| difference.call != Difference::PANIC)
}

/// The kinds that have to tell of the fault and don't.
fn silent(fault: &'static Fault, seed: u64) -> Vec<&'static str> {
    faults::turn_on(Some(fault));
    let silent = fault.kinds.iter().copied().filter(|kind| !told(kind, seed)).collect();
    faults::turn_on(None);
    silent
}

/// True if every fault is told of where it has to be, and every kind has something to tell.
pub fn run(seed: u64) -> bool {
    let started = Instant::now();
    let (mut runs, mut missing) = (0, 0);
    for of_call in faults::all().chunk_by(|a, b| a.call == b.call) {
        let mut here = 0;
        for fault in of_call {
            let silent = silent(fault, seed);
            here += fault.kinds.len();
            if fault.kinds.is_empty() || !silent.is_empty() {
                println!(
                    "NOT TOLD by {}: {fault}",
                    if silent.is_empty() { "any kind".into() } else { silent.join(", ") }
                );
                missing += silent.len().max(1);
            }
        }
        println!("{:?}: faults {}, runs of kinds {here}", of_call[0].call, of_call.len());
        runs += here;
    }
    for kind in all_kinds().filter(|kind| !faults::all().iter().any(|fault| fault.kinds.contains(kind))) {
        println!("kind {kind}: NO FAULT that it has to tell of");
        missing += 1;
    }
    let (faults, seconds) = (faults::all().len(), started.elapsed().as_secs());
    println!("{faults} faults, {runs} runs of kinds, {missing} not told ({seconds} s)");
    missing == 0
}
