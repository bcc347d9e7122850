//! The port and the unchanged Rust on the same inputs, in one process.
//!
//!     compare [--seed N] [--seconds N | --count N] [--only KIND] [--bits N] [--fault K | --faults] [--self-test] [--angles]
mod angles;
mod answer;
mod args;
mod bits;
mod case;
mod dropin;
mod exhaustive;
mod fast;
mod faults;
mod generate;
mod kinds;
mod largest;
mod lent;
mod merge;
mod movement;
mod numbers;
mod objects;
mod openings;
mod port;
mod probes;
mod read;
mod reader;
mod refusals;
mod rng;
mod runner;
mod seen;
mod selftest;
mod tables;
mod totals;
mod twelve;
mod verdicts;
mod walk;
mod window;

use args::{Args, Until};
use case::Case;
use kinds::{KINDS, Stock};
use rng::Rng;
use runner::Runner;
use std::process::ExitCode;
use std::time::{Duration, Instant};

fn main() -> ExitCode {
    let args = match Args::read(std::env::args().skip(1)) {
        Ok(args) => args,
        Err(message) => {
            eprintln!("{message}");
            return ExitCode::from(2);
        }
    };
    if args.list_faults {
        for (i, fault) in faults::all().iter().enumerate() {
            println!("{:>4}  {fault}, told by {}", i + 1, fault.kinds.join(" "));
        }
        return ExitCode::SUCCESS;
    }
    std::panic::set_hook(Box::new(|_| {}));
    if args.self_test {
        return if selftest::run(args.seed) {
            ExitCode::SUCCESS
        } else {
            ExitCode::FAILURE
        };
    }
    faults::turn_on(args.fault);
    if args.angles {
        return if angles::print() { ExitCode::SUCCESS } else { ExitCode::FAILURE };
    }
    let mut runner = Runner::new(false);
    let same = compare(&mut runner, &args);
    runner.table();
    if !same {
        runner.report();
        println!("{} cases, then one that differs", runner.total());
        return ExitCode::FAILURE;
    }
    if runner.total() == 0 {
        println!("compare: no case was drawn; nothing was compared");
        return ExitCode::FAILURE;
    }
    println!("{} cases, 0 differ", runner.total());
    ExitCode::SUCCESS
}

/// The fixed kinds, then the random ones in rounds. False: a difference was found.
pub fn compare(runner: &mut Runner, args: &Args) -> bool {
    (!args.wants("schema") || schema(runner))
        && (!args.wants("windows") || exhaustive::windows(runner, args.bits))
        && (!args.wants("strings") || exhaustive::strings(runner, args.string_bytes()))
        && (!args.wants("all-openings") || exhaustive::openings(runner, args.opening_bits()))
        && (!args.wants("all-cursors") || exhaustive::cursors(runner))
        && (!args.wants("angles") || angles::run(runner))
        && (!args.wants("numbers") || numbers::run(runner))
        && (!args.wants("largest") || largest(runner))
        && random(runner, args)
}

fn schema(runner: &mut Runner) -> bool {
    let row = runner.row("schema", "the twelve levels as a table");
    runner.one(row, &Case::Schema)
}

fn largest(runner: &mut Runner) -> bool {
    let row = runner.row("largest", "the largest windows and needs");
    largest::cases().iter().all(|case| runner.one(row, case))
}

fn random(runner: &mut Runner, args: &Args) -> bool {
    let mut stock = Stock::default();
    let mut streams = Vec::new();
    for (number, kind) in KINDS.iter().enumerate().filter(|(_, k)| args.wants(k.name)) {
        let row = runner.row(kind.name, kind.what);
        streams.push((kind, row, Rng::new(args.seed, number as u64 + 1)));
    }
    let (start, before) = (Instant::now(), runner.total());
    loop {
        for (kind, row, rng) in &mut streams {
            for _ in 0..kind.share {
                let over = match args.until {
                    Until::Seconds(n) => start.elapsed() >= Duration::from_secs(n),
                    Until::Count(n) => runner.total() - before >= n,
                };
                if over {
                    return true;
                }
                let case = kind.draw(rng, &mut stock);
                if !runner.one(*row, &case) {
                    return false;
                }
            }
        }
        if streams.is_empty() {
            return true;
        }
    }
}
