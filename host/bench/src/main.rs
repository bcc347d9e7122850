//! The unchanged Rust beside the proved port: the same inputs, one process.
//!
//! `vrf-bench [--rounds N] [WORD]` prints the table, of all rows or of those whose name holds WORD. A ratio says how many times as fast
//! as the Rust the port is. `vrf-bench --rows` lists the rows; `vrf-bench --run ROW SIDE TURNS` does one side's work of one row and
//! prints how many units that were, for a tool that counts instructions.

mod bits;
mod clock;
mod copies;
mod fast;
mod measure;
mod moves;
mod objects;
mod reads;
mod rotations;
mod row;
mod walks;
mod windows;

use row::Row;
use std::process::ExitCode;

const USAGE: &str = "usage: vrf-bench [--rounds N] [WORD] | --rows | --run ROW rust|port TURNS";

/// Rounds of a row, unless told otherwise.
const ROUNDS: u32 = 15;

fn rows() -> Vec<Row> {
    let groups = [
        reads::rows(),
        copies::rows(),
        walks::rows(),
        objects::rows(),
        fast::rows(),
        moves::rows(),
        rotations::rows(),
    ];
    groups.into_iter().flatten().collect()
}

fn table(rounds: u32, word: &str) {
    let head = ["row", "one", "Rust ns", "port ns", "best", "median"];
    println!(
        "{:<58} {:<7} {:>11} {:>11} {:>6} {:>6}",
        head[0], head[1], head[2], head[3], head[4], head[5]
    );
    for row in rows().iter().filter(|row| row.name.contains(word)) {
        let got = measure::measure(&mut (row.make)(), rounds);
        let best = got.rust.best / got.port.best;
        let median = got.rust.median / got.port.median;
        let (rust, port) = (got.rust.best, got.port.best);
        println!(
            "{:<58} {:<7} {rust:>11.2} {port:>11.2} {best:>6.2} {median:>6.2}",
            row.name, row.unit
        );
    }
}

fn list() {
    for (number, row) in rows().iter().enumerate() {
        println!("{number}\t{}\t{}", row.unit, row.name);
    }
}

fn run(number: usize, side: &str, turns: u64) -> bool {
    let rows = rows();
    let Some(row) = rows.get(number) else {
        return false;
    };
    let mut sides = (row.make)();
    match side {
        "rust" => (sides.rust)(turns),
        "port" => (sides.port)(turns),
        _ => return false,
    }
    println!("{}", turns * sides.units);
    true
}

fn told(words: &[&str]) -> Option<()> {
    match words {
        [] => table(ROUNDS, ""),
        ["--rows"] => list(),
        ["--run", number, side, turns] => return run(number.parse().ok()?, side, turns.parse().ok()?).then_some(()),
        ["--rounds", rounds] => table(rounds.parse().ok()?, ""),
        ["--rounds", rounds, word] => table(rounds.parse().ok()?, word),
        [word] if !word.starts_with('-') => table(ROUNDS, word),
        _ => return None,
    }
    Some(())
}

fn main() -> ExitCode {
    let words: Vec<String> = std::env::args().skip(1).collect();
    let words: Vec<&str> = words.iter().map(String::as_str).collect();
    match told(&words) {
        Some(()) => ExitCode::SUCCESS,
        None => {
            eprintln!("{USAGE}");
            ExitCode::from(2)
        }
    }
}
