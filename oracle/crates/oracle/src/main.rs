//! The unchanged Rust behind a command line; ../../../README.md has the forms of cases and answers.
use oracle::{answers, demand3, selftest, tables, text};
use std::fs::File;
use std::io::{self, BufRead, BufReader, BufWriter, Write};
use std::process::ExitCode;

const USAGE: &str = "usage:
  oracle answer FILE [--trace]            one answer line for each case line; - reads standard input
  oracle schema                           the twelve levels as rows and a pool of names
  oracle d3 BITS KIND [SCHEMA]            demand 3, every window of 0..=BITS bits against all its openings
  oracle d3alpha BYTES KIND SCHEMA HEX    demand 3, every string over the bytes of HEX, cut at every bit
  oracle d3file FILE                      demand 3, every case of FILE against its openings (all, or sampled when long)
  oracle selftest                         cyclic statics against the unrolled tables";

fn main() -> ExitCode {
    let args: Vec<String> = std::env::args().skip(1).collect();
    let args: Vec<&str> = args.iter().map(String::as_str).collect();
    match run(&args) {
        Ok(()) => ExitCode::SUCCESS,
        Err(message) => {
            eprintln!("{message}");
            ExitCode::from(2)
        }
    }
}

fn run(args: &[&str]) -> Result<(), String> {
    match args {
        ["answer", file] => answer(file, false),
        ["answer", file, "--trace"] => answer(file, true),
        ["schema"] => {
            tables::dump_schema();
            Ok(())
        }
        ["d3", bits, kind] => d3(bits, kind, "-"),
        ["d3", bits, kind, schema] => d3(bits, kind, schema),
        ["d3alpha", bytes, kind, schema, hex] => {
            demand3::alphabet(number(bytes)?, letter(kind)?, schema, &text::unhex(hex));
            Ok(())
        }
        ["d3file", file] => {
            demand3::file(file);
            Ok(())
        }
        ["selftest"] => {
            selftest::selftest();
            Ok(())
        }
        _ => Err(USAGE.into()),
    }
}

fn number<T: std::str::FromStr>(word: &str) -> Result<T, String> {
    word.parse().map_err(|_| format!("oracle: {word} is no number"))
}

fn letter(word: &str) -> Result<char, String> {
    word.chars().next().ok_or_else(|| USAGE.into())
}

fn d3(bits: &str, kind: &str, schema: &str) -> Result<(), String> {
    demand3::exhaustive(number(bits)?, letter(kind)?, schema);
    Ok(())
}

fn answer(file: &str, trace: bool) -> Result<(), String> {
    let said = |e: io::Error| format!("oracle: {file}: {e}");
    std::panic::set_hook(Box::new(|_| {}));
    let input: Box<dyn BufRead> = match file {
        "-" => Box::new(BufReader::new(io::stdin())),
        _ => Box::new(BufReader::new(File::open(file).map_err(said)?)),
    };
    let mut out = BufWriter::new(io::stdout().lock());
    for line in input.lines() {
        let line = line.map_err(said)?;
        if line.is_empty() || line.starts_with('#') {
            continue;
        }
        let id = line.split(' ').next().unwrap_or_default();
        let answer = std::panic::catch_unwind(|| answers::answer(&line, trace)).unwrap_or_else(|_| "PANIC".into());
        writeln!(out, "{id} {answer}").map_err(said)?;
    }
    out.flush().map_err(said)
}
