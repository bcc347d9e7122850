//! Runs cases, counts them, tells how far it is, and reports a difference.
use crate::answer::{Difference, Outcome};
use crate::case::{Bench, Case};
use std::time::{Duration, Instant};

#[derive(Default)]
struct Row {
    name: String,
    what: String,
    cases: u64,
    accepted: u64,
    partial: u64,
    refused: u64,
}

pub struct Runner {
    pub bench: Bench,
    rows: Vec<Row>,
    started: Instant,
    told: Instant,
    quiet: bool,
    /// The first difference, with the row where it was found.
    pub found: Option<(String, Case, Difference)>,
    current: usize,
}

/// Between two lines of progress.
const PAUSE: Duration = Duration::from_secs(5);
/// What the search for a smaller case may take.
const SEARCH: Duration = Duration::from_secs(20);

impl Runner {
    pub fn new(quiet: bool) -> Self {
        Self {
            bench: Bench::default(),
            rows: vec![],
            started: Instant::now(),
            told: Instant::now(),
            quiet,
            found: None,
            current: 0,
        }
    }

    /// The number of a new row of the table.
    pub fn row(&mut self, name: &str, what: &str) -> usize {
        self.rows.push(Row {
            name: name.into(),
            what: what.into(),
            ..Row::default()
        });
        self.current = self.rows.len() - 1;
        self.current
    }

    pub fn total(&self) -> u64 {
        self.rows.iter().map(|r| r.cases).sum()
    }

    /// False: the two differ.
    pub fn one(&mut self, row: usize, case: &Case) -> bool {
        self.current = row;
        match case.check(&mut self.bench) {
            Err(d) => self.differs(case.clone(), d),
            Ok((outcome, windows)) => {
                let r = &mut self.rows[row];
                r.cases += windows;
                match outcome {
                    Outcome::Accepted => r.accepted += windows,
                    Outcome::Partial => r.partial += windows,
                    Outcome::Refused => r.refused += windows,
                }
                if r.cases.is_multiple_of(64) || windows > 1 {
                    self.progress();
                }
                true
            }
        }
    }

    /// Cases that were run elsewhere.
    pub fn many(&mut self, row: usize, cases: u64, accepted: u64) {
        let r = &mut self.rows[row];
        r.cases += cases;
        r.accepted += accepted;
        r.partial += cases - accepted;
    }

    /// Always false.
    pub fn differs(&mut self, case: Case, d: Difference) -> bool {
        self.found = Some((self.rows[self.current].name.clone(), case, d));
        false
    }

    fn progress(&mut self) {
        if self.quiet || self.told.elapsed() < PAUSE {
            return;
        }
        self.told = Instant::now();
        let seconds = self.started.elapsed().as_secs();
        eprintln!("compare: {seconds} s, {} cases, at {}", self.total(), self.rows[self.current].name);
    }

    pub fn table(&self) {
        println!(
            "{:<20} {:>11} {:>11} {:>11} {:>11}  what",
            "kind", "cases", "accepted", "partial", "refused"
        );
        for r in self.rows.iter().filter(|r| r.cases > 0) {
            println!(
                "{:<20} {:>11} {:>11} {:>11} {:>11}  {}",
                r.name, r.cases, r.accepted, r.partial, r.refused, r.what
            );
        }
    }

    /// Prints the difference as found, then the smallest.
    pub fn report(&mut self) {
        let Some((kind, case, difference)) = self.found.take() else {
            return;
        };
        println!("DIFFERENCE in kind {kind}: {}", difference.call);
        println!("  case  0 {}", short(&case.line()));
        println!("  rust  {}", short(&difference.rust));
        println!("  port  {}", short(&difference.port));
        let (case, difference) = case.smallest(difference, &mut self.bench, SEARCH);
        println!("smallest found: {}", difference.call);
        println!("  case  0 {}", case.line());
        println!("  rust  {}", difference.rust);
        println!("  port  {}", difference.port);
    }
}

/// A long line's front; the smallest case is printed whole.
fn short(text: &str) -> String {
    match text.char_indices().nth(2000) {
        None => text.into(),
        Some((end, _)) => format!("{} ...", &text[..end]),
    }
}
