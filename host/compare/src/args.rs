//! The command line.
use crate::faults::{self, Fault};
use crate::kinds::KINDS;

const FIXED: [&str; 8] = [
    "schema",
    "windows",
    "strings",
    "all-openings",
    "all-cursors",
    "angles",
    "numbers",
    "largest",
];

#[derive(Clone, Copy)]
pub enum Until {
    Seconds(u64),
    Count(u64),
}

pub struct Args {
    pub seed: u64,
    /// Of the random kinds; the fixed ones run to their end.
    pub until: Until,
    pub only: Option<String>,
    /// All windows of up to so many bits.
    pub bits: u32,
    pub fault: Option<&'static Fault>,
    pub list_faults: bool,
    pub self_test: bool,
    /// The byte angles are printed, and nothing else is done.
    pub angles: bool,
}

impl Default for Args {
    fn default() -> Self {
        Self {
            seed: 1,
            until: Until::Seconds(60),
            only: None,
            bits: 20,
            fault: None,
            list_faults: false,
            self_test: false,
            angles: false,
        }
    }
}

pub fn all_kinds() -> impl Iterator<Item = &'static str> {
    FIXED.into_iter().chain(KINDS.iter().map(|k| k.name))
}

fn usage() -> String {
    let kinds: Vec<&str> = all_kinds().collect();
    let mut text = String::from(
        "usage: compare [--seed N] [--seconds N | --count N] [--only KIND] [--bits N] [--fault K | --faults] [--self-test] [--angles]\n\n",
    );
    text += "  --seed N       another seed draws other cases (1)\n";
    text += "  --seconds N    how long random cases are drawn, after the fixed kinds (60)\n";
    text += "  --count N      how many random cases are drawn\n";
    text += "  --bits N       all windows of up to so many bits, at most 24 (20); strings and all-openings follow it\n";
    text += "  --self-test    every fault, in every kind that has to tell of it\n";
    text += "  --angles       prints all byte angles of both sides, by their bits, and what differs\n";
    text += &format!("  --only KIND    one of: {}\n", kinds.join(" "));
    text += "  --fault K      the port's answers are made wrong, to see the report; --faults lists what K stands for\n";
    text.trim_end().into()
}

fn numbered(number: u64) -> Option<&'static Fault> {
    faults::all().get(usize::try_from(number).ok()?.checked_sub(1)?)
}

impl Args {
    pub fn read(mut words: impl Iterator<Item = String>) -> Result<Self, String> {
        let mut args = Self::default();
        while let Some(word) = words.next() {
            match word.as_str() {
                "--self-test" => {
                    args.self_test = true;
                    continue;
                }
                "--faults" => {
                    args.list_faults = true;
                    continue;
                }
                "--angles" => {
                    args.angles = true;
                    continue;
                }
                _ => {}
            }
            let value = words.next().ok_or_else(usage)?;
            let number = || {
                value
                    .parse::<u64>()
                    .map_err(|_| format!("compare: {word} wants a number, not {value}"))
            };
            match word.as_str() {
                "--seed" => args.seed = number()?,
                "--seconds" => args.until = Until::Seconds(number()?),
                "--count" => args.until = Until::Count(number()?),
                "--bits" if number()? <= 24 => args.bits = number()? as u32,
                "--fault" => args.fault = Some(numbered(number()?).ok_or_else(usage)?),
                "--only" if all_kinds().any(|kind| kind == value) => args.only = Some(value),
                _ => return Err(usage()),
            }
        }
        Ok(args)
    }

    pub fn wants(&self, kind: &str) -> bool {
        self.only.as_ref().is_none_or(|only| only == kind)
    }

    /// 6 bytes beside 20 bits.
    pub fn string_bytes(&self) -> usize {
        (self.bits as usize * 3 / 10).clamp(1, 7)
    }

    pub fn opening_bits(&self) -> u32 {
        self.bits.min(18)
    }
}
