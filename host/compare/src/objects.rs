//! Object walks.
use crate::answer::{Difference, Outcome, told, walked};
use crate::lent::Room;
use crate::port::Desk;
use crate::seen;
use crate::verdicts;
use crate::walk::port_counters;
use crate::window::Window;
use decode::array::{ArrayDecodeStats, decode_object_ref_array_with_stats};
use oracle::answers::counters;
use vrf_proved::lent::{Objects, PAIR_WORDS, Refusal, Verdict};

#[derive(Clone)]
pub struct ObjectCase(pub Window);

impl ObjectCase {
    pub fn line(&self) -> String {
        format!("O {}", self.0.line())
    }

    pub fn check(&self, desk: &mut Desk) -> Result<Outcome, Difference> {
        let mut stats = ArrayDecodeStats::default();
        let given = decode_object_ref_array_with_stats(&self.0.bytes, self.0.bits, &mut stats);
        let verdict = verdicts::of_pairs(self.0.bits, stats.is_clean());
        let padded = seen::of_objects(&self.0, &stats);
        let pairs: Vec<u32> = given.iter().flat_map(|(index, object)| [*index, *object]).collect();
        for room in Room::all([pairs.len()]) {
            let [lent] = room.of([pairs.len()]);
            desk.pairs.lend(lent, room.words());
            let answer = desk.object_array(&self.0.bytes, self.0.bits);
            if !agrees(&answer, desk, &stats, (verdict, padded), &pairs, room) {
                let rust = text(counters(&stats), verdict, &pairs, padded);
                let port = match &answer {
                    Err(r) => format!(
                        "{}{}",
                        told(r),
                        if desk.pairs.holds(&[]) { "" } else { ", and the buffer is written" }
                    ),
                    Ok(o) => {
                        let filled = desk.pairs.front(PAIR_WORDS * o.pairs);
                        let behind = if desk.pairs.holds(filled) {
                            ""
                        } else {
                            ", and a cell behind the filled ones is written"
                        };
                        text(port_counters(&o.counters), o.verdict, filled, o.padded) + behind
                    }
                };
                return Err(Difference::new(room.name(["pairs"]), rust, port));
            }
        }
        crate::dropin::objects(&self.0, &given, &stats, verdict, padded)?;
        Ok(walked(verdict))
    }
}

/// `said`: the verdict, and the padded numbers.
fn agrees(
    answer: &Result<Objects, Refusal>,
    desk: &Desk,
    stats: &ArrayDecodeStats,
    said: (Verdict, u32),
    pairs: &[u32],
    room: Room,
) -> bool {
    let need = pairs.len() / PAIR_WORDS;
    match (answer, room) {
        (Err(r), Room::Short(_)) => r.number == 3 && r.values == [need as u64, 0, 0] && desk.pairs.holds(&[]),
        (Ok(o), Room::Full | Room::Longer) => {
            o.pairs == need && port_counters(&o.counters) == counters(stats) && (o.verdict, o.padded) == said && desk.pairs.holds(pairs)
        }
        _ => false,
    }
}

/// In the oracle's form, with the first number of its trace.
fn text(counters: [u64; 7], verdict: Verdict, pairs: &[u32], padded: u32) -> String {
    let counters = counters.map(|c| c.to_string()).join(" ");
    let verdict = verdicts::word(verdict);
    let pairs: String = pairs.chunks(PAIR_WORDS).map(|p| format!(" {}:{}", p[0], p[1])).collect();
    format!("{counters} {verdict} need{pairs} trace {padded}")
}
