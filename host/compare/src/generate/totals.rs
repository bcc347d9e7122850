//! Lists of sets of counters whose totals lie about 2^64, and orders of them.
use crate::rng::Rng;
use crate::totals::TotalsCase;

/// One counter's numbers in so many sets.
fn column(rng: &mut Rng, n: usize) -> Vec<u64> {
    match rng.below(20) {
        0..9 => vec![0; n],
        9..15 => (0..n).map(|_| if rng.percent(50) { 0 } else { rng.bits(30) }).collect(),
        15..18 => about_the_limit(rng, n),
        18 => (0..n).map(|_| if rng.percent(70) { 0 } else { u64::MAX - rng.bits(2) }).collect(),
        _ => (0..n).map(|_| rng.next() >> rng.below(64)).collect(),
    }
}

/// Parts of a total that is 2^64 - 1, one more, or a little off.
fn about_the_limit(rng: &mut Rng, n: usize) -> Vec<u64> {
    let limit = u128::from(u64::MAX);
    let total = match rng.below(4) {
        0 => limit,
        1 => limit + 1,
        2 => limit - u128::from(rng.bits(3)),
        _ => limit + u128::from(rng.bits(3)),
    };
    let mut cuts: Vec<u128> = (1..n).map(|_| u128::from(rng.next()).min(total)).collect();
    cuts.sort_unstable();
    cuts.push(total);
    let parts = cuts.iter().scan(0, |from, to| {
        let part = to - *from;
        *from = *to;
        Some(u64::try_from(part).unwrap_or(u64::MAX))
    });
    parts.take(n).collect()
}

pub fn case(rng: &mut Rng) -> TotalsCase {
    let n = rng.below(9);
    // so that a total may be clean
    let faultless = rng.percent(30);
    let columns: [Vec<u64>; 7] = std::array::from_fn(|i| if faultless && i > 1 { vec![0; n] } else { column(rng, n) });
    let mut order: Vec<usize> = (0..n).collect();
    for i in (1..n).rev() {
        order.swap(i, rng.below(i + 1));
    }
    TotalsCase {
        sets: (0..n).map(|i| std::array::from_fn(|c| columns[c][i])).collect(),
        order,
        brackets: rng.next(),
    }
}
