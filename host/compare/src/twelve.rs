//! The twelve levels: the port's table beside the Rust's statics, and the buffers it is lent.
use crate::answer::Difference;
use crate::faults;
use crate::lent::{Lent, Room};
use oracle::tables::builtin;
use vrf_proved::lent::{self, SCHEMA_NAMES, SCHEMA_ROWS};

/// The rows of a level and kind with their child or name, in their order.
fn said(rows: &[u32], names: &[u8], level: u32, kind: u32) -> Vec<(u32, Result<u32, Vec<u8>>)> {
    let of = rows.chunks(5).filter(|r| (r[0], r[1]) == (level, kind));
    of.map(|r| {
        let name = names.get(r[3] as usize..(r[3] + r[4]) as usize).unwrap_or_default();
        (r[2], if kind == 0 { Ok(r[3]) } else { Err(name.to_vec()) })
    })
    .collect()
}

/// How many calls were compared.
pub fn check() -> Result<u64, Difference> {
    let needs = [SCHEMA_ROWS, SCHEMA_NAMES];
    let (mut rows, mut names) = (Lent::default(), Lent::default());
    let rust = builtin(0);
    let mut calls = 0;
    for room in Room::all(needs) {
        let lent = room.of(needs);
        rows.lend(lent[0], room.words());
        names.lend(lent[1], room.pattern());
        let mut answer = lent::schema(rows.cells(), names.cells());
        faults::schema(&mut answer, rows.cells(), names.cells());
        let filled = (rows.front(SCHEMA_ROWS), names.front(SCHEMA_NAMES));
        let same = match (answer, room) {
            (Err(r), Room::Short(_)) => {
                r.number == 3 && r.values == [SCHEMA_ROWS as u64, SCHEMA_NAMES as u64, 0] && rows.holds(&[]) && names.holds(&[])
            }
            (Ok(s), Room::Full | Room::Longer) => {
                let levels = (0..12).flat_map(|level| [(level, 0), (level, 1)]);
                let mut pairs = levels.map(|(l, k)| (said(filled.0, filled.1, l, k), said(&rust.rows.concat(), &rust.pool, l, k)));
                (s.rows, s.names, s.levels) == (SCHEMA_ROWS, SCHEMA_NAMES, 12)
                    && rust.rows.len() * 5 == SCHEMA_ROWS
                    && pairs.all(|(port, rust)| port == rust)
                    && filled.0.chunks(5).all(|r| r[1] != 0 || r[4] == 0)
                    && rows.holds(filled.0)
                    && names.holds(filled.1)
            }
            _ => false,
        };
        if !same {
            return Err(Difference::new(
                room.name(["rows", "names"]),
                format!("{:?}", rust.rows),
                format!("{answer:?} {filled:?}"),
            ));
        }
        calls += 1;
    }
    Ok(calls)
}
