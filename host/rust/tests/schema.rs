//! The statics against the proved table, schemas of a caller's own, and names.

mod common;

use common::{stats, Random, Window};
use vrf_proved::lent::{self, SCHEMA_NAMES, SCHEMA_ROWS};
use vrf_proved::*;

/// The public statics in the order of their levels, which begin at 1.
fn named() -> [&'static ArrayFieldSchema; 6] {
    [
        &COMBAT_ROUNDS_SCHEMA,
        &ABILITY_CASTS_SCHEMA,
        &ABILITY_EFFECTS_SCHEMA,
        &LIFE_CHANGE_DAMAGE_SCHEMA,
        &LIFE_CHANGE_SECTION_SCHEMA,
        &LIFE_CHANGE_BY_SECTION_SCHEMA,
    ]
}

/// The proved table, as a list of rows and the names.
struct Proved {
    rows: Vec<[u32; 5]>,
    names: Vec<u8>,
    seen: std::collections::BTreeSet<u32>,
}

impl Proved {
    fn of_kind(&self, level: u32, kind: u32) -> Vec<[u32; 5]> {
        let fits = |row: &&[u32; 5]| (row[0], row[1]) == (level, kind);
        self.rows.iter().filter(fits).copied().collect()
    }

    fn name(&self, [.., start, length]: [u32; 5]) -> &str {
        std::str::from_utf8(&self.names[start as usize..][..length as usize]).unwrap()
    }

    /// Holds a level and all below it against the table.
    fn hold(&mut self, level: u32, schema: &ArrayFieldSchema) {
        let names: Vec<_> = self.of_kind(level, 1).into_iter().map(|row| (row[2], self.name(row))).collect();
        assert_eq!(names, schema.field_names, "names of level {level}");
        let arrays = self.of_kind(level, 0);
        assert_eq!(arrays.len(), schema.sub_arrays.len(), "arrays of level {level}");
        self.seen.insert(level);
        for (row, (handle, child)) in arrays.into_iter().zip(schema.sub_arrays) {
            assert_eq!(row[2], *handle, "an array of level {level}");
            self.hold(row[3], child);
        }
    }
}

#[test]
fn the_statics_say_what_the_proved_table_says() {
    let (mut rows, mut names) = (vec![0; SCHEMA_ROWS], vec![0; SCHEMA_NAMES]);
    let filled = lent::schema(&mut rows, &mut names).unwrap();
    assert_eq!((filled.rows, filled.names, filled.levels), (SCHEMA_ROWS, SCHEMA_NAMES, 12));
    let rows = rows.chunks_exact(5).map(|row| row.try_into().unwrap()).collect();
    let mut proved = Proved {
        rows,
        names,
        seen: Default::default(),
    };
    for (schema, level) in named().into_iter().zip(1..) {
        proved.hold(level, schema);
    }
    assert_eq!(proved.seen.len(), 12, "every level is reached");
}

/// A copy stands at another address, so it is turned into a table by its links.
#[test]
fn a_copy_of_a_static_walks_as_the_proved_table() {
    let declared = [
        None,
        Some("One"),
        None,
        Some("Three"),
        Some("Four"),
        Some(""),
        None,
        None,
        None,
        None,
        Some("Ten"),
    ];
    let mut random = Random(1);
    let mut deepest = 0;
    for schema in named() {
        let copy = schema.clone();
        for _ in 0..400 {
            let window = random.array(schema, 6);
            let window = random.damaged(window);
            let declared = &declared[..random.below(declared.len() as u64) as usize];
            let proved = try_decode_struct_array(&window.bytes, window.bits, Some(schema), declared).unwrap();
            let linked = try_decode_struct_array(&window.bytes, window.bits, Some(&copy), declared).unwrap();
            assert_eq!(proved, linked);
            let depths = proved.values.iter().map(|leaf| leaf.field.path.matches('[').count());
            deepest = depths.max().unwrap_or(0).max(deepest);
        }
    }
    assert_eq!(deepest, 5, "some windows go down to the regions");
}

static NEST: ArrayFieldSchema = ArrayFieldSchema {
    sub_arrays: &[(0, &OTHER)],
    field_names: &[(0, "Down"), (1, "Here")],
};

static OTHER: ArrayFieldSchema = ArrayFieldSchema {
    sub_arrays: &[(2, &NEST), (2, &OTHER), (3, &COMBAT_ROUNDS_SCHEMA)],
    field_names: &[(2, "Up"), (2, "Never"), (3, "")],
};

/// Arrays inside one another, `NEST` and `OTHER` in turn, with one leaf in the innermost.
fn nested(arrays: usize) -> Window {
    let mut window = Window::array(&[vec![(1, Window::of(0x5, 3))]]);
    for level in (0..arrays - 1).rev() {
        let handle = if level % 2 == 0 { 0 } else { 2 };
        window = Window::array(&[vec![(handle, window)]]);
    }
    window
}

#[test]
fn a_cycle_ends_at_the_deepest_level() {
    let walk = |arrays| {
        let window = nested(arrays);
        try_decode_struct_array(&window.bytes, window.bits, Some(&NEST), &[]).unwrap()
    };
    let three = walk(3);
    assert_eq!(three.values[0].field.path, "[0].Down[0].Up[0].Here");
    assert_eq!(
        (three.values[0].field.bit_count, &three.values[0].field.raw_bits[..]),
        (3, &[0x5][..])
    );
    assert_eq!(three.stats, stats([3, 1, 0, 0, 0, 0, 0]));

    // twelve arrays are walked; the last of thirteen is one leaf, and a truncation
    let deepest = walk(12);
    assert_eq!(
        deepest.values[0].field.path,
        format!("{}[0].Down[0]._h1", "[0].Down[0].Up".repeat(5))
    );
    assert_eq!(deepest.stats, stats([12, 1, 0, 0, 0, 0, 0]));
    let deeper = walk(MAX_RECURSION_DEPTH as usize + 1);
    assert_eq!(deeper.values[0].field.path, "[0].Down[0].Up".repeat(6));
    assert_eq!(deeper.values[0].field.bit_count, nested(1).bits);
    assert_eq!(deeper.stats, stats([12, 1, 1, 0, 0, 0, 0]));
}

#[test]
fn the_first_entry_of_a_handle_counts_and_an_empty_name_is_a_name() {
    let rounds = Window::array(&[vec![(4, Window::array(&[vec![(9, Window::of(1, 1))]]))]]);
    let window = Window::array(&[vec![(0, Window::array(&[vec![(3, rounds)]]))]]);
    let walk = try_decode_struct_array(&window.bytes, window.bits, Some(&NEST), &[]).unwrap();
    assert_eq!(walk.values[0].field.path, "[0].Down[0].[0].Reports[0]._h9");
}

#[test]
fn declared_names_are_for_leaves_at_every_depth() {
    let declared = [Some("Zero"), Some("Größe"), Some("Two"), None];
    let window = nested(3);
    let walk = try_decode_struct_array(&window.bytes, window.bits, Some(&NEST), &declared).unwrap();
    assert_eq!(walk.values[0].field.path, "[0].Down[0].Up[0].Größe");
}

#[test]
fn a_schema_on_the_stack() {
    static ROUNDS: [(u32, &ArrayFieldSchema); 1] = [(7, &COMBAT_ROUNDS_SCHEMA)];
    let root = ArrayFieldSchema {
        sub_arrays: &ROUNDS,
        field_names: &[(7, "Matches")],
    };
    let rounds = Window::array(&[vec![(4, Window::array(&[vec![(1, Window::of(0xab, 8))]]))]]);
    let window = Window::array(&[vec![(7, rounds)]]);
    let walk = try_decode_struct_array(&window.bytes, window.bits, Some(&root), &[]).unwrap();
    assert_eq!(walk.values[0].field.path, "[0].Matches[0].Reports[0]._h1");
}

/// 64 levels and 512 rows in all: a root with 63 arrays, each with names of its own.
#[test]
fn a_table_that_is_full_has_every_row() {
    let names = |child: u32| -> &'static [(u32, &'static str)] {
        let count = if child < 8 { 8 } else { 7 };
        (0..count)
            .map(|handle| (handle, &*Box::leak(format!("{child}x{handle}").into_boxed_str())))
            .collect::<Vec<_>>()
            .leak()
    };
    let child = |child| -> &'static ArrayFieldSchema {
        Box::leak(Box::new(ArrayFieldSchema {
            sub_arrays: &[],
            field_names: names(child),
        }))
    };
    let children: Vec<_> = (0..63).map(|number| (number, child(number))).collect();
    let rows = children.iter().map(|(_, level)| 1 + level.field_names.len()).sum::<usize>();
    assert_eq!(rows, 512);
    let root = ArrayFieldSchema {
        sub_arrays: children.leak(),
        field_names: &[],
    };
    for &(number, level) in root.sub_arrays {
        for &(handle, name) in level.field_names {
            let window = Window::array(&[vec![(number, Window::array(&[vec![(handle, Window::of(1, 1))]]))]]);
            let walk = try_decode_struct_array(&window.bytes, window.bits, Some(&root), &[]).unwrap();
            assert_eq!(walk.values[0].field.path, format!("[0]._h{number}[0].{name}"));
        }
    }
}
