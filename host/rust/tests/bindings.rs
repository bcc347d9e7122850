//! The declarations of the C interface: every field of every struct and every argument of every call has a value of its own, so that one
//! in another's place is seen. The data are those of host/c/tests.

mod common;

use common::{stats, Window};
use vrf_proved::lent::{self, Buffers, Cursor, LocationScale, Movement, Packed, Read, Refusal, RotationWidth, Tables, Verdict, NONE};

/// What stands in lent buffers before a call.
const BYTE: u8 = 0xa5;
const WORD: u32 = 0xa5a5_a5a5;

/// Buffers of the given lengths and some more cells behind them, which no call may touch.
struct Lent {
    leaves: Vec<u32>,
    paths: Vec<u8>,
    payloads: Vec<u8>,
    lengths: [usize; 3],
}

impl Lent {
    fn of(lengths: [usize; 3]) -> Self {
        Self {
            leaves: vec![WORD; lengths[0] + 4],
            paths: vec![BYTE; lengths[1] + 4],
            payloads: vec![BYTE; lengths[2] + 4],
            lengths,
        }
    }

    fn lend(&mut self) -> Buffers<'_> {
        Buffers {
            leaves: &mut self.leaves[..self.lengths[0]],
            paths: &mut self.paths[..self.lengths[1]],
            payloads: &mut self.payloads[..self.lengths[2]],
        }
    }

    /// Holds the front of each buffer, and that what is behind it wasn't touched.
    fn hold(&self, leaves: &[u32], paths: &[u8], payloads: &[u8]) {
        let (l, p, q) = (leaves.len(), paths.len(), payloads.len());
        assert_eq!(
            (&self.leaves[..l], &self.paths[..p], &self.payloads[..q]),
            (leaves, paths, payloads)
        );
        assert!(self.leaves[l..].iter().all(|&cell| cell == WORD));
        assert!(self.paths[p..].iter().chain(&self.payloads[q..]).all(|&cell| cell == BYTE));
    }
}

/// Calls with buffers exactly full, longer, and each one short. An accepted call gives its answer.
fn at_every_length<T: std::fmt::Debug>(need: [usize; 3], records: [u64; 3], call: impl Fn(Buffers<'_>) -> Result<T, Refusal>) -> (T, Lent) {
    for short in 0..3 {
        let mut lengths = need;
        lengths[short] -= 1;
        let mut lent = Lent::of(lengths);
        let refused = call(lent.lend()).unwrap_err();
        assert_eq!((refused.number, refused.values), (3, records));
        lent.hold(&[], &[], &[]);
    }
    let mut longer = Lent::of(need.map(|length| length + 3));
    assert!(call(longer.lend()).is_ok());
    let mut full = Lent::of(need);
    let answer = call(full.lend()).unwrap();
    longer.hold(&full.leaves[..need[0]], &full.paths[..need[1]], &full.payloads[..need[2]]);
    (answer, full)
}

fn packed(numbers: &[u32]) -> Window {
    padded(numbers, 1)
}

/// Each number in `size` bytes, or in as many as it needs.
fn padded(numbers: &[u32], size: u32) -> Window {
    let mut window = Window::default();
    numbers.iter().for_each(|&number| window.padded(number, size));
    window
}

/// Moves all seven counters, each to a number of its own. Nine numbers are padded: five counts and four indices.
fn all_counters() -> Window {
    let four_elements = Window::padded_array(&[vec![], vec![], vec![], vec![(7, Window::of(0x133, 9))]], 3);
    let mut left_over = packed(&[0, 0]);
    left_over.push(0x7ff, 11);
    let mut kept = packed(&[4097]);
    kept.push(0x19, 5);
    let mut damaged = vec![(2, Window::of(0, 4)); 3];
    damaged.extend(vec![(2, padded(&[1], 2)); 4]);
    damaged.extend([(2, packed(&[4097])), (2, kept), (2, left_over)]);
    let whole = vec![
        (1, Window::of(0x5, 3)),
        (5, Window::of(0xabc, 12)),
        (9, Window::of(0x5d, 8)),
        (2, four_elements),
    ];
    let mut window = Window::array(&[whole, damaged]);
    window.push(0, 13);
    window
}

const LEVELS: u32 = 3;
const ROOT: u32 = 1;
const ROWS: [u32; 20] = [1, 0, 2, 2, 0, 1, 1, 2, 0, 5, 1, 1, 5, 10, 4, 2, 1, 7, 5, 5];
const NAMES: &[u8] = b"InnerSevenFive";
const DECLARED: [u32; 6] = [NONE, 0, 5, 5, 0, 5];
const POOL: &[u8] = b"NeverKills";

#[test]
fn struct_walks() {
    let window = all_counters();
    let tables = Tables {
        rows: &ROWS,
        levels: LEVELS,
        root: ROOT,
        names: NAMES,
        declared: &DECLARED,
        declared_names: POOL,
    };
    let walk = |lent: Buffers<'_>| lent::struct_array(&window.bytes, window.bits, tables, lent);
    let (answer, lent) = at_every_length([30, 56, 7], [5, 56, 7], walk);
    assert_eq!((answer.leaves, answer.path_bytes, answer.payload_bytes), (5, 56, 7));
    assert_eq!(answer.counters, stats([6, 5, 2, 3, 11, 13, 4]));
    assert_eq!((answer.verdict, answer.padded), (Verdict::Partial, 9));
    let leaves = [
        [0, 9, 1, 3, 0, 32],
        [9, 8, 5, 12, 1, 51],
        [17, 7, 9, 8, 3, 79],
        [24, 18, 7, 9, 4, 111 + 160],
        [42, 14, NONE, 5, 6, 548 + 16],
    ];
    let paths = b"[0].Kills[0].Five[0]._h9[0].Inner[3].Seven[1].Inner._raw";
    lent.hold(&leaves.concat(), paths, &[0x05, 0xbc, 0x0a, 0x5d, 0x33, 0x01, 0x19]);

    let refused = |bits, tables| {
        let refusal = lent::struct_array(&window.bytes, bits, tables, Buffers::default()).unwrap_err();
        (refusal.number, refusal.values)
    };
    let broken = Tables { root: LEVELS, ..tables };
    assert_eq!(refused(lent::LONGEST_WINDOW + 1, broken), (1, [0; 3]));
    assert_eq!(refused(window.bits, broken), (2, [0; 3]));
    for tables in [
        Tables { levels: 2, ..tables },
        Tables {
            rows: &ROWS[1..],
            ..tables
        },
        Tables {
            names: &NAMES[1..],
            ..tables
        },
        Tables {
            declared: &DECLARED[1..],
            ..tables
        },
        Tables {
            declared_names: &POOL[1..],
            ..tables
        },
    ] {
        assert_eq!(refused(window.bits, tables), (2, [0; 3]));
    }
    let none = Tables { root: NONE, ..tables };
    assert_eq!(refused(window.bits, none).0, 3, "the tables are checked all the same");

    let cut = lent::struct_array(&window.bytes[1..], window.bits, Tables::NONE, Buffers::default()).unwrap();
    assert_eq!(cut.counters, stats([0, 0, 0, 1, 0, 0, 0]), "a window past its bytes");
    let no_elements = lent::struct_array(&[0, 0], 16, Tables::NONE, Buffers::default()).unwrap();
    assert_eq!((no_elements.counters, no_elements.verdict), (stats([0; 7]), Verdict::Clean));
    let no_bits = lent::struct_array(&window.bytes, 0, tables, Buffers::default()).unwrap();
    assert_eq!((no_bits.counters, no_bits.verdict), (stats([0; 7]), Verdict::Empty));
    assert_eq!(refused(0, broken), (2, [0; 3]), "a refusal, however few bits");
}

#[test]
fn exact_walks() {
    let elements = [
        vec![],
        vec![(0, Window::of(1, 1)), (3, Window::of(0xabcd, 16))],
        vec![(199, Window::of(2, 2))],
        vec![],
    ];
    let mut window = Window::padded_array(&elements, 2);
    window.push(0, 8);
    let (declared, pool) = ([6, 0, NONE, 0, NONE, 0, 0, 6], b"Deaths");
    let walk = |lent: Buffers<'_>| lent::struct_array_exact(&window.bytes, window.bits, &declared, pool, lent);
    let (answer, lent) = at_every_length([18, 23, 4], [3, 23, 4], walk);
    assert_eq!((answer.leaves, answer.path_bytes, answer.payload_bytes), (3, 23, 4));
    assert_eq!((answer.counters, answer.verdict), (stats([4, 3, 0, 0, 0, 8, 0]), Verdict::Partial));
    assert_eq!(answer.padded, 5, "the count and four indices");
    let leaves = [[0, 4, 0, 1, 0, 72], [4, 10, 3, 16, 1, 89], [14, 9, 199, 2, 3, 153]];
    lent.hold(&leaves.concat(), b"[1].[1].Deaths[2]._h199", &[0x01, 0xcd, 0xab, 0x02]);

    let refused = |bytes: &[u8], bits, declared: &[u32], pool: &[u8]| {
        let refusal = lent::struct_array_exact(bytes, bits, declared, pool, Buffers::default()).unwrap_err();
        (refusal.number, refusal.values)
    };
    assert_eq!(refused(&window.bytes, lent::LONGEST_WINDOW + 1, &declared[1..], pool), (1, [0; 3]));
    assert_eq!(refused(&window.bytes, window.bits, &declared[1..], pool), (2, [0; 3]));
    assert_eq!(refused(&window.bytes, window.bits, &declared, &pool[1..]), (2, [0; 3]));
    let no_bits = lent::struct_array_exact(&window.bytes, 0, &declared, pool, Buffers::default()).unwrap();
    assert_eq!((no_bits.counters, no_bits.verdict), (stats([0; 7]), Verdict::Empty));
    let no_elements = lent::struct_array_exact(&[0, 0], 16, &[], &[], Buffers::default()).unwrap();
    assert_eq!((no_elements.counters, no_elements.verdict), (stats([0; 7]), Verdict::Clean));
}

#[test]
fn object_walks() {
    let nineteen = vec![(0, Window::default()), (1, Window::of(14, 8)), (2, Window::of(0, 19))];
    let mut window = Window::default();
    window.padded(8, 2);
    let elements = [
        vec![],
        nineteen,
        vec![(6, padded(&[300], 3))],
        vec![(0, Window::of(0, 7))],
        vec![(0, Window::of(1, 17))],
        vec![(0, packed(&[0]))],
        vec![],
    ];
    for (index, fields) in (1..).zip(&elements) {
        window.padded(index, if index < 3 { 2 } else { 1 });
        fields.iter().for_each(|(handle, payload)| window.field(*handle, payload));
        window.packed(0);
    }
    window.packed(0);
    window.push(0, 21);

    for length in [6, 10] {
        let mut pairs = [WORD; 10];
        let answer = lent::object_array(&window.bytes, window.bits, &mut pairs[..length]).unwrap();
        assert_eq!((answer.pairs, answer.verdict), (3, Verdict::Partial));
        assert_eq!(answer.counters, stats([7, 3, 0, 2, 19, 21, 0]));
        assert_eq!(
            answer.padded, 5,
            "the count, two indices, two objects of which one doesn't fill its payload"
        );
        assert_eq!(pairs, [1, 7, 2, 300, 5, 0, WORD, WORD, WORD, WORD]);
    }
    let mut pairs = [WORD; 5];
    let short = lent::object_array(&window.bytes, window.bits, &mut pairs).unwrap_err();
    assert_eq!((short.number, short.values, pairs), (3, [3, 0, 0], [WORD; 5]));
    let long = lent::object_array(&window.bytes, lent::LONGEST_WINDOW + 1, &mut pairs).unwrap_err();
    assert_eq!((long.number, long.values, pairs), (1, [0; 3], [WORD; 5]));
    let whole = lent::object_array(&[0, 0], 16, &mut []).unwrap();
    assert_eq!((whole.pairs, whole.counters, whole.verdict), (0, stats([0; 7]), Verdict::Clean));
    let no_bits = lent::object_array(&window.bytes, 0, &mut []).unwrap();
    assert_eq!(
        (no_bits.counters, no_bits.verdict),
        (stats([0, 0, 0, 1, 0, 0, 0]), Verdict::Partial)
    );
}

#[test]
fn counters() {
    let left = [1, 2, 3, 4, 5, 6, 7];
    let sum = lent::merge(&stats(left), &stats([10, 200, 3000, 40_000, 500_000, 6_000_000, 70_000_000]));
    assert_eq!(sum, Ok(stats([11, 202, 3003, 40_004, 500_005, 6_000_006, 70_000_007])));
    for counter in 0..7 {
        let mut right = [80, 81, 82, 83, 84, 85, 86];
        right[counter] = u64::MAX - left[counter] + 1;
        for (a, b) in [(left, right), (right, left)] {
            let refused = lent::merge(&stats(a), &stats(b)).unwrap_err();
            assert_eq!((refused.number, &refused.left), (4, &stats(a)), "the left counters, as they were");
            assert_eq!(Refusal::from(refused), Refusal { number: 4, values: [0; 3] });
        }
        let mut one = [0; 7];
        one[counter] = 1;
        let verdict = if counter < 2 { Verdict::Clean } else { Verdict::Partial };
        assert_eq!(lent::verdict(&stats(one)), verdict);
    }
}

#[test]
fn schema() {
    for (rows_len, names_len) in [(170, 187), (171, 189)] {
        let (mut rows, mut names) = (vec![WORD; 173], vec![BYTE; 190]);
        let filled = lent::schema(&mut rows[..rows_len], &mut names[..names_len]).unwrap();
        assert_eq!((filled.rows, filled.names, filled.levels), (170, 187, 12));
        assert_eq!(
            (&rows[165..], &names[173..]),
            (&[11, 1, 20, 36, 5, WORD, WORD, WORD][..], &b"AffectedPlayer\xa5\xa5\xa5"[..])
        );
    }
    for (rows_len, names_len) in [(169, 187), (170, 186)] {
        let (mut rows, mut names) = (vec![WORD; rows_len], vec![BYTE; names_len]);
        let short = lent::schema(&mut rows, &mut names).unwrap_err();
        assert_eq!((short.number, short.values), (3, [170, 187, 0]));
        assert!(rows.iter().all(|&cell| cell == WORD) && names.iter().all(|&cell| cell == BYTE));
    }
}

/// A body of four deleted ids and three items with 3, 2 and no fields; where the payloads start. Six of its numbers are padded: handles
/// and widths of the first two fields, and the zeros of the first two items.
fn body(flags: bool) -> (Window, Vec<u32>) {
    let mut window = Window::of(1, 1);
    for number in [100, -7i32 as u32, 4, 3, 11, -12i32 as u32, 1 << 31, 14] {
        window.push(u64::from(number), 32);
    }
    let mut starts = vec![];
    for (id, handles) in [(20, 30..33), (0xffff_fff0, 33..35), (22, 35..35)] {
        window.push(id, 32);
        window.push(1, u32::from(flags));
        for handle in handles {
            let width = 2 * (handle - 30) + 1;
            window.padded_field(handle, &Window::of(u64::MAX, width), if handle < 32 { 2 } else { 1 });
            starts.push(window.bits - width);
        }
        window.padded(0, if id == 22 { 1 } else { 5 });
    }
    (window, starts)
}

#[test]
fn fast_arrays() {
    for flags in [false, true] {
        let (window, starts) = body(flags);
        let read = |lengths: [usize; 3]| {
            let (mut deleted, mut items, mut fields) = (vec![-1; 9], vec![WORD; 9], vec![WORD; 18]);
            let lent = (&mut deleted[..lengths[0]], &mut items[..lengths[1]], &mut fields[..lengths[2]]);
            let answer = lent::fast_array(&window.bytes, window.bits, flags, lent.0, lent.1, lent.2);
            (answer, deleted, items, fields)
        };
        for lengths in [[4, 6, 15], [6, 9, 18]] {
            let (answer, deleted, items, fields) = read(lengths);
            let answer = answer.unwrap();
            assert_eq!((answer.deletes, answer.items, answer.fields), (4, 3, 5));
            assert_eq!((answer.key, answer.base, answer.used, answer.padded), (100, -7, window.bits, 6));
            assert_eq!(deleted, [11, -12, i32::MIN, 14, -1, -1, -1, -1, -1]);
            assert_eq!(items, [20, 3, 0xffff_fff0, 2, 22, 0, WORD, WORD, WORD]);
            let sent = (0..5).map(|field| [30 + field, starts[field as usize], 2 * field + 1]);
            assert_eq!(fields[..15], sent.collect::<Vec<_>>().concat());
            assert_eq!(fields[15..], [WORD; 3]);
        }
        for lengths in [[3, 6, 15], [4, 5, 15], [4, 6, 14]] {
            let (answer, deleted, items, fields) = read(lengths);
            let short = answer.unwrap_err();
            assert_eq!((short.number, short.values), (3, [4, 3, 5]));
            assert_eq!((deleted, items, fields), (vec![-1; 9], vec![WORD; 9], vec![WORD; 18]));
        }
        let refused = |bytes: &[u8], bits, flags| {
            let refusal = lent::fast_array(bytes, bits, flags, &mut [], &mut [], &mut []).unwrap_err();
            (refusal.number, refusal.values)
        };
        assert_eq!(refused(&window.bytes, window.bits, !flags), (6, [0; 3]));
        assert_eq!(refused(&window.bytes[1..], window.bits, flags), (6, [0; 3]));
        assert_eq!(refused(&window.bytes, lent::LONGEST_WINDOW + 1, flags), (1, [0; 3]));
    }
}

fn at(start: u64, pos: u64, len: u64) -> Cursor {
    Cursor { start, pos, len }
}

#[track_caller]
fn accepted<T: PartialEq + std::fmt::Debug>(read: Read<T>, value: T, position: u64) {
    assert_eq!((read.result, read.position), (Ok(value), position));
}

#[track_caller]
fn refused<T: PartialEq + std::fmt::Debug>(read: Read<T>, number: u32, values: [u64; 3], position: u64) {
    assert_eq!((read.result, read.position), (Err(Refusal { number, values }), position));
}

#[test]
fn reads() {
    let five = [0xab, 0xcd, 0xef, 0x01, 0x23];
    accepted(lent::read_bits(&five, at(4, 5, 36), 13), 0x17e6, 18);
    accepted(lent::read_bits(&five, at(0, 0, 40), 40), 0x23_01ef_cdab, 40);
    refused(lent::read_bits(&five, at(4, 5, 36), 32), 7, [5, 36, 32], 5);
    refused(lent::read_bits(&five, at(4, 5, 36), 65), 13, [0; 3], 5);
    refused(lent::read_bits(&five[..4], at(4, 5, 36), 65), 14, [36, 32, 0], 5);

    let mut window = Window::of(0x3f, 6);
    window.packed(1000);
    window.packed(u32::MAX);
    let number = |value, bytes, padded| Packed { value, bytes, padded };
    accepted(lent::read_packed(&window.bytes, at(2, 4, 60)), number(1000, 2, false), 20);
    let largest = number(u64::from(u32::MAX), 5, false);
    accepted(lent::read_packed(&window.bytes, at(2, 20, 60)), largest, 60);
    let mut long = Window::of(0, 3);
    long.padded(1000, 4);
    accepted(lent::read_packed(&long.bytes, at(1, 2, 34)), number(1000, 4, true), 34);
    refused(lent::read_packed(&window.bytes, at(2, 4, 19)), 7, [12, 19, 8], 12);
    refused(lent::read_packed(&window.bytes[..7], at(2, 4, 60)), 14, [60, 56, 0], 4);
    refused(lent::read_packed(&[0xff; 6], at(1, 3, 45)), 8, [3, 0, 0], 43);
    let mut high = Window::of(0, 5);
    for byte in [1, 1, 1, 1, 0x20] {
        high.push(byte, 8);
    }
    refused(lent::read_packed(&high.bytes, at(3, 2, 42)), 9, [2, 0, 0], 42);

    let mut window = Window::of(0x7f, 7);
    for (value, width) in [(9, 4), (6, 3), (3, 2)] {
        window.push(value, width);
    }
    accepted(lent::read_serialized(&window.bytes, at(3, 4, 13), 11), 9, 8);
    accepted(lent::read_serialized(&window.bytes, at(3, 8, 13), 11), 6, 11);
    refused(lent::read_serialized(&window.bytes, at(3, 11, 13), 11), 7, [11, 13, 3], 11);
    refused(lent::read_serialized(&window.bytes, at(3, 4, 13), 0), 10, [0; 3], 4);
    refused(lent::read_serialized(&window.bytes[..1], at(3, 4, 13), 0), 14, [13, 8, 0], 4);
}

#[test]
fn copies() {
    let source = [0x21, 0x43, 0x65, 0x87];
    let copy = |bytes, cursor, count, length| {
        let mut target = [BYTE; 8];
        let read = lent::copy_bits(bytes, cursor, count, &mut target[..length]);
        (read, target)
    };
    for length in [3, 8] {
        let (read, target) = copy(&source, at(1, 5, 31), 17, length);
        accepted(read, (), 22);
        assert_eq!(target, [0x0c, 0x95, 0x01, BYTE, BYTE, BYTE, BYTE, BYTE]);
    }
    for (bytes, count, length, number, values) in [
        (&source[..], 17, 2, 14, [17, 16, 0]),
        (&source[..], 27, 4, 7, [5, 31, 27]),
        (&source[..3], 17, 0, 14, [31, 24, 0]),
    ] {
        let (read, target) = copy(bytes, at(1, 5, 31), count, length);
        refused(read, number, values, 5);
        assert_eq!(target, [BYTE; 8]);
    }
}

/// A quantized vector of 12-bit components, divided by the scale if `scaled`.
fn push_vector(window: &mut Window, scaled: bool, components: [i64; 3]) {
    window.push(12 | u64::from(scaled) << 6, 7);
    for component in components {
        window.push(component as u64, 12);
    }
}

#[test]
fn vectors() {
    let mut window = Window::of(1, 5);
    push_vector(&mut window, true, [-125, 7, 2047]);
    accepted(lent::vector(&window.bytes, at(3, 2, 45), 100), [-1.25, 0.07, 20.47], 45);
    refused(lent::vector(&window.bytes, at(3, 2, 44), 100), 7, [9, 44, 36], 9);
    refused(lent::vector(&window.bytes, at(3, 2, 45), 0), 11, [0; 3], 2);
    refused(lent::vector(&window.bytes[..5], at(3, 2, 45), 0), 14, [45, 40, 0], 2);
    let mut infinite = Window::of(0, 3 + 7 + 32);
    infinite.push(0x7f80_0000, 64);
    refused(lent::vector(&infinite.bytes, at(2, 1, 104), 100), 12, [0; 3], 104);

    let mut window = Window::of(0, 3);
    for axis in [65_535, 32_769, 1] {
        window.push(axis, 16);
    }
    accepted(lent::normal(&window.bytes, at(1, 2, 50)), [1.0, 1.0 / 32_767.0, -1.0], 50);
    refused(lent::normal(&window.bytes, at(1, 2, 49)), 7, [34, 49, 16], 34);
    refused(lent::normal(&window.bytes[..6], at(1, 2, 50)), 14, [50, 48, 0], 2);
}

#[test]
fn rotations() {
    let mut window = Window::of(0, 6);
    for axis in [1, 64, 255] {
        window.push(axis << 1 | 1, 9);
    }
    accepted(lent::rotation(&window.bytes, at(4, 2, 29), 8), [1.40625, 90.0, 358.59375], 29);
    refused(lent::rotation(&window.bytes, at(4, 2, 27), 8), 7, [21, 27, 8], 21);
    refused(lent::rotation(&window.bytes, at(4, 2, 29), 9), 13, [0; 3], 2);
    refused(lent::rotation(&window.bytes[..4], at(4, 2, 29), 9), 14, [29, 32, 0], 2);
    assert_eq!((lent::byte_angle_steps(200), lent::byte_angle_steps(300)), (Some(9000), None));
    let mut window = Window::of(1 << 1 | 1, 17);
    window.push(0, 1);
    window.push(65_535 << 1 | 1, 17);
    accepted(
        lent::rotation(&window.bytes, at(0, 0, 35), 16),
        [360.0 / 65_536.0, 0.0, 359.994_5],
        35,
    );
}

const SLEEP: u64 = 1;
const PHYSICS: u64 = 2;
const FRAME: u64 = 4;
const HANDLE: u64 = 8;

fn movement(flags: u64, width: u32) -> Window {
    let mut window = Window::of(flags, 4);
    push_vector(&mut window, true, [-125, 7, 2047]);
    for axis in [1, 5, 3] {
        window.push(axis << 1 | 1, width + 1);
    }
    push_vector(&mut window, true, [-2048, 11, 12]);
    if flags & PHYSICS != 0 {
        push_vector(&mut window, false, [13, 14, -15]);
    }
    if flags & FRAME != 0 {
        window.packed(u32::MAX);
    }
    if flags & HANDLE != 0 {
        window.padded(16, 3);
    }
    window
}

fn expected(flags: u64, scale: f64, step: f32) -> Movement {
    Movement {
        location: [-125.0 / scale, 7.0 / scale, 2047.0 / scale],
        rotation: [step, 5.0 * step, 3.0 * step],
        linear: [-2048.0, 11.0, 12.0],
        angular: (flags & PHYSICS != 0).then_some([13.0, 14.0, -15.0]),
        sleep: flags & SLEEP != 0,
        physics: flags & PHYSICS != 0,
        frame: (flags & FRAME != 0).then_some(u32::MAX),
        handle: (flags & HANDLE != 0).then_some(16),
        padded: u32::from(flags & HANDLE != 0),
    }
}

#[test]
fn movements() {
    use {LocationScale::*, RotationWidth::*};
    for (rotation, width, step) in [(Eight, 8, 360.0 / 256.0), (Sixteen, 16, 360.0 / 65_536.0)] {
        for (location, scale) in [(One, 1.0), (Ten, 10.0), (Hundred, 100.0)] {
            for flags in 0..16 {
                let mut window = movement(flags, width);
                let used = u64::from(window.bits);
                window.push(0x1f, 5);
                let read = lent::movement(&window.bytes, u64::from(window.bits), rotation, location);
                accepted(read, expected(flags, scale, step), used);
            }
        }
    }
    let mut window = movement(15, 8);
    let (bits, bytes) = (u64::from(window.bits), window.bytes.len() as u64);
    let read = |window: &Window, count| lent::movement(&window.bytes, count, Eight, One);
    refused(read(&window, 524_289), 1, [0; 3], 0);
    refused(read(&window, 8 * bytes + 1), 14, [8 * bytes + 1, 8 * bytes, 0], 0);
    refused(read(&window, 60), 7, [57, 60, 8], 57);
    // the handle takes the last three bytes
    let (frame, fifth) = (bits - 64, (bits - 32) as usize);
    window.bytes[fifth / 8] ^= 1 << (fifth % 8);
    refused(read(&window, bits), 8, [frame, 0, 0], frame + 40);
    window.bytes[fifth / 8] ^= 1 << (fifth % 8);
    window.bytes[(fifth + 5) / 8] ^= 1 << ((fifth + 5) % 8);
    refused(read(&window, bits), 9, [frame, 0, 0], frame + 40);
    let mut nan = Window::of(0, 11);
    nan.push(u64::from(u32::MAX), 32);
    nan.push(0, 64);
    refused(read(&nan, 107), 12, [0; 3], 107);
}
