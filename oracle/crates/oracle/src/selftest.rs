//! That unrolled tables stand for cyclic ones.
use crate::answers::walk_struct;
use crate::tables::{Table, unroll};
use decode::array::ArrayFieldSchema;

static CYC_A: ArrayFieldSchema = ArrayFieldSchema {
    sub_arrays: &[(0, &CYC_A), (1, &CYC_B)],
    field_names: &[(0, "a"), (2, "x")],
};
static CYC_B: ArrayFieldSchema = ArrayFieldSchema {
    sub_arrays: &[(0, &CYC_A)],
    field_names: &[(0, "b")],
};

/// Really cyclic statics and the unrolled table give the same answers on random nested windows.
pub fn selftest() {
    let t = Table {
        levels: 2,
        root: 0,
        rows: vec![
            [0, 0, 0, 0, 0],
            [0, 0, 1, 1, 0],
            [0, 1, 0, 0, 1],
            [0, 1, 2, 1, 1],
            [1, 0, 0, 0, 0],
            [1, 1, 0, 2, 1],
        ],
        pool: b"axb".to_vec(),
    };
    let u = unroll(&t).unwrap();
    let mut x = 0x9E3779B97F4A7C15u64;
    let mut rnd = move || {
        x ^= x << 13;
        x ^= x >> 7;
        x ^= x << 17;
        x
    };
    fn packed(v: u32, out: &mut Vec<u8>) {
        let mut v = v;
        loop {
            let b = (v & 127) as u8;
            v >>= 7;
            out.push(b << 1 | u8::from(v != 0));
            if v == 0 {
                break;
            }
        }
    }
    let mut deep = 0;
    for _ in 0..20000 {
        // nest a chain of 1..14 levels
        let n = 1 + rnd() % 14;
        let mut w: Vec<u8> = vec![2, 2, 6, 16, 0xAB, 0, 0];
        for _ in 0..n {
            let h = if rnd() % 3 == 0 { 2 } else { 1 };
            let mut o = vec![2u8, 2];
            packed(h, &mut o);
            packed(w.len() as u32 * 8, &mut o);
            o.extend_from_slice(&w);
            o.extend_from_slice(&[0, 0]);
            w = o;
        }
        let i = (rnd() as usize) % (w.len() * 8);
        if rnd() % 2 == 0 {
            w[i / 8] ^= 1 << (i % 8);
        }
        let bits = (w.len() * 8) as u32 - (rnd() % 9) as u32;
        let a = walk_struct('S', &w, bits, Some(&CYC_A), &[]);
        let b = walk_struct('S', &w, bits, Some(u), &[]);
        assert_eq!(format!("{a:?}"), format!("{b:?}"));
        deep += (a.1.elements_decoded >= 12) as u32;
    }
    println!("cyclic statics = unrolled tables on 20000 windows ({deep} with 12 or more elements)");
}
