//! One case line in, the Rust's answer as one line out. ../../README.md has both forms.
use crate::tables::{declared, schema};
use crate::text::{esc, hex, unhex};
use crate::trees::{tree_error, tree_text};
use decode::array::*;
use decode::decode::{self as dec, DecodeError};
use decode::fastarray::{ChecksumMode, decode_fast_array_delta};
use decode::ftext::decode_ftext_tree;
use decode::types::*;
use decode_traced::array as tr;
use std::fmt::Write;
use vrf_bitio::{BitError, BitReader};

pub fn bit_error(e: &BitError) -> String {
    match e {
        BitError::Eof {
            position,
            length,
            requested,
        } => format!("ERR Eof {position} {length} {requested}"),
        BitError::MalformedIntPacked { position } => format!("ERR MalformedIntPacked {position}"),
        BitError::IntPackedOverflow { position } => format!("ERR IntPackedOverflow {position}"),
        BitError::InvalidSerializedIntMax { max } => format!("ERR InvalidSerializedIntMax {max}"),
        BitError::InvalidLength { position, length } => format!("ERR InvalidLength {position} {length}"),
        BitError::InvalidBitLength { requested, available } => format!("ERR InvalidBitLength {requested} {available}"),
        BitError::InvalidString { position } => format!("ERR InvalidString {position}"),
    }
}

fn decode_error(e: &DecodeError) -> String {
    match e {
        DecodeError::BitIo(b) => bit_error(b),
        DecodeError::InvalidQuantizationScale { scale } => format!("ERR InvalidQuantizationScale {scale}"),
        DecodeError::NonFiniteComponent { .. } => "ERR NonFiniteComponent".into(),
        other => format!("ERR {other:?}"),
    }
}

fn v3(v: &FVector) -> String {
    format!("{:016x},{:016x},{:016x}", v.x.to_bits(), v.y.to_bits(), v.z.to_bits())
}

fn r3(v: &FRotator) -> String {
    format!("{:08x},{:08x},{:08x}", v.pitch.to_bits(), v.yaw.to_bits(), v.roll.to_bits())
}

pub fn counters(s: &ArrayDecodeStats) -> [u64; 7] {
    [
        s.elements_decoded,
        s.fields_emitted,
        s.truncations,
        s.errors,
        s.unconsumed_nested_bits,
        s.unconsumed_root_bits,
        s.implicit_terminations,
    ]
}

fn stats_text(s: &ArrayDecodeStats) -> String {
    let c = counters(s);
    format!(
        "{} {} {} {} {} {} {} {}",
        c[0],
        c[1],
        c[2],
        c[3],
        c[4],
        c[5],
        c[6],
        if s.is_clean() { "clean" } else { "partial" }
    )
}

pub fn walk_struct(
    kind: char,
    data: &[u8],
    bits: u32,
    sch: Option<&ArrayFieldSchema>,
    decl: &[Option<&str>],
) -> (Vec<FlattenedField>, ArrayDecodeStats) {
    let mut st = ArrayDecodeStats::default();
    let l = if kind == 'S' {
        decode_struct_array(data, bits, sch, decl, &mut st)
    } else {
        decode_struct_array_exact(data, bits, decl, &mut st)
    };
    (l, st)
}

/// The fields of a case line.
struct Fields<'a>(Vec<&'a str>);

impl<'a> Fields<'a> {
    fn text(&self, i: usize) -> &'a str {
        self.0[i]
    }
    fn number(&self, i: usize) -> u64 {
        self.0[i].parse().unwrap()
    }
}

/// The answer to a case line, without its id; `trace`: with what the readers read.
pub fn answer(line: &str, trace: bool) -> String {
    let p = Fields(line.split(' ').collect());
    match p.text(1) {
        "S" | "X" => struct_answer(&p, trace),
        "O" => object_answer(&p, trace),
        "F" => fast_answer(&p, trace),
        "T" => tree_answer(&p),
        "M" => movement_answer(&p),
        "V" | "N" | "R" | "P" | "I" | "G" | "C" => read_answer(&p),
        other => panic!("no kind {other}"),
    }
}

fn struct_answer(p: &Fields<'_>, trace: bool) -> String {
    let kind = if p.text(1) == "S" { 'S' } else { 'X' };

    let bits = p.number(2) as u32;
    let data = unhex(p.text(3));
    let (sch, sch_t) = if kind == 'S' { schema(p.text(4)) } else { (None, None) };
    let names = declared(p.text(5));
    let decl: Vec<Option<&str>> = names.iter().map(|n| n.as_deref()).collect();
    let (leaves, st) = walk_struct(kind, &data, bits, sch, &decl);
    let pb: usize = leaves.iter().map(|l| l.path.len()).sum();
    let yb: usize = leaves.iter().map(|l| l.raw_bits.len()).sum();
    let mut s = format!("{} need {} {pb} {yb}", stats_text(&st), leaves.len());
    for l in &leaves {
        write!(s, " {}:{}:{}:{}", esc(l.path.as_bytes()), l.handle, l.bit_count, hex(&l.raw_bits)).unwrap();
    }
    if trace {
        let mut ts = tr::ArrayDecodeStats::default();
        decode_traced::take();
        let tl = if kind == 'S' {
            tr::decode_struct_array(&data, bits, sch_t, &decl, &mut ts)
        } else {
            tr::decode_struct_array_exact(&data, bits, &decl, &mut ts)
        };
        let t = decode_traced::take();
        assert_eq!(tl.len(), leaves.len());
        assert_eq!(t.starts.len(), leaves.len());
        for (a, b) in tl.iter().zip(&leaves) {
            assert!(a.path == b.path && a.raw_bits == b.raw_bits && a.handle == b.handle);
        }
        let nb: u64 = t.numbers.iter().map(|n| n.1).sum();
        write!(s, " trace {} {nb}", t.padded).unwrap();
        for x in &t.starts {
            write!(s, " {x}").unwrap();
        }
    }
    s
}

fn object_answer(p: &Fields<'_>, trace: bool) -> String {
    let bits = p.number(2) as u32;
    let data = unhex(p.text(3));
    let mut st = ArrayDecodeStats::default();
    let pairs = decode_object_ref_array_with_stats(&data, bits, &mut st);
    let mut s = format!("{} need {}", stats_text(&st), pairs.len());
    for (i, g) in &pairs {
        write!(s, " {i}:{g}").unwrap();
    }
    if trace {
        let mut ts = tr::ArrayDecodeStats::default();
        decode_traced::take();
        let _ = tr::decode_object_ref_array_with_stats(&data, bits, &mut ts);
        let t = decode_traced::take();
        let nb: u64 = t.numbers.iter().map(|n| n.1).sum();
        write!(s, " trace {} {nb}", t.padded).unwrap();
    }
    s
}

fn fast_answer(p: &Fields<'_>, trace: bool) -> String {
    let mode = if p.text(2) == "1" {
        ChecksumMode::Present
    } else {
        ChecksumMode::Absent
    };
    let data = unhex(p.text(4));
    match decode_fast_array_delta(&data, p.number(3) as u32, mode) {
        None => "ERR NotAFastArray".into(),
        Some(d) => {
            let nf: usize = d.changed_items.iter().map(|c| c.fields.len()).sum();
            let mut s = format!(
                "ok {} {} {} {} used {} need {} {} {nf} D",
                d.header.array_replication_key,
                d.header.base_replication_key,
                d.header.num_deletes,
                d.header.num_changed,
                d.consumed_bits,
                d.deleted_replication_ids.len(),
                d.changed_items.len()
            );
            for x in &d.deleted_replication_ids {
                write!(s, " {x}").unwrap();
            }
            for c in &d.changed_items {
                write!(s, " I {}:{}", c.replication_id as u32, c.fields.len()).unwrap();
                for f in &c.fields {
                    write!(s, " {}:{}:{}", f.handle, f.payload_bit_offset, f.payload_bit_count).unwrap();
                }
            }
            if trace {
                use decode_traced::fastarray as tf;
                decode_traced::take();
                let m = if p.text(2) == "1" {
                    tf::ChecksumMode::Present
                } else {
                    tf::ChecksumMode::Absent
                };
                let d2 = tf::decode_fast_array_delta(&data, p.number(3) as u32, m);
                assert_eq!(format!("{:?}", Some(d)), format!("{d2:?}"));
                write!(s, " trace {}", decode_traced::take().padded).unwrap();
            }
            s
        }
    }
}

fn tree_answer(p: &Fields<'_>) -> String {
    let data = unhex(p.text(3));
    match decode_ftext_tree(&data, p.number(2) as u32) {
        Ok(t) => {
            let mut s = String::from("ok ");
            tree_text(&t, &mut s);
            s
        }
        Err(e) => tree_error(&e),
    }
}

fn movement_answer(p: &Fields<'_>) -> String {
    let loc = match p.text(2) {
        "1" => VectorQuantization::RoundWholeNumber,
        "10" => VectorQuantization::RoundOneDecimal,
        "100" => VectorQuantization::RoundTwoDecimals,
        _ => panic!(),
    };
    let rot = match p.text(3) {
        "8" => RotatorQuantization::ByteComponents,
        "16" => RotatorQuantization::ShortComponents,
        _ => panic!(),
    };
    let data = unhex(p.text(5));
    let mut r = match BitReader::with_bit_len(&data, p.number(4)) {
        Ok(r) => r,
        Err(e) => return bit_error(&e),
    };
    let a = dec::movement(&mut r, rot, loc);
    let pos = r.position();
    match a {
        Err(e) => format!("{} @{pos}", decode_error(&e)),
        Ok(m) => format!(
            "ok {} {} loc {} rot {} lin {} ang {} frame {} handle {} @{pos}",
            m.simulated_physics_sleep as u8,
            m.rep_physics as u8,
            v3(&m.location),
            r3(&m.rotation),
            v3(&m.linear_velocity),
            m.angular_velocity.map(|v| v3(&v)).unwrap_or("-".into()),
            m.server_frame.map(|v| v.to_string()).unwrap_or("-".into()),
            m.server_physics_handle.map(|v| v.to_string()).unwrap_or("-".into())
        ),
    }
}

/// One read at a place of a window: kind, argument(s), place, bits, hex.
fn read_answer(p: &Fields<'_>) -> String {
    let n = p.0.len();
    let data = unhex(p.text(n - 1));
    let bits = p.number(n - 2);
    let (start, skip) = match p.text(n - 3).split_once('+') {
        Some((start, skip)) => (start.parse().unwrap(), skip.parse().unwrap()),
        None => (0, p.number(n - 3)),
    };
    let mut r = match window(&data, start, bits) {
        Ok(r) => r,
        Err(e) => return bit_error(&e),
    };
    r.skip_bits(skip).expect("skip within the window");
    let s = match p.text(1) {
        "V" => dec::vector(&mut r, p.number(2) as u32)
            .map(|v| v3(&v))
            .map_err(|e| decode_error(&e)),
        "N" => dec::normal(&mut r).map(|v| v3(&v)).map_err(|e| bit_error(&e)),
        "R" => dec::rotation(&mut r, p.number(2) as u32).map(|v| r3(&v)).map_err(|e| bit_error(&e)),
        "P" => r.read_int_packed().map(|v| v.to_string()).map_err(|e| bit_error(&e)),
        "I" => r
            .read_serialized_int(p.number(2) as u32)
            .map(|v| v.to_string())
            .map_err(|e| bit_error(&e)),
        "G" => r.read_bits(p.number(2) as u32).map(|v| v.to_string()).map_err(|e| bit_error(&e)),
        "C" => {
            // target filled with 0xEE before
            let mut dst = vec![0xEEu8; p.number(3) as usize];
            r.copy_bits_to(&mut dst, p.number(2))
                .map(|()| hex(&dst))
                .map_err(|e| format!("{} {}", bit_error(&e), hex(&dst)))
        }
        _ => unreachable!(),
    };
    match s {
        Ok(v) => format!("ok {v} @{}", r.position()),
        Err(e) => format!("{e} @{}", r.position()),
    }
}

/// `bits` bits from bit `start` on.
fn window(data: &[u8], start: u64, bits: u64) -> vrf_bitio::Result<BitReader<'_>> {
    if start == 0 {
        return BitReader::with_bit_len(data, bits);
    }
    let mut whole = BitReader::new(data);
    whole.skip_bits(start)?;
    whole.sub_reader(bits)
}
