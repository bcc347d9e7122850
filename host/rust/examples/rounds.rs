//! Takes a file of combat rounds apart and prints it: `cargo run --example rounds -- ../../samples/combat-rounds.bin`.
//!
//! It is a program for vrfkit's crate `vrf_decode` as well as for this one: the `use` line is all that differs.

use vrf_proved::{decode_struct_array, ArrayDecodeStats, COMBAT_ROUNDS_SCHEMA};

/// What a recording calls its handles.
const DECLARED: [Option<&str>; 3] = [None, Some("Kills"), Some("Deaths")];

fn main() -> std::io::Result<()> {
    let mut season = ArrayDecodeStats::default();
    for file in std::env::args().skip(1) {
        let bytes = std::fs::read(&file)?;
        let bits = u32::try_from(bytes.len() * 8).unwrap_or(u32::MAX);
        let mut stats = ArrayDecodeStats::default();
        let leaves = decode_struct_array(&bytes, bits, Some(&COMBAT_ROUNDS_SCHEMA), &DECLARED, &mut stats);
        let found = match stats.is_clean() {
            _ if bits == 0 => "empty, nothing was sent",
            true => "clean",
            false => "partial",
        };
        println!("{file}: {found}");
        for leaf in leaves {
            println!("  {}, {} bits: {:02x?}", leaf.path, leaf.bit_count, leaf.raw_bits);
        }
        season.merge_from(&stats);
    }
    println!("{season:?}");
    Ok(())
}
