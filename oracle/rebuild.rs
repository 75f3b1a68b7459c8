//! What crates/rebuild prints: each of the 18 graphs built from its seed, how many of its columns differ from tables.rs, and its
//! residual four-cycles.
use crate::{build, four_cycles, main_rates};
use lcr_core::ecc::tables;
use std::fmt::Write;

pub fn text() -> String {
    let mut text = String::new();
    let families = [
        (60, tables::BY_RATE_LARGE),
        (20, tables::BY_RATE_SMALL),
        (10, tables::BY_RATE_TINY),
    ];
    for (family, (n_b, graphs)) in families.iter().enumerate() {
        for (rate, (percent, _)) in main_rates().iter().enumerate() {
            let seed = 0x5EED_0000 + 977 * rate as u64 + *n_b as u64;
            let b = build(*n_b, *percent, seed);
            let differ = b.info.iter().zip(graphs[rate].info).filter(|(a, b)| a != b);
            write!(text, "{family} {rate} differ {} cycles", differ.count()).unwrap();
            for z in [2, 8, 32, 128, 324] {
                write!(text, " {}", four_cycles(&b, z)).unwrap();
            }
            writeln!(text).unwrap();
        }
    }
    text
}
