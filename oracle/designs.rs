//! What crates/designs prints: graphs of every shape from a seed, four-cycles of computed columns, and refusals.
use super::checksum;
use crate::{build, four_cycles, Base};
use std::fmt::Write;

/// A step of the shift generator, which is a closure in main.rs.
fn step(state: u64) -> u64 {
    state
        .wrapping_mul(6364136223846793005)
        .wrapping_add(1442695040888963407)
}

/// A seed from the bytes of a text.
fn seed_of(text: &str) -> u64 {
    text.bytes().fold(0, |s, b| step(s.wrapping_add(b as u64)))
}

const LIFTS: [u16; 5] = [1, 2, 5, 32, 65_535];

/// A line for each shape: n_b, percent, k_b, the checksums of rows and shifts, the four-cycles at some lifts. The state runs on from
/// graph to graph.
fn shapes(text: &mut String, mut state: u64) {
    for n_b in 4..=64 {
        for percent in 0..=100 {
            state = step(state);
            let b = build(n_b, percent, state);
            let rows = checksum(b.info.iter().flatten().map(|&(r, _)| r as usize));
            let shifts = checksum(b.info.iter().flatten().map(|&(_, s)| s as usize));
            write!(text, "{n_b} {percent} {} {rows} {shifts}", b.k_b).unwrap();
            for z in LIFTS {
                write!(text, " {}", four_cycles(&b, z)).unwrap();
            }
            writeln!(text).unwrap();
        }
    }
}

/// Columns of three different rows and any shifts.
fn columns(n_b: usize, k_b: usize, seed: usize) -> Base {
    let m_b = n_b - k_b;
    let shift = |p: usize| ((seed * 7919 + p * p * 31 + p * 104_729) % 65_536) as u16;
    let info = (0..k_b)
        .map(|c| {
            let a = (seed + c * c * 7 + c) % m_b;
            let b = (a + 1 + (seed * 3 + c * 5) % (m_b - 2)) % m_b;
            let rows = [a, b, (a + m_b - 1) % m_b];
            core::array::from_fn(|e| (rows[e] as u8, shift(3 * c + e)))
        })
        .collect();
    Base { n_b, k_b, m_b, info }
}

/// Four-cycles of computed columns, a line each.
fn cycles(text: &mut String) {
    for i in 0..200 {
        let n_b = 4 + i * 7 % 61;
        let k_b = 1 + i * 5 % (n_b - 3);
        let z = 1 + i * i % 40;
        let b = columns(n_b, k_b, i + 1);
        writeln!(text, "{n_b} {k_b} {z} cycles {}", four_cycles(&b, z as u16)).unwrap();
    }
}

/// What 01 says of calls that it refuses, which are the same in every run; the Rust has no such refusals.
const REFUSALS: [&str; 17] = [
    "columns 3 0: refused 3 3 4",
    "columns 65 101: refused 3 65 64",
    "columns 64 101: refused 3 101 100",
    "peg 3 1 of 3: refused 3 3 4",
    "peg 5 0 of 3: refused 3 0 1",
    "peg 5 3 of 6: refused 3 3 2",
    "peg 5 2 of 7: refused 9 7 6",
    "shifts 5 2 of 5 and 5: refused 5 5 6",
    "shifts 5 2 of 6 and 5: refused 9 5 6",
    "shifts 5 2 of 6 and 6: refused 4 1 2",
    "build 5 101 of 0 and 0: refused 3 101 100",
    "build 5 50 of 7 and 7: refused 9 7 6",
    "build 5 50 of 6 and 7: refused 9 7 6",
    "cycles 5 2 of 5 and 5 at 0: refused 3 0 1",
    "cycles 5 2 of 6 and 5 at 65536: refused 3 65536 65535",
    "cycles 5 2 of 6 and 5 at 1: refused 5 5 6",
    "cycles 5 2 of 6 and 6 at 1: refused 4 1 2",
];

pub fn text(input: &str) -> String {
    let mut text = String::new();
    shapes(&mut text, seed_of(input));
    cycles(&mut text);
    for line in REFUSALS {
        writeln!(text, "{line}").unwrap();
    }
    text
}
