//! What crates/decodes prints: see its src/ for the inputs, and crates/readings for the readings, which are computed here
//! once more.
use super::{random, states, word_text};
use lcr_core::ecc::ldpc::Code;
use std::fmt::Write;

/// The codes of which decodes are asked: of the tiny family, of the small one, of the large one.
const CODES: [(usize, usize); 20] = [
    (5, 8),
    (5, 10),
    (9, 10),
    (4, 22),
    (5, 22),
    (0, 4),
    (0, 9),
    (2, 21),
    (4, 33),
    (5, 78),
    (0, 10),
    (0, 60),
    (0, 61),
    (5, 60),
    (1, 120),
    (2, 200),
    (3, 307),
    (4, 500),
    (0, 777),
    (3, 1000),
];

const LIMITS: [u16; 5] = [0, 1, 2, 5, 50];

/// −1 for a one, 1 for a zero.
fn signed(bit: bool) -> f32 {
    if bit {
        -1.0
    } else {
        1.0
    }
}

/// Zeros, infinities, a NaN, denormals, the largest finite numbers, and small and large ones.
fn awkward(i: usize) -> f32 {
    let zero = 0f32;
    let inf = 1.0 / zero;
    [
        0.0,
        -0.0,
        inf,
        -inf,
        zero / zero,
        1e-45,
        -1e-45,
        1e-39,
        f32::MAX,
        -f32::MAX,
        1e-30,
        -1e-30,
        1e8,
        -1e8,
        1.0,
        -1.0,
    ][i % 16]
}

/// A sign with noise up to 1.25 on it.
fn noisy(bit: bool, s: usize) -> f32 {
    signed(bit) + ((s / 2 % 32_768) as u16 as f32 - 16_384.0) * 0.0000762939453125
}

/// The reading of a bit, by a kind and a state of the generator.
fn reading(kind: usize, bit: bool, s: usize) -> f32 {
    match kind {
        0 => signed(bit ^ (s % 64 == 1)),
        1 => signed(bit ^ (s % 16 == 1)) * [0.5, 1.0, 1.5, 2.0][s / 16 % 4],
        2 => signed(bit ^ (s % 16 == 1)) * 0.1,
        3 => awkward(s / 16),
        4 => noisy(bit, s),
        _ if s % 32 == 1 => awkward(s / 32),
        _ => noisy(bit, s),
    }
}

fn decodes(text: &mut String, rate: usize, c: &Code, kind: usize, seed: usize) {
    let n = c.coded_bits();
    let word = c.encode(&random(4321, c.info_bits())).unwrap();
    let rx: Vec<f32> = states(seed)
        .zip(&word)
        .map(|(s, &bit)| reading(kind, bit, s))
        .collect();
    for limit in LIMITS {
        let d = c.decode(&rx, limit).unwrap();
        let (i, converged) = (d.iterations, d.converged as u8);
        let word = word_text(&d.codeword, 78);
        writeln!(
            text,
            "decode {rate} {n} {kind} {seed} {limit} {i} {converged} {word}"
        )
        .unwrap();
    }
}

pub fn text() -> String {
    let mut text = String::new();
    for (rate, n_tx) in CODES {
        let c = Code::new(rate, n_tx).unwrap();
        for kind in 0..6 {
            for seed in [2026, 777] {
                decodes(&mut text, rate, &c, kind, seed);
            }
        }
    }
    text
}
