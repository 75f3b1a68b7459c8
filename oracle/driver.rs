//! The answers of the Rust as published, in the plain text that the programs under crates/ print. `compare` puts this file
//! in the place of the module `vectors` of xtask's main.rs, which it builds as it stands: so the functions of main.rs, which are
//! private there, can be called here. The second argument is the program's name.
use lcr_core::ecc::{ldpc::Code, tables};
use lcr_core::error::LcrError;
use std::fmt::Write;

mod commission;
mod decodes;
mod designs;
mod rebuild;
mod replay;

/// A line with the family, the rate, n_b, k_b and m_b, then a line for each information column.
fn graphs() -> String {
    let mut text = String::new();
    let families = [
        tables::BY_RATE_LARGE,
        tables::BY_RATE_SMALL,
        tables::BY_RATE_TINY,
    ];
    for (family, graphs) in families.iter().enumerate() {
        for (rate, g) in graphs.iter().enumerate() {
            writeln!(text, "{family} {rate} {} {} {}", g.n_b, g.k_b, g.m_b).unwrap();
            for column in g.info {
                let pairs: Vec<String> = column.iter().map(|(r, s)| format!("{r} {s}")).collect();
                writeln!(text, "{}", pairs.join(" ")).unwrap();
            }
        }
    }
    text
}

/// The family of a code, which the Rust does not tell: it is known by the number of base columns.
fn family(code: &Code) -> usize {
    match code.base_shape().0 {
        60 => 0,
        20 => 1,
        10 => 2,
        n_b => panic!("no family has {n_b} base columns"),
    }
}

/// The one error of these calls, with the number that 01 gives it: 1 of a choice, 5 of an encoding.
fn refused(number: usize, error: LcrError) -> String {
    match error {
        LcrError::Capacity { needed, available } => {
            format!("refused {number} {needed} {available}")
        }
        other => panic!("no refusal: {other:?}"),
    }
}

/// Bits as digits.
fn digits(bits: &[bool]) -> String {
    bits.iter().map(|&b| if b { '1' } else { '0' }).collect()
}

/// The generator's states after a seed.
fn states(seed: usize) -> impl Iterator<Item = usize> {
    std::iter::successors(Some(seed), |s| Some(s % 65_537 * 75 % 65_537)).skip(1)
}

/// The bits of the generator.
fn random(seed: usize, n: usize) -> Vec<bool> {
    states(seed).take(n).map(|s| s % 2 == 1).collect()
}

fn checksum(numbers: impl Iterator<Item = usize>) -> usize {
    numbers.fold(0, |h, x| (h * 31 + x) % 65_521)
}

/// A word of up to `full` bits as it is, a longer one by its checksum.
fn word_text(word: &[bool], full: usize) -> String {
    if word.len() <= full {
        return digits(word);
    }
    let h = checksum(word.iter().map(|&b| b as usize));
    format!("sum {h} count {}", word.len())
}

/// xtask prints this for its task `vectors`.
pub fn report() -> String {
    let args: Vec<String> = std::env::args().skip(2).collect();
    match args[0].as_str() {
        "graphs" => graphs(),
        "replay" => replay::text(),
        "decodes" => decodes::text(),
        "commission" => commission::text(),
        "rebuild" => rebuild::text(),
        "designs" => designs::text(args.get(1).map_or("", |s| s)),
        other => panic!("no such program: {other:?}"),
    }
}
