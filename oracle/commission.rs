//! What crates/commission prints: the codes, the encodings, the decodes and the four-cycles of 01's commissioning table, each as the Rust
//! answers it, held to what 01 says of it.
use super::{digits, family, refused};
use crate::{four_cycles, Base};
use lcr_core::ecc::ldpc::Code;
use std::fmt::Write;

/// A row of the codes: whether it is starred, the rate, n_tx, and what 01 says.
type Row = (bool, usize, usize, &'static str);

/// The row (9, 10) says "as (5, 10)", which stands apart.
const CODES: [Row; 14] = [
    (true, 0, 3, "refused 1"),
    (true, 0, 4, "small, k 1, shortened 16"),
    (true, 0, 9, "small, k 6"),
    (true, 0, 10, "large, k 1, shortened 50"),
    (true, 4, 10, "tiny, k 4"),
    (true, 4, 11, "refused 1"),
    (false, 4, 12, "small, k 1"),
    (false, 5, 20, "small, k 7"),
    (true, 5, 21, "refused 1"),
    (true, 5, 22, "tiny, z 3, k 1"),
    (false, 9, 10, ""),
    (false, 0, 61, "z 2, k 43"),
    (false, 0, 19_440, "z 324, k 16524"),
    (false, 0, 19_441, "refused 2"),
];

/// The rate, n_tx, the information and its encoding by 01; each is starred.
const ENCODINGS: [(usize, usize, &str, &str); 3] = [
    (5, 10, "100", "1001001011"),
    (5, 10, "010", "0101100001"),
    (5, 22, "1", "1100101101111110100100"),
];

/// A decode of readings of one size, negative at some places, with a limit.
struct Decoding {
    starred: bool,
    rate: usize,
    n_tx: usize,
    size: f32,
    negative: &'static [usize],
    limit: u16,
    said: &'static str,
}

/// 01's "with 0 grants" is a limit of 0; 50 is the Rust's own limit.
const DECODES: [Decoding; 3] = [
    Decoding {
        starred: true,
        rate: 5,
        n_tx: 10,
        size: 1.0,
        negative: &[0],
        limit: 1,
        said: "0000000000, iterations 1, clean",
    },
    Decoding {
        starred: false,
        rate: 5,
        n_tx: 10,
        size: 1.0,
        negative: &[0],
        limit: 0,
        said: "1000000000, not converged",
    },
    Decoding {
        starred: true,
        rate: 5,
        n_tx: 9,
        size: 1e8,
        negative: &[2, 3, 6],
        limit: 50,
        said: "001100100, iterations 1, converged, not clean, unsatisfied 3",
    },
];

/// What the Rust chooses; it has no refusal 2, so that one is by 01 alone.
fn choice(rate: usize, n_tx: usize) -> String {
    if n_tx > 19_440 {
        return format!("refused 2 {n_tx} 19440");
    }
    match Code::new(rate, n_tx) {
        Ok(c) => {
            let name = ["large", "small", "tiny"][family(&c)];
            let (z, k, shortened) = (c.lift(), c.info_bits(), c.shortened_bits());
            format!("{name}, z {z}, k {k}, shortened {shortened}")
        }
        Err(e) => refused(1, e),
    }
}

/// Whether an answer has every part of what 01 says.
fn holds(answer: &str, said: &str) -> bool {
    let refusal = said.starts_with("refused");
    let parts: Vec<&str> = answer.split(", ").collect();
    said.is_empty()
        || (refusal && answer.starts_with(&format!("{said} ")))
        || (!refusal && said.split(", ").all(|part| parts.contains(&part)))
}

fn code((starred, rate, n_tx, said): Row) -> String {
    let answer = choice(rate, n_tx);
    assert!(
        holds(&answer, said),
        "01 says of ({rate},{n_tx}) {said}, the Rust {answer}"
    );
    let star = if starred { "*" } else { "" };
    let line = format!("{star}({rate},{n_tx}): {answer}");
    if rate <= 5 {
        return line;
    }
    let other = choice(5, n_tx);
    assert_eq!(answer, other, "01 says that rate {rate} counts as 5");
    format!("{line}, as (5,{n_tx}): {other}")
}

fn encoding(rate: usize, n_tx: usize, info: &str, said: &str) -> String {
    let bits: Vec<bool> = info.chars().map(|c| c == '1').collect();
    let word = digits(&Code::new(rate, n_tx).unwrap().encode(&bits).unwrap());
    assert_eq!(word, said, "the encoding of {info} at ({rate},{n_tx})");
    format!("*({rate},{n_tx}) {info} gives {word}")
}

fn whether(so: bool, what: &str) -> String {
    format!("{}{what}", if so { "" } else { "not " })
}

/// What the Rust decodes. It has no clean flag, which is computed here as 01 says.
fn decoded(d: &Decoding) -> String {
    let c = Code::new(d.rate, d.n_tx).unwrap();
    let sign = |i| if d.negative.contains(&i) { -1.0 } else { 1.0 };
    let rx: Vec<f32> = (0..d.n_tx).map(|i| sign(i) * d.size).collect();
    let r = c.decode(&rx, d.limit).unwrap();
    let unsatisfied = c.unsatisfied(&r.codeword);
    format!(
        "{}, iterations {}, {}, {}, unsatisfied {unsatisfied}",
        digits(&r.codeword),
        r.iterations,
        whether(r.converged, "converged"),
        whether(r.converged && unsatisfied == 0, "clean"),
    )
}

fn decoding(d: &Decoding) -> String {
    let answer = decoded(d);
    let places: Vec<String> = d.negative.iter().map(|p| p.to_string()).collect();
    let grants = if d.limit == 0 { ", with 0 grants" } else { "" };
    let asked = format!(
        "({},{}) readings {}, negative at {}{grants}",
        d.rate,
        d.n_tx,
        d.size,
        places.join(" ")
    );
    let said = d.said;
    assert!(
        holds(&answer, said),
        "01 says of {asked} {said}, the Rust {answer}"
    );
    format!("{}{asked}: {answer}", if d.starred { "*" } else { "" })
}

/// The row of two columns and their four-cycles at two lifts.
fn cycles() -> String {
    let info = vec![[(0, 0), (1, 0), (2, 0)], [(0, 0), (1, 0), (2, 1)]];
    let b = Base { n_b: 5, k_b: 2, m_b: 3, info };
    let counts = (four_cycles(&b, 5), four_cycles(&b, 1));
    assert_eq!(counts, (1, 3), "the four-cycles of 01's two columns");
    let columns: Vec<String> = b.info.iter().map(|c| pairs(c)).collect();
    let (at_5, at_1) = counts;
    format!("columns {}, n_b 5: four-cycles at z 5: {at_5}, at z 1: {at_1}", columns.join(" and "))
}

fn pairs(column: &[(u8, u16)]) -> String {
    column.iter().map(|(r, s)| format!("({r},{s})")).collect()
}

pub fn text() -> String {
    let mut text = String::new();
    for row in CODES {
        writeln!(text, "{}", code(row)).unwrap();
    }
    for (rate, n_tx, info, said) in ENCODINGS {
        writeln!(text, "{}", encoding(rate, n_tx, info, said)).unwrap();
    }
    for d in &DECODES {
        writeln!(text, "{}", decoding(d)).unwrap();
    }
    writeln!(text, "{}", cycles()).unwrap();
    text
}
