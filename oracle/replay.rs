//! What crates/replay prints: see its src/ for the inputs, which are computed here once more.
use super::{checksum, family, random, refused, word_text};
use lcr_core::ecc::ldpc::Code;
use std::fmt::Write;

/// The codes of which all is asked: ten of the tiny family, nine of the small one, twelve of the large one.
const CODES: [(usize, usize); 31] = [
    (1, 4),
    (2, 5),
    (3, 6),
    (4, 7),
    (5, 8),
    (5, 10),
    (4, 21),
    (4, 22),
    (5, 22),
    (5, 26),
    (0, 4),
    (0, 9),
    (1, 15),
    (2, 21),
    (3, 20),
    (4, 33),
    (4, 66),
    (5, 39),
    (5, 78),
    (0, 10),
    (0, 60),
    (0, 61),
    (1, 120),
    (2, 200),
    (3, 307),
    (1, 400),
    (4, 500),
    (0, 777),
    (2, 960),
    (5, 841),
    (3, 1000),
];

/// The lengths at which a code is chosen: all up to 400, every 487th, and those next to every 25th multiple of 60.
fn lengths() -> Vec<usize> {
    let around = (24..=324)
        .step_by(25)
        .flat_map(|m| [60 * m - 1, 60 * m, 60 * m + 1]);
    let spread = (487..19_440)
        .step_by(487)
        .chain(around.filter(|&n| n <= 19_440));
    (0..=400).chain(spread).collect()
}

fn choice(rate: usize, n_tx: usize) -> String {
    match Code::new(rate, n_tx) {
        Ok(c) => format!(
            "{} {} {} {}",
            family(&c),
            c.lift(),
            c.info_bits(),
            c.shortened_bits()
        ),
        Err(e) => refused(1, e),
    }
}

fn getters(text: &mut String, rate: usize, c: &Code) {
    let (n, k) = (c.coded_bits(), c.info_bits());
    let (z, shortened, checks) = (c.lift(), c.shortened_bits(), c.checks());
    let (n_b, k_b, m_b) = c.base_shape();
    writeln!(
        text,
        "code {rate} {n} {k} {z} {shortened} {checks} {n_b} {k_b} {m_b}"
    )
    .unwrap();
}

fn edges(text: &mut String, c: &Code) {
    let edges = c.base_edges();
    let h = checksum(
        edges
            .iter()
            .flat_map(|&(row, column, shift)| [row, column, shift as usize]),
    );
    writeln!(text, "edges {h} count {}", edges.len()).unwrap();
}

/// The check lists, in full where there are few.
fn checks(text: &mut String, c: &Code) {
    for check in 0..c.checks() {
        let members = c.check_members(check);
        let count = members.len();
        if c.checks() <= 40 {
            let places: Vec<String> = members.iter().map(|p| p.to_string()).collect();
            writeln!(text, "list {check} {} count {count}", places.join(" ")).unwrap();
        } else {
            let h = checksum(members.into_iter());
            writeln!(text, "sum {check} {h} count {count}").unwrap();
        }
    }
}

fn encoded(c: &Code, info: &[bool]) -> String {
    match c.encode(info) {
        Ok(word) => word_text(&word, 200),
        Err(e) => refused(5, e),
    }
}

/// An encoding, its unsatisfied counts as it is and with bits changed, and an encoding of too many bits.
fn encoding(text: &mut String, c: &Code, seed: usize) {
    let (k, n) = (c.info_bits(), c.coded_bits());
    let info = random(seed, k);
    writeln!(text, "encoding {}", encoded(c, &info)).unwrap();
    let mut word = c.encode(&info).unwrap();
    writeln!(text, "encoded {}", c.unsatisfied(&word)).unwrap();
    word[n / 3] ^= true;
    writeln!(text, "flipped {}", c.unsatisfied(&word)).unwrap();
    word[n - n / 4] ^= true;
    word[0] ^= true;
    writeln!(text, "flipped {}", c.unsatisfied(&word)).unwrap();
    writeln!(text, "encoding {}", encoded(c, &vec![false; n])).unwrap();
}

/// Unsatisfied counts of words of several lengths.
fn unsatisfied(text: &mut String, c: &Code, seed: usize) {
    let n = c.coded_bits();
    let mut word = random(seed, n);
    word.resize(1_050, true);
    writeln!(text, "random {}", c.unsatisfied(&word[..n])).unwrap();
    for short in [n - n / 4, n / 2, 0] {
        writeln!(text, "short {}", c.unsatisfied(&word[..short])).unwrap();
    }
    writeln!(text, "long {}", c.unsatisfied(&word)).unwrap();
}

pub fn text() -> String {
    let mut text = String::new();
    for n_tx in lengths() {
        for rate in 0..8 {
            writeln!(text, "choice {rate} {n_tx} {}", choice(rate, n_tx)).unwrap();
        }
    }
    for (rate, n_tx) in CODES {
        let c = Code::new(rate, n_tx).unwrap();
        getters(&mut text, rate, &c);
        edges(&mut text, &c);
        checks(&mut text, &c);
        encoding(&mut text, &c, 2026);
        encoding(&mut text, &c, 777);
        unsatisfied(&mut text, &c, 4321);
    }
    text
}
