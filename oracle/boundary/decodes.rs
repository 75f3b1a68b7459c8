//! Decodes: a start, one grant and a read. A case has a rate, n_tx, the kind of its readings, a draw and the limit.
use super::cases::{same, same_list, Case, Plan, Section};
use super::kinds::KINDS;
use super::lent::{Lent, Slice};
use super::random::{seed_of, Random};
use super::state::{Pair, Room, Truth};
use fuyegbo::{Decode, DecodeResult};

pub const SECTION: Section = Section {
    name: "decodes",
    about: "answers and whole work memories after a start, a grant and a read",
    cases,
    check,
    end: |_| Ok(String::new()),
    rates: 6,
    draws: 4,
};

/// The highest limit.
const LIMITS: usize = 60;

const MIDDLE: [usize; 14] = [
    120, 200, 307, 500, 777, 1_000, 1_500, 2_000, 3_001, 5_000, 7_777, 10_000, 13_333, 16_200,
];
const LONGEST: [usize; 6] = [19_379, 19_380, 19_381, 19_438, 19_439, 19_440];

/// How many draws a length gets.
fn draws(plan: Plan, n_tx: usize) -> usize {
    match n_tx {
        0..=80 => plan.of(24, 8),
        81..=2_000 => plan.of(24, 2),
        _ => plan.of(4, 1),
    }
}

fn lengths(plan: Plan) -> Vec<usize> {
    let mut all: Vec<usize> = (1..=80).collect();
    all.extend(MIDDLE.iter().step_by(plan.of(1, 4)));
    all.extend(LONGEST.iter().skip(plan.of(0, 5)));
    all
}

/// Limits are drawn from 0 to LIMITS; one draw of each three has a small one, where most decodes have not ended.
fn cases(plan: Plan) -> Vec<Case> {
    let mut cases = Vec::new();
    for n_tx in lengths(plan) {
        for draw in 0..draws(plan, n_tx) {
            for kind in 0..KINDS.len() {
                for rate in 0..6 {
                    let highest = if draw % 3 == 0 { 4 } else { LIMITS };
                    let drawn = seed_of(plan.seed, &[rate, n_tx, kind, draw]);
                    let limit = drawn as usize % (highest + 1);
                    cases.push(Case::new(rate, n_tx, kind, draw, limit));
                }
            }
        }
    }
    cases
}

/// Readings of the case's kind, of a drawn codeword.
pub fn readings(pair: &Pair, kind: usize, random: &mut Random) -> Result<Vec<f32>, String> {
    let info = random.bits(pair.k());
    let word = pair.theirs.encode(&info).map_err(|e| e.to_string())?;
    Ok(KINDS[kind % KINDS.len()].1(&word, random))
}

/// A difference, with the readings where they are few.
pub fn told_with(text: String, kind: usize, rx: &[f32]) -> String {
    let name = KINDS[kind % KINDS.len()].0;
    if rx.len() > 100 {
        return format!("readings '{name}': {text}");
    }
    let bits: Vec<String> = rx.iter().map(|x| format!("{:08x}", x.to_bits())).collect();
    format!(
        "readings '{name}', in hexadecimal: [{}]: {text}",
        bits.join(" ")
    )
}

/// What a read tells of a decode of the Rust.
pub fn told(truth: &Truth) -> DecodeResult {
    DecodeResult {
        iterations: truth.iterations as u16,
        converged: truth.converged,
        clean: truth.clean,
    }
}

fn check(room: &mut Room, case: Case) -> Result<usize, String> {
    let mut random = case.random(room, 3);
    let Some(pair) = room.pair(case.rate, case.n_tx) else {
        return Ok(0);
    };
    let rx = readings(&pair, case.kind, &mut random)?;
    let limit = case.limit as u16;
    compare(&pair, &rx, limit, &mut random).map_err(|text| told_with(text, case.kind, &rx))
}

/// The work memory holds anything at first, and may be longer than needed.
fn compare(pair: &Pair, rx: &[f32], limit: u16, random: &mut Random) -> Result<usize, String> {
    let truth = pair.decode(rx, limit)?;
    let room = pair.needed() + random.below(4);
    let mut work = Lent::drawn("work", room, random);
    let mut out = Lent::drawn("out", pair.n_tx(), random);
    let rx = Lent::new("rx", rx, random);
    let begun = Decode::start(&pair.ours(), rx.part(), work.part_mut());
    let mut decode = begun.map_err(|r| format!("start: {r}"))?;
    let granted = decode.grant(limit, work.part_mut());
    granted.map_err(|r| format!("grant: {r}"))?;
    let read = decode.read(work.part(), out.part_mut());
    same("read", read, Ok(told(&truth)))?;
    same_list("word", out.part(), &truth.word)?;
    pair.same_memory(work.part(), &truth)?;
    work.kept_but(pair.needed())?;
    out.guarded()?;
    rx.untouched()?;
    Ok(2)
}
