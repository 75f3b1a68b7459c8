//! Check lists, encodings and unsatisfied counts. A case has a rate, n_tx, a kind as numbered below, and a draw.
use super::cases::{same, same_list, Case, Plan, Section};
use super::lent::{Lent, Slice};
use super::random::Random;
use super::state::{bytes_of, Pair, Room};
use crate::parity_edges;
use fuyegbo::MAX_CODED_BITS;

pub const SECTION: Section = Section {
    name: "words",
    about: "the list of every check, and its parity bits; encodings; unsatisfied counts",
    cases,
    check,
    end: |_| Ok(String::new()),
    rates: 6,
    draws: 8,
};

const LISTS: usize = 0;
const ENCODING: usize = 1;
const COUNT: usize = 2;
const PARITY: usize = 3;

/// The longest codes, and those where the lift changes.
const LONG: [usize; 8] = [
    19_440, 19_439, 19_411, 19_381, 19_380, 19_379, 19_321, 19_320,
];

/// Every short length, a spread, and the longest.
fn lengths(plan: Plan) -> Vec<usize> {
    let mut all: Vec<usize> = (1..=200).collect();
    all.extend((201..1_000).step_by(plan.of(7, 97)));
    all.extend((1_000..19_300).step_by(plan.of(61, 3_011)));
    all.extend(LONG.iter().rev().skip(plan.of(0, 6)));
    all
}

fn cases(plan: Plan) -> Vec<Case> {
    let mut cases = Vec::new();
    for n_tx in lengths(plan) {
        let draws = plan.of(if n_tx <= 1_000 { 8 } else { 4 }, 2);
        for rate in 0..6 {
            cases.push(Case::new(rate, n_tx, LISTS, 0, 0));
            if n_tx <= 200 || n_tx == MAX_CODED_BITS {
                cases.push(Case::new(rate, n_tx, PARITY, 0, 0));
            }
            for draw in 0..draws {
                cases.push(Case::new(rate, n_tx, ENCODING, draw, 0));
                cases.push(Case::new(rate, n_tx, COUNT, draw, 0));
            }
        }
    }
    cases
}

fn check(room: &mut Room, case: Case) -> Result<usize, String> {
    let mut random = case.random(room, 2);
    let Some(pair) = room.pair(case.rate, case.n_tx) else {
        return Ok(0);
    };
    match case.kind {
        LISTS => lists(&pair, &mut random),
        ENCODING => encoding(&pair, &mut random),
        PARITY => parity(&pair),
        _ => count(&pair, &mut random),
    }
}

/// The list of every check, each in room of its own size or a little more.
fn lists(pair: &Pair, random: &mut Random) -> Result<usize, String> {
    for check in 0..pair.theirs.checks() {
        let wanted = pair.members(check);
        let room = wanted.len() + random.below(3);
        let mut out = Lent::drawn("out", room, random);
        let told = pair.ours().check_members(check, out.part_mut());
        let what = format!("members of check {check}");
        same(&what, told, Ok(wanted.len()))?;
        same_list(&what, &out.part()[..wanted.len()], &wanted)?;
        out.kept_but(wanted.len())?;
    }
    Ok(pair.theirs.checks())
}

/// The parity bits of every check, which xtask's `parity_edges` tells too.
fn parity(pair: &Pair) -> Result<usize, String> {
    let (z, (_, _, m_b)) = (pair.theirs.lift(), pair.theirs.base_shape());
    let edges = parity_edges(m_b);
    for check in 0..m_b * z {
        let (row, t) = (check / z, check % z);
        let of_row = edges.iter().filter(|edge| edge.0 == row);
        let bit = |&(_, column, shift): &(usize, usize, u16)| {
            (pair.k() + column * z + (t + shift as usize) % z) as u32
        };
        let wanted: Vec<u32> = of_row.map(bit).collect();
        let mut out = [0; 64];
        let what = format!("parity bits of check {check}");
        let told = pair.ours().check_members(check, &mut out);
        let n = told.map_err(|r| format!("{what}: {r}"))?;
        same_list(&what, &out[n.saturating_sub(wanted.len())..n], &wanted)?;
    }
    Ok(m_b * z)
}

fn encoding(pair: &Pair, random: &mut Random) -> Result<usize, String> {
    let info = random.bits(pair.k());
    let wanted = pair.theirs.encode(&info).map_err(|e| e.to_string())?;
    let mut out = Lent::drawn("out", pair.n_tx(), random);
    let told = pair.ours().encode(&bytes_of(&info), out.part_mut());
    same("encoding", told, Ok(()))?;
    same_list("encoding", out.part(), &bytes_of(&wanted))?;
    out.guarded()?;
    Ok(1)
}

/// Drawn words, and codewords with no bit or a few turned; of the right length, shorter or longer.
fn word(pair: &Pair, random: &mut Random) -> Result<Vec<bool>, String> {
    let n_tx = pair.n_tx();
    let mut word = random.bits(n_tx);
    if random.bit() {
        let info = random.bits(pair.k());
        word = pair.theirs.encode(&info).map_err(|e| e.to_string())?;
        for _ in 0..random.below(4) {
            word[random.below(n_tx)] ^= true;
        }
    }
    match random.below(4) {
        0 => word.truncate(random.below(n_tx + 1)),
        1 => word.extend(random.bits(1 + n_tx / 2)),
        _ => {}
    }
    Ok(word)
}

fn count(pair: &Pair, random: &mut Random) -> Result<usize, String> {
    for _ in 0..4 {
        let word = word(pair, random)?;
        let told = pair.ours().unsatisfied(&bytes_of(&word));
        let what = format!("unsatisfied of {} bits", word.len());
        same(&what, told, Ok(pair.theirs.unsatisfied(&word)))?;
    }
    Ok(4)
}
