//! The calls of graph design with random arguments, as refusals.rs has them of codes.
use super::cases::{same, same_list};
use super::faults::*;
use super::graphs::{rows as legal_rows, rows_of, seed, shifts_of};
use super::lent::Lent;
use super::random::Random;
use super::state::Room;
use crate::{assign_shifts as their_shifts, build as their_build, four_cycles as their_cycles};
use crate::{peg as their_peg, Base};

/// A number from `low` to `high`, or a little or far outside.
fn drawn(low: usize, high: usize, random: &mut Random) -> usize {
    if !random.one_in(RARE) {
        return low + random.below(high - low + 1);
    }
    match random.below(4) {
        0 => high + 1 + random.below(3),
        1 => low.saturating_sub(1 + random.below(2)),
        2 => random.pick(&[low, high, 0]),
        _ => any_number(random),
    }
}

/// A design value outside its range, with the limit that it breaks.
fn outside(value: usize, low: usize, high: usize) -> Verdict {
    first(&[
        (value < low, (3, [value, low])),
        (value > high, (3, [value, high])),
    ])
}

/// n_b, then k_b.
fn no_shape(n_b: usize, k_b: usize) -> Verdict {
    outside(n_b, 4, 64).or_else(|| outside(k_b, 1, n_b - 3))
}

/// n_b, then the percentage.
fn no_percentage(n_b: usize, percent: usize) -> Verdict {
    outside(n_b, 4, 64).or_else(|| outside(percent, 0, 100))
}

/// n_b: the case's greatest length, where it is one, is the greatest here too. Large graphs take long.
fn columns_of(most: usize, random: &mut Random) -> usize {
    let most = if random.one_in(8) { most } else { most.min(14) };
    drawn(4, most.clamp(4, 64), random)
}

/// n_b and a k_b that mostly goes with it.
fn shape(most: usize, random: &mut Random) -> (usize, usize) {
    let n_b = columns_of(most, random);
    let most = n_b.clamp(4, 64) - 3;
    (n_b, drawn(1, most, random))
}

/// How many rows and shifts go with k_b; of one out of range, not too many.
fn edges(k_b: usize) -> usize {
    3 * k_b.min(70)
}

/// The first row not below m_b or repeated in its column.
fn no_row(rows: &[u8], m_b: usize) -> Verdict {
    for (i, &row) in rows.iter().enumerate() {
        let (column, place) = (i / 3, i % 3);
        if row as usize >= m_b || rows[3 * column..i].contains(&row) {
            return Some((4, [column, place]));
        }
    }
    None
}

/// Rows of that many places: legal ones, at times with a fault, and at times any.
fn rows(n_b: usize, k_b: usize, len: usize, random: &mut Random) -> Lent<u8> {
    let mut rows = Vec::new();
    if no_shape(n_b, k_b).is_none() && !random.one_in(RARE) {
        rows = legal_rows(n_b, k_b, random).concat();
        if random.one_in(4) {
            for _ in 0..1 + random.below(3) {
                let (place, m_b) = (random.below(rows.len()), n_b - k_b);
                let other = rows[random.below(rows.len())];
                rows[place] = random.pick(&[m_b as u8, other, m_b as u8 + 1, 255]);
            }
        }
    }
    while rows.len() < len {
        rows.push(random.next() as u8);
    }
    rows.truncate(len);
    Lent::new("rows", &rows, random)
}

fn columns(rows: &[u8]) -> Vec<[u8; 3]> {
    rows.chunks(3).map(|c| [c[0], c[1], c[2]]).collect()
}

/// The answer's size, and then the rest.
fn after_answer(answer: &Lent<usize>, rest: impl FnOnce() -> Verdict) -> Verdict {
    match answered(answer) {
        Err(refused) => Some(refused),
        Ok(()) => rest(),
    }
}

pub fn information_columns(
    _: &mut Room,
    most: usize,
    random: &mut Random,
) -> Result<usize, String> {
    let (n_b, percent) = (columns_of(most, random), drawn(0, 100, random));
    let mut answer = answer(random);
    let verdict = after_answer(&answer, || no_percentage(n_b, percent));
    let number = call!(fuyegbo_information_columns() n_b percent write answer);
    let name = format!("fuyegbo_information_columns, n_b {n_b}, percent {percent}");
    let trial = Trial::new(name, number, verdict, &answer);
    // graphs.rs holds the same to the Rust, at every n_b and percentage
    let wanted = if verdict.is_none() {
        (n_b * percent / 100).clamp(1, n_b - 3)
    } else {
        0
    };
    trial.judge(&[], &[], &[wanted], || Ok(()))
}

pub fn peg(_: &mut Room, most: usize, random: &mut Random) -> Result<usize, String> {
    let (n_b, k_b) = shape(most, random);
    let mut rows = Lent::drawn("rows", size(edges(k_b), random), random);
    let mut answer = answer(random);
    let verdict = after_answer(&answer, || {
        no_shape(n_b, k_b).or_else(|| first(&[length(9, rows.len(), 3 * k_b)]))
    });
    let number = call!(fuyegbo_peg() n_b k_b write rows write answer);
    let name = format!("fuyegbo_peg, n_b {n_b}, k_b {k_b}");
    let trial = Trial::new(name, number, verdict, &answer);
    trial.judge(&[], &[&rows], &[], || {
        same_list("rows", rows.part(), &their_peg(n_b, k_b).concat())
    })
}

pub fn assign_shifts(_: &mut Room, most: usize, random: &mut Random) -> Result<usize, String> {
    let (n_b, k_b) = shape(most, random);
    let seed = seed(random);
    let len = size(edges(k_b), random);
    let rows = rows(n_b, k_b, len, random);
    let mut shifts = Lent::drawn("shifts", size(edges(k_b), random), random);
    let mut answer = answer(random);
    let verdict = after_answer(&answer, || {
        no_shape(n_b, k_b)
            .or_else(|| first(&[length(5, rows.len(), 3 * k_b)]))
            .or_else(|| first(&[length(9, shifts.len(), 3 * k_b)]))
            .or_else(|| no_row(rows.part(), n_b - k_b))
    });
    let number = call!(fuyegbo_assign_shifts() n_b k_b read rows seed write shifts write answer);
    let name = format!("fuyegbo_assign_shifts, n_b {n_b}, k_b {k_b}, seed {seed:#x}");
    let trial = Trial::new(name, number, verdict, &answer);
    trial.judge(&[&rows], &[&shifts], &[], || {
        let wanted = their_shifts(n_b, k_b, &columns(rows.part()), seed);
        same_list("shifts", shifts.part(), &shifts_of(&wanted))
    })
}

pub fn build(_: &mut Room, most: usize, random: &mut Random) -> Result<usize, String> {
    let n_b = columns_of(most, random);
    let (percent, seed) = (drawn(0, 100, random), seed(random));
    let bad = no_percentage(n_b, percent);
    let wanted = bad.is_none().then(|| their_build(n_b, percent, seed));
    let k_b = wanted.as_ref().map_or(1, |b| b.k_b);
    let mut rows = Lent::drawn("rows", size(edges(k_b), random), random);
    let mut shifts = Lent::drawn("shifts", size(edges(k_b), random), random);
    let mut answer = answer(random);
    let verdict = after_answer(&answer, || {
        bad.or_else(|| first(&[length(9, rows.len(), 3 * k_b)]))
            .or_else(|| first(&[length(9, shifts.len(), 3 * k_b)]))
    });
    let number = call!(fuyegbo_build() n_b percent seed write rows write shifts write answer);
    let name = format!("fuyegbo_build, n_b {n_b}, percent {percent}, seed {seed:#x}");
    let trial = Trial::new(name, number, verdict, &answer);
    trial.judge(&[], &[&rows, &shifts], &[], || {
        let info = wanted.map_or(Vec::new(), |b| b.info);
        same_list("rows", rows.part(), &rows_of(&info))?;
        same_list("shifts", shifts.part(), &shifts_of(&info))
    })
}

/// The count of legal columns.
fn cycles(n_b: usize, k_b: usize, rows: &[u8], shifts: &[u16], z: usize) -> usize {
    let pairs: Vec<(u8, u16)> = rows.iter().copied().zip(shifts.iter().copied()).collect();
    let info = pairs.chunks(3).map(|c| [c[0], c[1], c[2]]).collect();
    let b = Base {
        n_b,
        k_b,
        m_b: n_b - k_b,
        info,
    };
    their_cycles(&b, z as u16)
}

pub fn four_cycles(_: &mut Room, most: usize, random: &mut Random) -> Result<usize, String> {
    let (n_b, k_b) = shape(most, random);
    let z = drawn(1, random.pick(&[4, 512, 65_535]), random);
    let len = size(edges(k_b), random);
    let rows = rows(n_b, k_b, len, random);
    let shifts = Lent::drawn("shifts", size(edges(k_b), random), random);
    let mut answer = answer(random);
    let verdict = after_answer(&answer, || {
        no_shape(n_b, k_b)
            .or_else(|| outside(z, 1, 65_535))
            .or_else(|| first(&[length(5, rows.len(), 3 * k_b)]))
            .or_else(|| first(&[length(5, shifts.len(), 3 * k_b)]))
            .or_else(|| no_row(rows.part(), n_b - k_b))
    });
    let number = call!(fuyegbo_four_cycles() n_b k_b read rows read shifts z write answer);
    let name = format!("fuyegbo_four_cycles, n_b {n_b}, k_b {k_b}, z {z}");
    let trial = Trial::new(name, number, verdict, &answer);
    let accepted = verdict.is_none();
    let told = if accepted {
        cycles(n_b, k_b, rows.part(), shifts.part(), z)
    } else {
        0
    };
    trial.judge(&[&rows, &shifts], &[], &[told], || {
        same("accepted", accepted, true)
    })
}
