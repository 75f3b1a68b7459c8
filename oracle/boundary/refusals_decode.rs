//! The calls on decodes with random arguments, as refusals.rs has them of codes.
use super::cases::{same, same_list};
use super::faults::*;
use super::lent::{Lent, Number};
use super::random::Random;
use super::refusals::{choice, rate_and_length};
use super::state::{bytes_of, Pair, Room};
use fuyegbo::MAX_CODED_BITS;
use std::rc::Rc;

/// The most iterations of an accepted call, so that a long code takes little time.
const FEW: usize = 12;

fn readings(len: usize, random: &mut Random) -> Lent<f32> {
    let noise: Vec<f32> = (0..len).map(|_| 0.7 + random.gauss() as f32).collect();
    if random.bit() {
        return Lent::drawn("rx", len, random);
    }
    Lent::new("rx", &noise, random)
}

pub fn start(room: &mut Room, most: usize, random: &mut Random) -> Result<usize, String> {
    let (pair, record) = record(room, most, CODE, random);
    let rx = readings(size(pair.n_tx(), random), random);
    let mut work = work(pair.needed(), random);
    let mut decode = Lent::drawn("decode", size(DECODE, random), random);
    let mut answer = answer(random);
    let code = code_of(room, &answer, &record, CODE, Some(&decode));
    let verdict = match &code {
        Err(refused) => Some(*refused),
        Ok(p) => first(&[length(5, rx.len(), p.n_tx()), short(work.len(), p.needed())]),
    };
    let number = call!(fuyegbo_start() read record read rx write work write decode write answer);
    let trial = Trial::new("fuyegbo_start", number, verdict, &answer);
    trial.judge(&[&record, &rx], &[&work, &decode], &[], || {
        let pair = code.map_err(|refused| format!("{refused:?}"))?;
        same("record", decode.part(), &[record.part(), &[0, 0]].concat())?;
        pair.same_memory(work.part(), &pair.decode(rx.part(), 0)?)?;
        work.kept_but(pair.needed())
    })
}

/// A grant of few iterations where it is accepted, and else any.
fn grant_size(accepted: bool, iterations: usize, random: &mut Random) -> u16 {
    let rest = 65_535 - iterations.min(65_535);
    match random.below(4) {
        _ if !accepted => random.next() as u16,
        0 if iterations > 0 => (rest + 1 + random.below(iterations)) as u16,
        1 => rest.min(FEW) as u16,
        _ => random.below(FEW) as u16,
    }
}

/// What an accepted grant leaves as it was: the code's numbers, and all of a decode that had converged.
fn granted(pair: &Pair, decode: &Lent<usize>, g: u16, work: &Lent<f32>) -> Result<(), String> {
    let (was, is) = (decode.old(), decode.part());
    same("code of the record", &is[..CODE], &was[..CODE])?;
    let done = is[6].wrapping_sub(was[6]);
    let whole = done == g as usize && is[7] <= 1;
    let ended = done > 0 && done <= g as usize && is[7] == 1;
    if was[7] == 1 || g == 0 {
        same("record", is, was)?;
        return work.kept_but(0);
    }
    same(
        "iterations granted, or converged earlier",
        whole || ended,
        true,
    )?;
    let n = pair.places();
    let channel = |part: &[f32]| part[..n].iter().map(|x| x.raw()).collect::<Vec<u64>>();
    same_list("channel", &channel(work.part()), &channel(work.old()))?;
    work.kept_but(pair.needed())
}

pub fn grant(room: &mut Room, most: usize, random: &mut Random) -> Result<usize, String> {
    let (pair, record) = record(room, most, DECODE, random);
    let mut decode = record;
    let mut work = work(pair.needed(), random);
    let mut answer = answer(random);
    let code = code_of(room, &answer, &decode, DECODE, None);
    let mut verdict = match &code {
        Err(refused) => Some(*refused),
        Ok(pair) => first(&[short(work.len(), pair.needed())]),
    };
    let iterations = decode.part().get(6).copied().unwrap_or(0);
    let g = grant_size(verdict.is_none(), iterations, random);
    if verdict.is_none() {
        let all = iterations + g as usize;
        verdict = first(&[(all > 65_535, (10, [all, 65_535]))]);
    }
    let number = call!(fuyegbo_grant() write decode g write work write answer);
    let name = format!("fuyegbo_grant, g {g}");
    let trial = Trial::new(name, number, verdict, &answer);
    trial.judge(&[], &[&decode, &work], &[], || {
        let pair = code.map_err(|refused| format!("{refused:?}"))?;
        granted(&pair, &decode, g, &work)
    })
}

/// The decisions on any totals, in transmitted order.
fn word(pair: &Pair, work: &[f32]) -> Vec<bool> {
    let n = pair.places();
    let (_, k_b, _) = pair.theirs.base_shape();
    let totals = &work[n..2 * n];
    let parity = &totals[k_b * pair.theirs.lift()..];
    totals[..pair.k()]
        .iter()
        .chain(parity)
        .map(|&x| x < 0.0)
        .collect()
}

pub fn read(room: &mut Room, most: usize, random: &mut Random) -> Result<usize, String> {
    let (pair, decode) = record(room, most, DECODE, random);
    let work = work(pair.needed(), random);
    let mut out = Lent::drawn("out", size(pair.n_tx(), random), random);
    let mut answer = answer(random);
    let code = code_of(room, &answer, &decode, DECODE, None);
    let verdict = match &code {
        Err(refused) => Some(*refused),
        Ok(p) => first(&[
            length(9, out.len(), p.n_tx()),
            short(work.len(), p.needed()),
        ]),
    };
    let number = call!(fuyegbo_read() read decode read work write out write answer);
    let trial = Trial::new("fuyegbo_read", number, verdict, &answer);
    let (Ok(pair), None) = (code, verdict) else {
        return trial.judge(&[&decode, &work], &[&out], &[], || Ok(()));
    };
    let word = word(&pair, work.part());
    let [iterations, converged] = [decode.part()[6], decode.part()[7]];
    let clean = converged == 1 && pair.theirs.unsatisfied(&word) == 0;
    trial.judge(
        &[&decode, &work],
        &[&out],
        &[iterations, converged, clean as usize],
        || same_list("word", out.part(), &bytes_of(&word)),
    )
}

/// The refusals of the one call, which begin with those of its code.
fn no_decode(code: &Result<Rc<Pair>, Refused>, rx: usize, out: usize, work: usize) -> Verdict {
    match code {
        Err(refused) => Some(*refused),
        Ok(pair) => first(&[
            length(5, rx, pair.n_tx()),
            length(9, out, pair.n_tx()),
            short(work, pair.needed()),
        ]),
    }
}

pub fn decode(room: &mut Room, most: usize, random: &mut Random) -> Result<usize, String> {
    let (rate, n_tx) = rate_and_length(most, random);
    let code = choice(room, rate, n_tx);
    // a length that no slice has is refused, whatever is lent
    let lent = if n_tx > MAX_CODED_BITS { 20 } else { n_tx };
    let rx = readings(size(lent, random), random);
    let needed = code.as_ref().map_or(40, |pair| pair.needed());
    let mut work = work(needed, random);
    let mut out = Lent::drawn("out", size(lent, random), random);
    let mut answer = answer(random);
    let code = answered(&answer).and(code);
    let verdict = no_decode(&code, rx.len(), out.len(), work.len());
    let limit = grant_size(verdict.is_none(), 0, random);
    let number = call!(fuyegbo_decode() rate n_tx read rx limit write work write out write answer);
    let name = format!("fuyegbo_decode, rate {rate}, n_tx {n_tx}, limit {limit}");
    let trial = Trial::new(name, number, verdict, &answer);
    let (Ok(pair), None) = (code, verdict) else {
        return trial.judge(&[&rx], &[&work, &out], &[], || Ok(()));
    };
    let truth = pair.decode(rx.part(), limit)?;
    let told = [
        truth.iterations,
        truth.converged as usize,
        truth.clean as usize,
    ];
    trial.judge(&[&rx], &[&work, &out], &told, || {
        same_list("word", out.part(), &truth.word)?;
        pair.same_memory(work.part(), &truth)?;
        work.kept_but(pair.needed())
    })
}
