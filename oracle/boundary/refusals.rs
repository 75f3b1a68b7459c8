//! Every call with random arguments, faults among them: which refusal it answers, that a refused call leaves all that it was
//! lent as it was, and what an accepted one writes. A case has a call as its kind, the greatest length of a code as its n_tx,
//! and a draw. Here: the calls on codes. What each is refused is written once more, from include/fuyegbo.h.
use super::cases::{same, same_list, Case, Plan, Section};
use super::faults::*;
use super::lent::Lent;
use super::random::Random;
use super::state::{bytes_of, Pair, Room};
use super::{refusals_decode as on_decodes, refusals_graph as on_graphs};
use fuyegbo::MAX_CODED_BITS;
use std::rc::Rc;

pub const SECTION: Section = Section {
    name: "refusals",
    about: "calls with random faults, of each call of the header: the answer, and everything lent",
    cases,
    check,
    end,
    rates: 1,
    draws: 400,
};

/// Compares one call, and tells the refusal's number, or 0. The number that it gets is the greatest length of its code.
type Call = fn(&mut Room, usize, &mut Random) -> Result<usize, String>;

/// Each call, with the refusals that it has, those of the slices of fixed size too.
const CALLS: [(Call, &[usize]); 15] = [
    (code_call, &[9, 2, 1]),
    (work_needed, &[9, 5, 11]),
    (effective_rate, &[5, 11, 9]),
    (check_members, &[5, 11, 7, 9]),
    (unsatisfied, &[9, 5, 11, 6]),
    (encode, &[11, 5, 9, 6]),
    (on_decodes::start, &[9, 11, 5, 8]),
    (on_decodes::grant, &[9, 5, 11, 8, 10]),
    (on_decodes::read, &[5, 11, 9, 8]),
    (on_decodes::decode, &[2, 1, 5, 9, 8]),
    (on_graphs::information_columns, &[9, 3]),
    (on_graphs::peg, &[3, 9]),
    (on_graphs::assign_shifts, &[3, 5, 9, 4]),
    (on_graphs::build, &[3, 9]),
    (on_graphs::four_cycles, &[9, 3, 5, 4]),
];

fn cases(plan: Plan) -> Vec<Case> {
    let mut cases = Vec::new();
    for n_tx in [10, 30, 100, MAX_CODED_BITS] {
        for draw in 0..plan.of(20_000, 2_000) {
            for kind in 0..CALLS.len() {
                cases.push(Case::new(0, n_tx, kind, draw, 0));
            }
        }
    }
    cases
}

fn check(room: &mut Room, case: Case) -> Result<usize, String> {
    let mut random = case.random(room, 5);
    let kind = case.kind % CALLS.len();
    let number = CALLS[kind].0(room, case.n_tx, &mut random)?;
    *room.met.entry((kind, number)).or_default() += 1;
    Ok(1)
}

/// How often each refusal was met. An error where a call was never accepted, or never had a refusal that it has.
fn end(room: &Room) -> Result<String, String> {
    let met = |kind, number| room.met.get(&(kind, number)).copied().unwrap_or(0);
    for (kind, (_, listed)) in CALLS.iter().enumerate() {
        for &number in listed.iter().chain(&[0]) {
            if met(kind, number) == 0 {
                return Err(format!("call {kind} was never answered with {number}"));
            }
        }
    }
    let calls = 0..CALLS.len();
    let times = |number| -> usize { calls.clone().map(|kind| met(kind, number)).sum() };
    let refused: Vec<String> = (1..=11).map(|n| format!("{n}: {}", times(n))).collect();
    let (accepted, refused) = (times(0), refused.join(", "));
    Ok(format!("    accepted: {accepted}, refused by {refused}\n"))
}

/// Any rate, and lengths past the longest too.
pub fn rate_and_length(most: usize, random: &mut Random) -> (usize, usize) {
    let rate = if random.one_in(8) {
        any_number(random)
    } else {
        random.below(8)
    };
    let n_tx = match random.below(16) {
        0 => any_number(random),
        1 => MAX_CODED_BITS + 1 + random.below(2),
        _ => n_tx(most, random),
    };
    (rate, n_tx)
}

/// The code, or 2, or 1, which is asked of the Rust.
pub fn choice(room: &mut Room, rate: usize, n_tx: usize) -> Result<Rc<Pair>, Refused> {
    if n_tx > MAX_CODED_BITS {
        return Err((2, [n_tx, MAX_CODED_BITS]));
    }
    room.pair(rate.min(5), n_tx).ok_or((1, [1, n_tx]))
}

fn code_call(room: &mut Room, most: usize, random: &mut Random) -> Result<usize, String> {
    let (rate, n_tx) = rate_and_length(most, random);
    let len = size(CODE, random);
    let mut code = Lent::drawn("code", len, random);
    let mut answer = answer(random);
    let made = answered(&answer).and_then(|_| match first(&[length(9, len, CODE)]) {
        Some(refused) => Err(refused),
        None => choice(room, rate, n_tx),
    });
    let number = call!(fuyegbo_code() rate n_tx write code write answer);
    let name = format!("fuyegbo_code, rate {rate}, n_tx {n_tx}");
    let trial = Trial::new(name, number, refused(&made), &answer);
    trial.judge(&[], &[&code], &[], || {
        let wanted = made.map_or([0; CODE], |pair| pair.numbers);
        same("record", code.part(), &wanted)
    })
}

fn work_needed(room: &mut Room, most: usize, random: &mut Random) -> Result<usize, String> {
    let record = record(room, most, CODE, random).1;
    let mut answer = answer(random);
    let code = code_of(room, &answer, &record, CODE, None);
    let number = call!(fuyegbo_work_needed() read record write answer);
    let trial = Trial::new("fuyegbo_work_needed", number, refused(&code), &answer);
    trial.judge(
        &[&record],
        &[],
        &[code.map_or(0, |pair| pair.needed())],
        || Ok(()),
    )
}

fn effective_rate(room: &mut Room, most: usize, random: &mut Random) -> Result<usize, String> {
    let record = record(room, most, CODE, random).1;
    let mut rate = Lent::<f32>::drawn("rate", size(1, random), random);
    let mut answer = answer(random);
    let code = code_of(room, &answer, &record, CODE, None);
    let verdict = match &code {
        Err(refused) => Some(*refused),
        Ok(_) => first(&[length(9, rate.len(), 1)]),
    };
    let number = call!(fuyegbo_effective_rate() read record write rate write answer);
    let trial = Trial::new("fuyegbo_effective_rate", number, verdict, &answer);
    trial.judge(&[&record], &[&rate], &[], || {
        let wanted = code.map_or(0.0, |pair| pair.theirs.effective_rate());
        same("rate", rate.part()[0].to_bits(), wanted.to_bits())
    })
}

/// Checks that are there, and others.
fn drawn_check(checks: usize, random: &mut Random) -> usize {
    match random.below(RARE) {
        0 => checks + random.below(2),
        1 => any_number(random),
        2 => checks - 1,
        _ => random.below(checks),
    }
}

fn check_members(room: &mut Room, most: usize, random: &mut Random) -> Result<usize, String> {
    let (pair, record) = record(room, most, CODE, random);
    let check = drawn_check(pair.theirs.checks(), random);
    // a check has up to some 20 members, so at times there is too little room
    let mut out = Lent::<u32>::drawn("out", random.below(30), random);
    let mut answer = answer(random);
    let code = code_of(room, &answer, &record, CODE, None);
    let mut wanted = Vec::new();
    let verdict = match &code {
        Err(refused) => Some(*refused),
        Ok(pair) if check >= pair.theirs.checks() => Some((7, [check, pair.theirs.checks()])),
        Ok(pair) => {
            wanted = pair.members(check);
            first(&[(out.len() < wanted.len(), (9, [out.len(), wanted.len()]))])
        }
    };
    let number = call!(fuyegbo_check_members() read record check write out write answer);
    let name = format!("fuyegbo_check_members, check {check}");
    let trial = Trial::new(name, number, verdict, &answer);
    trial.judge(&[&record], &[&out], &[wanted.len()], || {
        same_list("members", &out.part()[..wanted.len()], &wanted)?;
        out.kept_but(wanted.len())
    })
}

fn unsatisfied(room: &mut Room, most: usize, random: &mut Random) -> Result<usize, String> {
    let (pair, record) = record(room, most, CODE, random);
    let len = if random.bit() {
        pair.n_tx()
    } else {
        random.below(pair.n_tx() + 20)
    };
    let bits = bits(len, random);
    let word = Lent::new("word", &bits, random);
    let mut answer = answer(random);
    let code = code_of(room, &answer, &record, CODE, None);
    let verdict = match &code {
        Err(refused) => Some(*refused),
        Ok(_) => no_bit(word.part()),
    };
    let number = call!(fuyegbo_unsatisfied() read record read word write answer);
    let trial = Trial::new("fuyegbo_unsatisfied", number, verdict, &answer);
    let count = code.map_or(0, |pair| pair.theirs.unsatisfied(&bools(&bits)));
    trial.judge(&[&record, &word], &[], &[count], || Ok(()))
}

fn bools(bytes: &[u8]) -> Vec<bool> {
    bytes.iter().map(|&b| b == 1).collect()
}

fn encode(room: &mut Room, most: usize, random: &mut Random) -> Result<usize, String> {
    let (pair, record) = record(room, most, CODE, random);
    let bits = bits(size(pair.k(), random), random);
    let info = Lent::new("info", &bits, random);
    let mut out = Lent::drawn("out", size(pair.n_tx(), random), random);
    let mut answer = answer(random);
    let code = code_of(room, &answer, &record, CODE, None);
    let verdict = match &code {
        Err(refused) => Some(*refused),
        Ok(pair) => {
            let lengths = [
                length(5, info.len(), pair.k()),
                length(9, out.len(), pair.n_tx()),
            ];
            first(&lengths).or(no_bit(info.part()))
        }
    };
    let number = call!(fuyegbo_encode() read record read info write out write answer);
    let trial = Trial::new("fuyegbo_encode", number, verdict, &answer);
    trial.judge(&[&record, &info], &[&out], &[], || {
        let wanted = code
            .ok()
            .and_then(|pair| pair.theirs.encode(&bools(&bits)).ok());
        let wanted = bytes_of(&wanted.unwrap_or_default());
        same_list("encoding", out.part(), &wanted)
    })
}
