//! The choice of a code, at every rate and length. A case has a rate, up to 7, and n_tx.
use super::cases::{refusal, same, Case, Plan, Section};
use super::state::{needed, numbers, Room};
use fuyegbo::{Code, Refusal, MAX_CODED_BITS};
use lcr_core::ecc::ldpc;
use lcr_core::error::LcrError;

pub const SECTION: Section = Section {
    name: "choice",
    about: "records, effective rates, checks, work memory needed; refusals 1 and 2",
    cases,
    check,
    end: |_| Ok(String::new()),
    rates: 8,
    draws: 1,
};

/// A little past the longest code.
const END: usize = 19_500;

/// Every length at the six rates; in a quick run, and at the rates that count as 5, some of them.
fn cases(plan: Plan) -> Vec<Case> {
    let mut cases = Vec::new();
    for n_tx in 0..=END {
        for rate in 0..8 {
            let step = if rate > 5 {
                plan.of(37, 370)
            } else {
                plan.of(1, 61)
            };
            let edge = n_tx <= 200 || n_tx + 3 > MAX_CODED_BITS;
            if edge || n_tx % step == 0 {
                cases.push(Case::new(rate, n_tx, 0, 0, 0));
            }
        }
    }
    cases
}

fn check(_: &mut Room, case: Case) -> Result<usize, String> {
    let (rate, n_tx) = (case.rate, case.n_tx);
    let ours = Code::new(rate, n_tx);
    if n_tx > MAX_CODED_BITS {
        same("code", ours, refusal(2, n_tx, MAX_CODED_BITS))?;
        return Ok(1);
    }
    match ldpc::Code::new(rate, n_tx) {
        Ok(theirs) => made(rate, ours, &theirs),
        Err(LcrError::Capacity { needed, available }) => {
            same("code", ours, refusal(1, needed, available))?;
            Ok(1)
        }
        Err(other) => Err(format!("the Rust answers {other:?}")),
    }
}

fn made(rate: usize, ours: Result<Code, Refusal>, theirs: &ldpc::Code) -> Result<usize, String> {
    let code = Code::from_numbers(numbers(rate, theirs));
    same("code", ours, Ok(code))?;
    let bits = code.effective_rate().map(f32::to_bits);
    let wanted = theirs.effective_rate().to_bits();
    same("bits of the effective rate", bits, Ok(wanted))?;
    // a call tells the number of checks where it is asked for one that is not there
    let told = code.check_members(usize::MAX, &mut []);
    same("checks", told, refusal(7, usize::MAX, theirs.checks()))?;
    let told = code.work_needed();
    same("work memory needed", told, Ok(needed(theirs)))?;
    Ok(4)
}
