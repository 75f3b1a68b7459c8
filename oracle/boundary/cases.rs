//! Cases, and the search for the smallest one that differs.
use super::random::{seed_of, Random};
use super::state::Room;
use fuyegbo::Refusal;
use std::panic::{catch_unwind, AssertUnwindSafe};
use std::time::{Duration, Instant};

/// What a comparison is drawn from, beside the run's seed. What a number means is told at the section.
#[derive(Clone, Copy, Debug, PartialEq)]
pub struct Case {
    pub rate: usize,
    pub n_tx: usize,
    pub kind: usize,
    pub draw: usize,
    pub limit: usize,
}

impl Case {
    pub fn new(rate: usize, n_tx: usize, kind: usize, draw: usize, limit: usize) -> Case {
        Case {
            rate,
            n_tx,
            kind,
            draw,
            limit,
        }
    }

    /// As it is told to repeat it.
    pub fn text(&self, section: &str) -> String {
        let Case {
            rate,
            n_tx,
            kind,
            draw,
            limit,
        } = self;
        format!("{section} {rate} {n_tx} {kind} {draw} {limit}")
    }

    /// The draws of a case. They do not depend on the limit: under a smaller one the same inputs are tried.
    pub fn random(&self, room: &Room, section: usize) -> Random {
        let numbers = [section, self.rate, self.n_tx, self.kind, self.draw];
        Random::new(seed_of(room.seed, &numbers))
    }
}

/// How much a run does.
#[derive(Clone, Copy)]
pub struct Plan {
    pub seed: u64,
    pub quick: bool,
}

impl Plan {
    /// The first number in a whole run, the second in a quick one.
    pub fn of(&self, whole: usize, quick: usize) -> usize {
        if self.quick {
            quick
        } else {
            whole
        }
    }
}

pub struct Section {
    pub name: &'static str,
    /// What is compared, for the report.
    pub about: &'static str,
    /// Short ones first.
    pub cases: fn(Plan) -> Vec<Case>,
    /// How many comparisons a case made, or what differs.
    pub check: fn(&mut Room, Case) -> Result<usize, String>,
    /// More for the report, or what was not reached.
    pub end: fn(&Room) -> Result<String, String>,
    /// The rates and draws that the search for a smaller case tries at each length.
    pub rates: usize,
    pub draws: usize,
}

/// How long the search may take.
const SEARCH: Duration = Duration::from_secs(60);

impl Section {
    pub fn run(&self, room: &mut Room, plan: Plan) -> Result<usize, (Case, String)> {
        let mut count = 0;
        for case in (self.cases)(plan) {
            match self.checked(room, case) {
                Ok(n) => count += n,
                Err(text) => return Err(self.smallest(room, case, text)),
            }
        }
        Ok(count)
    }

    /// Checks a case. A panic, of the Rust's or of this program, is a difference too.
    pub fn checked(&self, room: &mut Room, case: Case) -> Result<usize, String> {
        room.under_way(case.text(self.name));
        let check = AssertUnwindSafe(|| (self.check)(room, case));
        catch_unwind(check).unwrap_or_else(|_| Err("a panic, told above".to_string()))
    }

    /// The smallest case of the same kind that differs: the least length, then the least limit. Where the search takes too long,
    /// the one found, with the least limit.
    fn smallest(&self, room: &mut Room, found: Case, text: String) -> (Case, String) {
        let end = Instant::now() + SEARCH;
        for n_tx in 0..found.n_tx {
            for limit in 0..=found.limit {
                for i in 0..self.rates * self.draws {
                    let (rate, draw) = (i % self.rates, i / self.rates);
                    let case = Case {
                        rate,
                        n_tx,
                        draw,
                        limit,
                        ..found
                    };
                    if let Err(text) = self.checked(room, case) {
                        return (case, text);
                    }
                }
                if Instant::now() > end {
                    return self.least_limit(room, found, text);
                }
            }
        }
        self.least_limit(room, found, text)
    }

    fn least_limit(&self, room: &mut Room, found: Case, text: String) -> (Case, String) {
        for limit in 0..found.limit {
            let case = Case { limit, ..found };
            if let Err(text) = self.checked(room, case) {
                return (case, text);
            }
        }
        (found, text)
    }
}

/// A refusal as the wrapper tells it.
pub fn refusal<T>(number: usize, first: usize, second: usize) -> Result<T, Refusal> {
    Err(Refusal {
        number,
        first,
        second,
    })
}

/// An error where two answers differ, with both of them.
pub fn same<T: PartialEq + std::fmt::Debug>(what: &str, ours: T, theirs: T) -> Result<(), String> {
    if ours == theirs {
        return Ok(());
    }
    Err(format!("{what}: ours {ours:?}, wanted {theirs:?}"))
}

/// The same of two lists, with the first place where they differ.
pub fn same_list<T: PartialEq + std::fmt::Debug>(
    what: &str,
    ours: &[T],
    theirs: &[T],
) -> Result<(), String> {
    same(&format!("{what}, length"), ours.len(), theirs.len())?;
    match ours.iter().zip(theirs).position(|(a, b)| a != b) {
        None => Ok(()),
        Some(i) => same(&format!("{what}, place {i}"), &ours[i], &theirs[i]),
    }
}
