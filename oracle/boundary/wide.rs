//! Ours, through the C boundary, held to the Rust as published, both in one process. `wide` puts this file in the place of the
//! module `vectors` of xtask's main.rs, which it builds as it stands, so that the functions of main.rs can be called.
//!
//! Arguments: the seed, `whole` or `quick`, a file that tells the case under way, and then, to repeat one case, a section's name and
//! the case's five numbers.
mod cases;
mod choice;
mod decodes;
mod faults;
mod grants;
mod graphs;
mod kinds;
mod lent;
mod random;
mod refusals;
mod refusals_decode;
mod refusals_graph;
mod state;
mod words;

use cases::{Case, Plan, Section};
use state::Room;
use std::time::Instant;

/// A difference in what a call answers is told by its own section, before the last, which has every call.
const SECTIONS: [&Section; 6] = [
    &choice::SECTION,
    &words::SECTION,
    &decodes::SECTION,
    &grants::SECTION,
    &graphs::SECTION,
    &refusals::SECTION,
];

/// Tells the smallest case found, and ends the program.
fn differs(section: &Section, seed: u64, case: Case, text: &str) -> ! {
    let again = case.text(section.name);
    println!("{}: differs. The smallest case found:", section.name);
    println!("    {case:?}: {text}");
    println!("    again: oracle/wide --seed {seed} --case '{again}'");
    println!("oracle: 1 differs");
    std::process::exit(1)
}

/// A section, and its count.
fn run(section: &Section, plan: Plan, trace: &str) -> usize {
    let start = Instant::now();
    let mut room = Room::new(plan.seed, trace);
    let count = match section.run(&mut room, plan) {
        Ok(n) => n,
        Err((case, text)) => differs(section, plan.seed, case, &text),
    };
    let seconds = start.elapsed().as_secs();
    let (name, about) = (section.name, section.about);
    println!("{name:9} {count:9} comparisons, {seconds:3} s: {about}");
    match (section.end)(&room) {
        Ok(text) => print!("{text}"),
        Err(text) => {
            println!("{}: not all was compared: {text}", section.name);
            std::process::exit(1)
        }
    }
    count
}

/// One case again.
fn repeat(seed: u64, trace: &str, name: &str, numbers: &[usize]) -> usize {
    let section = SECTIONS.iter().find(|s| s.name == name);
    let (Some(section), &[rate, n_tx, kind, draw, limit]) = (section, numbers) else {
        panic!("a case is a section's name and five numbers");
    };
    let case = Case::new(rate, n_tx, kind, draw, limit);
    match section.checked(&mut Room::new(seed, trace), case) {
        Ok(n) => n,
        Err(text) => differs(section, seed, case, &text),
    }
}

/// xtask prints this for its task `vectors`.
pub fn report() -> String {
    let args: Vec<String> = std::env::args().skip(2).collect();
    let seed = args[0].parse().expect("the seed is a number");
    let quick = args[1] == "quick";
    let plan = Plan { seed, quick };
    let trace = &args[2];
    let total: usize = match args.get(3) {
        None => SECTIONS.iter().map(|s| run(s, plan, trace)).sum(),
        Some(name) => {
            let numbers = args[4..].iter().map(|n| n.parse().expect("a number"));
            repeat(seed, trace, name, &numbers.collect::<Vec<usize>>())
        }
    };
    format!("{total} comparisons, 0 differ\n")
}
