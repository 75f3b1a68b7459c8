//! A code of ours beside the Rust's, and the Rust's decodes with their state in the order of our work memory.
use super::cases::{same, same_list};
use lcr_core::ecc::ldpc;
use lcr_watched::{ecc::ldpc as watched, watch};
use std::collections::HashMap;
use std::fs::File;
use std::io::{Seek, Write};
use std::rc::Rc;

/// A number of work memory by its bits, where all NaNs are one.
pub fn key(x: f32) -> u32 {
    if x.is_nan() {
        return f32::NAN.to_bits();
    }
    x.to_bits()
}

pub fn bytes_of(bits: &[bool]) -> Vec<u8> {
    bits.iter().map(|&b| b as u8).collect()
}

/// The family of a code, which the Rust does not tell: it is known by the number of base columns.
pub fn family(code: &ldpc::Code) -> usize {
    match code.base_shape().0 {
        60 => 0,
        20 => 1,
        10 => 2,
        n_b => panic!("no family has {n_b} base columns"),
    }
}

/// The record that a code of the Rust has here.
pub fn numbers(rate: usize, code: &ldpc::Code) -> [usize; 6] {
    [
        rate.min(5),
        code.coded_bits(),
        family(code),
        code.lift(),
        code.info_bits(),
        code.shortened_bits(),
    ]
}

/// 2 N + 2 E.
pub fn needed(code: &ldpc::Code) -> usize {
    2 * code.lift() * (code.base_shape().0 + code.base_edges().len())
}

/// What an unbroken decode of the Rust answers, and its state.
pub struct Truth {
    pub word: Vec<u8>,
    pub iterations: usize,
    pub converged: bool,
    pub clean: bool,
    /// The needed numbers by their keys, each in its place.
    pub memory: Vec<u32>,
}

/// One code, of the Rust as it stands and of its copy, and the record here.
pub struct Pair {
    pub numbers: [usize; 6],
    pub theirs: ldpc::Code,
    watched: watched::Code,
    /// The slot of each edge of the Rust.
    slots: Vec<usize>,
}

/// The Rust lists edges check by check, and in a check by base edge; here the slot is b × z + t.
fn slots(code: &ldpc::Code) -> Vec<usize> {
    let (z, (_, _, m_b)) = (code.lift(), code.base_shape());
    let edges = code.base_edges();
    let mut slots = Vec::with_capacity(z * edges.len());
    for row in 0..m_b {
        let in_row: Vec<usize> = (0..edges.len()).filter(|&b| edges[b].0 == row).collect();
        for t in 0..z {
            slots.extend(in_row.iter().map(|b| b * z + t));
        }
    }
    slots
}

impl Pair {
    /// None where the Rust has no such code.
    fn new(rate: usize, n_tx: usize) -> Option<Pair> {
        let theirs = ldpc::Code::new(rate, n_tx).ok()?;
        Some(Pair {
            numbers: numbers(rate, &theirs),
            watched: watched::Code::new(rate, n_tx).ok()?,
            slots: slots(&theirs),
            theirs,
        })
    }

    pub fn ours(&self) -> fuyegbo::Code {
        fuyegbo::Code::from_numbers(self.numbers)
    }

    pub fn n_tx(&self) -> usize {
        self.numbers[1]
    }

    pub fn k(&self) -> usize {
        self.numbers[4]
    }

    /// The Rust's list of a check, in numbers of 32 bits.
    pub fn members(&self, check: usize) -> Vec<u32> {
        let list = self.theirs.check_members(check);
        list.iter().map(|&i| i as u32).collect()
    }

    /// N: channel places, and as many totals.
    pub fn places(&self) -> usize {
        self.theirs.lift() * self.theirs.base_shape().0
    }

    pub fn needed(&self) -> usize {
        2 * (self.places() + self.slots.len())
    }

    /// Decodes by the file as it stands. The state is the copy's, whose answers must be the same.
    pub fn decode(&self, rx: &[f32], limit: u16) -> Result<Truth, String> {
        let told = self.theirs.decode(rx, limit).map_err(|e| e.to_string())?;
        let copy = self.watched.decode(rx, limit).map_err(|e| e.to_string())?;
        same_list("the copy of ldpc.rs, word", &copy.codeword, &told.codeword)?;
        same_list("the copy of ldpc.rs, information", &copy.bits, &told.bits)?;
        let ends = [
            (copy.iterations, copy.converged),
            (told.iterations, told.converged),
        ];
        same("the copy of ldpc.rs, end", ends[0], ends[1])?;
        Ok(Truth {
            iterations: told.iterations as usize,
            converged: told.converged,
            clean: told.converged && self.theirs.unsatisfied(&told.codeword) == 0,
            word: bytes_of(&told.codeword),
            memory: self.memory()?,
        })
    }

    /// The state that the copy handed out, as work memory has it.
    fn memory(&self) -> Result<Vec<u32>, String> {
        let seen = watch::take().ok_or("the copy of ldpc.rs handed nothing out")?;
        let (n, e) = (self.places(), self.slots.len());
        let sizes = [
            seen.ch.len(),
            seen.total.len(),
            seen.v2c.len(),
            seen.c2v.len(),
        ];
        same("sizes of the Rust's vectors", sizes, [n, n, e, e])?;
        let mut memory = vec![0; 2 * n + 2 * e];
        for v in 0..n {
            memory[v] = key(seen.ch[v]);
            memory[n + v] = key(seen.total[v]);
        }
        for (i, slot) in self.slots.iter().enumerate() {
            memory[2 * n + slot] = key(seen.v2c[i]);
            memory[2 * n + e + slot] = key(seen.c2v[i]);
        }
        Ok(memory)
    }

    /// An error where the front of our work memory is not that of the Rust.
    pub fn same_memory(&self, work: &[f32], truth: &Truth) -> Result<(), String> {
        for (i, &wanted) in truth.memory.iter().enumerate() {
            if key(work[i]) != wanted {
                let (part, ours) = (self.part(i), work[i].to_bits());
                return Err(format!(
                    "work memory, {part}: ours {ours:08x}, wanted {wanted:08x}"
                ));
            }
        }
        Ok(())
    }

    /// What a place of work memory holds.
    fn part(&self, i: usize) -> String {
        let (n, e) = (self.places(), self.slots.len());
        match i {
            _ if i < n => format!("channel {i}"),
            _ if i < 2 * n => format!("total {}", i - n),
            _ if i < 2 * n + e => format!("message to check, slot {}", i - 2 * n),
            _ => format!("message to bit, slot {}", i - 2 * n - e),
        }
    }
}

/// How many edges the kept codes may have together.
const KEPT: usize = 4_000_000;

/// What a section keeps: the run's seed, and the codes it has made.
pub struct Room {
    pub seed: u64,
    /// Where the case under way is told, for a run that a signal ends.
    trace: Option<File>,
    /// How often each refusal of each call was met.
    pub met: HashMap<(usize, usize), usize>,
    codes: HashMap<(usize, usize), Option<Rc<Pair>>>,
    edges: usize,
}

impl Room {
    pub fn new(seed: u64, trace: &str) -> Room {
        Room {
            seed,
            trace: File::create(trace).ok(),
            met: HashMap::new(),
            codes: HashMap::new(),
            edges: 0,
        }
    }

    /// Tells the case under way, in the place of the one before.
    pub fn under_way(&mut self, case: String) {
        if let Some(file) = &mut self.trace {
            let line = format!("{case:60}\n");
            let written = file.rewind().and_then(|_| file.write_all(line.as_bytes()));
            written.expect("the case under way cannot be told");
        }
    }

    /// The code at a rate up to 5, or none where no family serves.
    pub fn pair(&mut self, rate: usize, n_tx: usize) -> Option<Rc<Pair>> {
        if let Some(pair) = self.codes.get(&(rate, n_tx)) {
            return pair.clone();
        }
        let pair = Pair::new(rate, n_tx).map(Rc::new);
        self.edges += pair.as_ref().map_or(0, |p| p.slots.len());
        if self.edges > KEPT {
            self.codes.clear();
            self.edges = 0;
        }
        self.codes.insert((rate, n_tx), pair.clone());
        pair
    }
}
