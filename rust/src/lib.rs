//! Fuyegbo for Rust: the calls of include/fuyegbo.h over slices, with a `Result` for a refusal.
//!
//! Nothing is allocated: work memory and outputs are lent. A refused call leaves them as they were.
//!
//! ```
//! use fuyegbo::{Code, Decode};
//!
//! let code = Code::new(5, 10)?;
//! let mut word = [0; 10];
//! code.encode(&[1, 0, 0], &mut word)?;
//!
//! let rx = word.map(|bit| if bit == 1 { -1.0 } else { 1.0 });
//! let mut work = [0.0; 200];
//! let mut out = [0; 10];
//! let mut decode = Decode::start(&code, &rx, &mut work)?;
//! decode.grant(10, &mut work)?;
//! let result = decode.read(&work, &mut out)?;
//! assert!(result.clean && out == word);
//! # Ok::<(), fuyegbo::Refusal>(())
//! ```
#![no_std]

pub mod graph;
pub mod sys;

use core::fmt;

/// The longest block, in transmitted bits.
pub const MAX_CODED_BITS: usize = 19_440;

/// The most work memory that a code needs, in numbers.
pub const MAX_WORK: usize = 150_336;

/// Why a call did nothing: the number and the pair that include/fuyegbo.h lists.
#[derive(Clone, Copy, Debug, PartialEq, Eq)]
pub struct Refusal {
    pub number: usize,
    pub first: usize,
    pub second: usize,
}

impl fmt::Display for Refusal {
    fn fmt(&self, f: &mut fmt::Formatter<'_>) -> fmt::Result {
        let (a, b) = (self.first, self.second);
        write!(f, "refusal {}: ", self.number)?;
        match self.number {
            1 => write!(f, "no family serves {b} transmitted bits"),
            2 => write!(f, "{a} transmitted bits, above {b}"),
            3 => write!(f, "design value {a} breaks the limit {b}"),
            4 => write!(
                f,
                "the row at place {b} of column {a} is too high or repeated"
            ),
            5 => write!(f, "an input of {a} where {b} are wanted"),
            6 => write!(f, "byte {b} at place {a} is no bit"),
            7 => write!(f, "no check {a} among {b}"),
            8 => write!(f, "{a} numbers of work memory where {b} are needed"),
            9 => write!(f, "an output of {a} where {b} are wanted"),
            10 => write!(f, "{a} iterations, above {b}"),
            11 => write!(f, "no such code record (rate {a}, {b} transmitted bits)"),
            _ => write!(f, "({a}, {b})"),
        }
    }
}

impl core::error::Error for Refusal {}

/// Lends a call its answer, and takes what it returned and wrote there apart.
///
/// Every unsafe block of this crate is such a call, and one reason makes each of them sound: a pointer and a length come
/// from one slice or array, which is valid for that many elements throughout the call; what is written comes from `&mut`,
/// so nothing else lent overlaps it; and the library keeps no pointer and accepts every value of every argument.
fn call(f: impl FnOnce(*mut usize, usize) -> usize) -> Result<[usize; 3], Refusal> {
    let mut answer = [0; 3];
    let number = f(answer.as_mut_ptr(), answer.len());
    if number == 0 {
        return Ok(answer);
    }
    Err(Refusal {
        number,
        first: answer[0],
        second: answer[1],
    })
}

/// A code: the block length, the rate and what follows from them.
#[derive(Clone, Copy, Debug, PartialEq, Eq)]
pub struct Code([usize; 6]);

impl Code {
    /// The code for `n_tx` transmitted bits at rate index `rate`; above 5 it counts as 5.
    pub fn new(rate: usize, n_tx: usize) -> Result<Code, Refusal> {
        let mut record = [0; 6];
        // SAFETY: as `call` says.
        call(|answer, len| unsafe {
            sys::fuyegbo_code(rate, n_tx, record.as_mut_ptr(), record.len(), answer, len)
        })?;
        Ok(Code(record))
    }

    /// A record from its numbers, as `numbers` gives them. Calls refuse one that `new` does not make (11).
    pub const fn from_numbers(numbers: [usize; 6]) -> Code {
        Code(numbers)
    }

    /// Rate, transmitted bits, family, lift, information bits, shortened bits.
    pub const fn numbers(&self) -> [usize; 6] {
        self.0
    }

    /// Rate index, 0 to 5.
    pub const fn rate(&self) -> usize {
        self.0[0]
    }

    /// Transmitted bits.
    pub const fn coded_bits(&self) -> usize {
        self.0[1]
    }

    /// Base graph: 0 large, 1 small, 2 tiny.
    pub const fn family(&self) -> usize {
        self.0[2]
    }

    /// Lift factor.
    pub const fn lift(&self) -> usize {
        self.0[3]
    }

    /// Information bits carried.
    pub const fn info_bits(&self) -> usize {
        self.0[4]
    }

    /// Information bits fixed to zero by shortening.
    pub const fn shortened_bits(&self) -> usize {
        self.0[5]
    }

    /// How many numbers of work memory a decode needs.
    pub fn work_needed(&self) -> Result<usize, Refusal> {
        let code = &self.0;
        // SAFETY: as `call` says.
        let answer = call(|answer, len| unsafe {
            sys::fuyegbo_work_needed(code.as_ptr(), code.len(), answer, len)
        })?;
        Ok(answer[0])
    }

    /// Information bits over transmitted bits.
    pub fn effective_rate(&self) -> Result<f32, Refusal> {
        let code = &self.0;
        let mut rate = [0.0];
        // SAFETY: as `call` says.
        call(|answer, len| unsafe {
            sys::fuyegbo_effective_rate(
                code.as_ptr(),
                code.len(),
                rate.as_mut_ptr(),
                rate.len(),
                answer,
                len,
            )
        })?;
        Ok(rate[0])
    }

    /// Writes the transmitted bits of a check to the front of `out` and tells how many they are.
    pub fn check_members(&self, check: usize, out: &mut [u32]) -> Result<usize, Refusal> {
        let code = &self.0;
        // SAFETY: as `call` says.
        let answer = call(|answer, len| unsafe {
            sys::fuyegbo_check_members(
                code.as_ptr(),
                code.len(),
                check,
                out.as_mut_ptr(),
                out.len(),
                answer,
                len,
            )
        })?;
        Ok(answer[0])
    }

    /// How many checks a word does not meet; 0 exactly for a codeword.
    pub fn unsatisfied(&self, word: &[u8]) -> Result<usize, Refusal> {
        let code = &self.0;
        // SAFETY: as `call` says.
        let answer = call(|answer, len| unsafe {
            sys::fuyegbo_unsatisfied(
                code.as_ptr(),
                code.len(),
                word.as_ptr(),
                word.len(),
                answer,
                len,
            )
        })?;
        Ok(answer[0])
    }

    /// Encodes `info_bits` bits into `coded_bits` bits; a bit is a byte, 0 or 1.
    pub fn encode(&self, info: &[u8], out: &mut [u8]) -> Result<(), Refusal> {
        let code = &self.0;
        // SAFETY: as `call` says.
        call(|answer, len| unsafe {
            sys::fuyegbo_encode(
                code.as_ptr(),
                code.len(),
                info.as_ptr(),
                info.len(),
                out.as_mut_ptr(),
                out.len(),
                answer,
                len,
            )
        })?;
        Ok(())
    }
}

/// What a read tells beside the word.
#[derive(Clone, Copy, Debug, PartialEq, Eq)]
pub struct DecodeResult {
    /// Iterations done.
    pub iterations: u16,
    /// Whether the decisions met every check, shortened bits included.
    pub converged: bool,
    /// Whether it converged and the word written is a codeword.
    pub clean: bool,
}

impl DecodeResult {
    fn told(answer: [usize; 3]) -> DecodeResult {
        DecodeResult {
            // at most 65,535, by refusals 10 and 11
            iterations: answer[0] as u16,
            converged: answer[1] != 0,
            clean: answer[2] != 0,
        }
    }
}

/// A decode under way. It goes with the work memory that its start filled.
#[derive(Clone, Debug, PartialEq, Eq)]
pub struct Decode([usize; 8]);

impl Decode {
    /// Starts a decode of `coded_bits` readings; one below zero means 1. Of `work` the front that the code needs is used.
    pub fn start(code: &Code, rx: &[f32], work: &mut [f32]) -> Result<Decode, Refusal> {
        let code = &code.0;
        let mut record = [0; 8];
        // SAFETY: as `call` says.
        call(|answer, len| unsafe {
            sys::fuyegbo_start(
                code.as_ptr(),
                code.len(),
                rx.as_ptr(),
                rx.len(),
                work.as_mut_ptr(),
                work.len(),
                record.as_mut_ptr(),
                record.len(),
                answer,
                len,
            )
        })?;
        Ok(Decode(record))
    }

    /// At most `g` iterations more, in the work memory as the last call left it.
    pub fn grant(&mut self, g: u16, work: &mut [f32]) -> Result<(), Refusal> {
        let record = &mut self.0;
        // SAFETY: as `call` says.
        call(|answer, len| unsafe {
            sys::fuyegbo_grant(
                record.as_mut_ptr(),
                record.len(),
                g,
                work.as_mut_ptr(),
                work.len(),
                answer,
                len,
            )
        })?;
        Ok(())
    }

    /// Writes the decided word, `coded_bits` bits, to `out`.
    pub fn read(&self, work: &[f32], out: &mut [u8]) -> Result<DecodeResult, Refusal> {
        let record = &self.0;
        // SAFETY: as `call` says.
        let answer = call(|answer, len| unsafe {
            sys::fuyegbo_read(
                record.as_ptr(),
                record.len(),
                work.as_ptr(),
                work.len(),
                out.as_mut_ptr(),
                out.len(),
                answer,
                len,
            )
        })?;
        Ok(DecodeResult::told(answer))
    }

    /// A record from its numbers, as `numbers` gives them. Calls refuse one that no decode has (11).
    pub const fn from_numbers(numbers: [usize; 8]) -> Decode {
        Decode(numbers)
    }

    /// The code's six numbers, iterations, converged.
    pub const fn numbers(&self) -> [usize; 8] {
        self.0
    }

    /// Iterations done.
    pub const fn iterations(&self) -> usize {
        self.0[6]
    }

    /// Whether the last iteration met every check: no grant does anything more.
    pub const fn converged(&self) -> bool {
        self.0[7] != 0
    }
}

/// The one call: the code, a start, one grant of `limit` and a read.
pub fn decode(
    rate: usize,
    n_tx: usize,
    rx: &[f32],
    limit: u16,
    work: &mut [f32],
    out: &mut [u8],
) -> Result<DecodeResult, Refusal> {
    // SAFETY: as `call` says.
    let answer = call(|answer, len| unsafe {
        sys::fuyegbo_decode(
            rate,
            n_tx,
            rx.as_ptr(),
            rx.len(),
            limit,
            work.as_mut_ptr(),
            work.len(),
            out.as_mut_ptr(),
            out.len(),
            answer,
            len,
        )
    })?;
    Ok(DecodeResult::told(answer))
}
