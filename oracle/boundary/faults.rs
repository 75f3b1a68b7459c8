//! Arguments with faults, and what include/fuyegbo.h says of a call that is lent them.
use super::cases::same;
use super::lent::{Lent, Slice};
use super::random::Random;
use super::state::{Pair, Room};
use fuyegbo::MAX_CODED_BITS;
use std::rc::Rc;

/// The sizes of the slices of fixed size.
pub const ANSWER: usize = 3;
pub const CODE: usize = 6;
pub const DECODE: usize = 8;

/// Calls a function of the archive. `read` or `write` before a name lends a slice as its pointer and its length.
macro_rules! call {
    ($name:ident($($done:expr),*)) => {
        // SAFETY: each pointer and length are those of one `Lent`, which lives throughout the call, and no two overlap.
        unsafe { fuyegbo::sys::$name($($done),*) }
    };
    ($name:ident($($done:expr),*) read $slice:ident $($rest:tt)*) => {
        call!($name($($done,)* $slice.ptr(), $slice.len()) $($rest)*)
    };
    ($name:ident($($done:expr),*) write $slice:ident $($rest:tt)*) => {
        call!($name($($done,)* $slice.ptr_mut(), $slice.len()) $($rest)*)
    };
    ($name:ident($($done:expr),*) $value:ident $($rest:tt)*) => {
        call!($name($($done,)* $value) $($rest)*)
    };
}
pub(crate) use call;

/// A refusal's number and its pair.
pub type Refused = (usize, [usize; 2]);

/// What a call answers: a refusal, or none.
pub type Verdict = Option<Refused>;

/// The refusal, where there is one.
pub fn refused<T>(made: &Result<T, Refused>) -> Verdict {
    made.as_ref().err().copied()
}

/// The first of these refusals whose test holds.
pub fn first(tests: &[(bool, Refused)]) -> Verdict {
    tests.iter().find(|test| test.0).map(|test| test.1)
}

/// A length other than the one wanted, as 5 or 9 tells it.
pub fn length(number: usize, given: usize, wanted: usize) -> (bool, Refused) {
    (given != wanted, (number, [given, wanted]))
}

/// Too little work memory.
pub fn short(given: usize, needed: usize) -> (bool, Refused) {
    (given < needed, (8, [given, needed]))
}

/// The first byte above 1.
pub fn no_bit(bytes: &[u8]) -> Verdict {
    let place = bytes.iter().position(|&b| b > 1)?;
    Some((6, [place, bytes[place] as usize]))
}

/// An answer of another size is refused before all else.
pub fn answered(answer: &Lent<usize>) -> Result<(), Refused> {
    match first(&[length(9, answer.len(), ANSWER)]) {
        Some(refused) => Err(refused),
        None => Ok(()),
    }
}

/// The code whose record these numbers are, or 11. Whether Choice gives it is asked of the Rust.
fn known(room: &mut Room, numbers: &[usize]) -> Result<Rc<Pair>, Refused> {
    let refused = (11, [numbers[0], numbers[1]]);
    if numbers[0] > 5 || numbers[1] > MAX_CODED_BITS {
        return Err(refused);
    }
    // a decode's record has two numbers more: iterations, of 16 bits, and converged
    if numbers.len() == DECODE && (numbers[6] > 65_535 || numbers[7] > 1) {
        return Err(refused);
    }
    match room.pair(numbers[0], numbers[1]) {
        Some(pair) if pair.numbers == numbers[..CODE] => Ok(pair),
        _ => Err(refused),
    }
}

/// The code of a record that is read and has `len` numbers, or the refusal of one of the slices of fixed size, or 11. `written` is
/// a record that the call writes.
pub fn code_of(
    room: &mut Room,
    answer: &Lent<usize>,
    record: &Lent<usize>,
    len: usize,
    written: Option<&Lent<usize>>,
) -> Result<Rc<Pair>, Refused> {
    answered(answer)?;
    let sizes = first(&[
        length(5, record.len(), len),
        length(9, written.map_or(DECODE, |w| w.len()), DECODE),
    ]);
    match sizes {
        Some(refused) => Err(refused),
        None => known(room, record.part()),
    }
}

/// A call that was made: its name and numbers, what it returned, what it is to return, and its answer.
pub struct Trial<'a> {
    call: String,
    number: usize,
    verdict: Verdict,
    answer: &'a Lent<usize>,
}

type Slices<'a> = &'a [&'a dyn Slice];

impl<'a> Trial<'a> {
    pub fn new(
        call: impl Into<String>,
        number: usize,
        verdict: Verdict,
        answer: &'a Lent<usize>,
    ) -> Trial<'a> {
        let call = call.into();
        Trial {
            call,
            number,
            verdict,
            answer,
        }
    }

    /// Holds a call to its verdict, and tells the refusal's number, or 0. Of an accepted call, `told` is the front of the answer,
    /// and `done` tests the outputs.
    pub fn judge(
        &self,
        inputs: Slices,
        outputs: Slices,
        told: &[usize],
        done: impl FnOnce() -> Result<(), String>,
    ) -> Result<usize, String> {
        let judged = match self.verdict {
            None => self.accepted(inputs, outputs, told).and_then(|_| done()),
            Some(refused) => self.refused(inputs, outputs, refused),
        };
        match judged {
            Ok(()) => Ok(self.number),
            Err(text) => Err(self.text(inputs, outputs, &text)),
        }
    }

    /// Inputs are as they were, and so is all around the outputs.
    fn accepted(&self, inputs: Slices, outputs: Slices, told: &[usize]) -> Result<(), String> {
        same("refusal", self.number, 0)?;
        for input in inputs {
            input.untouched()?;
        }
        for output in outputs {
            output.guarded()?;
        }
        self.told(told)
    }

    /// All is as it was but for the pair. An answer of another size has no place for it.
    fn refused(&self, inputs: Slices, outputs: Slices, wanted: Refused) -> Result<(), String> {
        same("refusal", self.number, wanted.0)?;
        for slice in inputs.iter().chain(outputs) {
            slice.untouched()?;
        }
        match self.answer.len() {
            ANSWER => self.told(&wanted.1),
            _ => self.told(&[]),
        }
    }

    /// The answer begins so, and is as it was from there on.
    fn told(&self, told: &[usize]) -> Result<(), String> {
        same("answer", &self.answer.part()[..told.len()], told)?;
        self.answer.kept_but(told.len())
    }

    fn text(&self, inputs: Slices, outputs: Slices, text: &str) -> String {
        let slices = inputs.iter().chain(outputs);
        let lent: Vec<String> = slices.map(|slice| slice.text()).collect();
        let (call, answer) = (&self.call, self.answer.len());
        format!("{call}, answer of {answer}; {}: {text}", lent.join("; "))
    }
}

/// How often an argument has a fault.
pub const RARE: usize = 12;

/// A size: mostly the one wanted.
pub fn size(wanted: usize, random: &mut Random) -> usize {
    if !random.one_in(RARE) {
        return wanted;
    }
    match random.below(5) {
        0 => 0,
        1 => wanted.saturating_sub(1),
        2 => wanted + 1,
        3 => wanted + 1 + random.below(12),
        _ => random.below(wanted + 1),
    }
}

/// An answer to be written, mostly of its size.
pub fn answer(random: &mut Random) -> Lent<usize> {
    let len = if random.one_in(3) {
        size(ANSWER, random)
    } else {
        ANSWER
    };
    Lent::drawn("answer", len, random)
}

/// A number of any size: small ones, powers of two and their neighbours, the largest.
pub fn any_number(random: &mut Random) -> usize {
    match random.below(4) {
        0 => random.below(20),
        1 => (1usize << random.below(64))
            .wrapping_add(random.below(3))
            .wrapping_sub(1),
        2 => usize::MAX - random.below(3),
        _ => random.next() as usize,
    }
}

/// Long lengths are taken from these, since making the Rust's code takes long.
const LONG: [usize; 10] = [
    150, 200, 333, 1_000, 2_000, 5_000, 10_000, 19_380, 19_439, 19_440,
];

/// A length up to `most`.
pub fn n_tx(most: usize, random: &mut Random) -> usize {
    let long = random.pick(&LONG);
    if long <= most && random.one_in(30) {
        return long;
    }
    random.below(most.min(100) + 1)
}

/// A code that is there, of a length up to `most` where there is one.
fn code(room: &mut Room, most: usize, random: &mut Random) -> Rc<Pair> {
    for _ in 0..100 {
        let (rate, n_tx) = (random.below(6), n_tx(most, random));
        if let Some(pair) = room.pair(rate, n_tx) {
            return pair;
        }
    }
    room.pair(5, 10).expect("the code (5, 10) is there")
}

/// Numbers that are mostly a record: of it, changed in a place or two.
fn forge(numbers: &mut [usize], room: &mut Room, random: &mut Random) {
    for _ in 0..1 + random.below(2) {
        let place = random.below(numbers.len());
        let number = numbers[place];
        numbers[place] = match random.below(5) {
            0 => number.wrapping_add(1),
            1 => number.wrapping_sub(1),
            2 => any_number(random),
            3 => 0,
            // another code's number
            _ => code(room, 100, random).numbers[place % CODE],
        };
    }
}

/// A record as Choice would give it, were there no limit to its rate or its length.
fn past_the_limits(numbers: &mut [usize], room: &mut Room, random: &mut Random) {
    if numbers[0] == 5 && random.bit() {
        numbers[0] = random.pick(&[6, 7, 9, usize::MAX]);
        return;
    }
    let (rate, n_tx) = (random.below(6), MAX_CODED_BITS + 1 + random.below(2) * 60);
    if let Some(pair) = room.pair(rate, n_tx) {
        numbers[..CODE].copy_from_slice(&pair.numbers);
    }
}

/// A code of a length up to `most`, and a record of `len` numbers: that code's, with a fault at times.
pub fn record(
    room: &mut Room,
    most: usize,
    len: usize,
    random: &mut Random,
) -> (Rc<Pair>, Lent<usize>) {
    let pair = code(room, most, random);
    let mut numbers = pair.numbers.to_vec();
    if len == DECODE {
        let iterations = random.pick(&[0, 1, 7, 65_515, 65_530, 65_534, 65_535]);
        numbers.extend([iterations, random.below(2)]);
    }
    if random.one_in(RARE) {
        forge(&mut numbers, room, random);
    }
    if random.one_in(200) {
        past_the_limits(&mut numbers, room, random);
    }
    let len = if random.one_in(3) {
        size(len, random)
    } else {
        len
    };
    numbers.resize(len, 1);
    (pair, Lent::new("record", &numbers, random))
}

/// Bits, at times with bytes above 1 among them.
pub fn bits(len: usize, random: &mut Random) -> Vec<u8> {
    let mut bits: Vec<u8> = (0..len).map(|_| random.bit() as u8).collect();
    if len > 0 && random.one_in(RARE / 2) {
        for _ in 0..1 + random.below(3) {
            bits[random.below(len)] = random.pick(&[2, 3, 128, 254, 255]);
        }
    }
    bits
}

/// Work memory: a size below the one needed is the fault.
pub fn work(needed: usize, random: &mut Random) -> Lent<f32> {
    let spare = random.below(3);
    let len = size(needed, random);
    Lent::drawn("work", if len < needed { len } else { len + spare }, random)
}
