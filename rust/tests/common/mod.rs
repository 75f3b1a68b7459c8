//! What the tests share: a generator, readings, slices with guards, and comparison by bits.
#![allow(dead_code)] // no test file uses all of it
use fuyegbo::{Code, Refusal};
use std::fmt::Debug;

/// The longest block at the least and the most redundancy, short ones, and every family.
pub const CODES: [(usize, usize); 12] = [
    (0, 4),
    (0, 10),
    (0, 61),
    (1, 500),
    (2, 1_000),
    (3, 77),
    (4, 10),
    (4, 12),
    (4, 2_048),
    (5, 10),
    (5, 22),
    (5, 300),
];

/// Readings that are no ordinary numbers.
pub const ODD: [f32; 8] = [
    f32::NAN,
    f32::INFINITY,
    f32::NEG_INFINITY,
    0.0,
    -0.0,
    1e-45,
    -1e-45,
    -3.4e38,
];

/// A small generator (splitmix64): the same draws on every run.
pub struct Draws(pub u64);

impl Draws {
    pub fn next(&mut self) -> u64 {
        self.0 = self.0.wrapping_add(0x9E37_79B9_7F4A_7C15);
        let mut x = self.0;
        x = (x ^ (x >> 30)).wrapping_mul(0xBF58_476D_1CE4_E5B9);
        x = (x ^ (x >> 27)).wrapping_mul(0x94D0_49BB_1331_11EB);
        x ^ (x >> 31)
    }

    pub fn below(&mut self, n: usize) -> usize {
        (self.next() % n as u64) as usize
    }

    pub fn bits(&mut self, n: usize) -> Vec<u8> {
        (0..n).map(|_| (self.next() >> 63) as u8).collect()
    }

    /// Four even draws added: near enough to Gaussian, of about deviation 1.
    pub fn noise(&mut self) -> f32 {
        let sum: i64 = (0..4).map(|_| (self.next() >> 48) as i64 - 32_768).sum();
        sum as f32 / 37_837.0
    }

    /// Readings of a word, +1 for 0 and -1 for 1, disturbed so much.
    pub fn readings(&mut self, word: &[u8], much: f32) -> Vec<f32> {
        word.iter()
            .map(|&bit| 1.0 - 2.0 * bit as f32 + much * self.noise())
            .collect()
    }
}

/// A code that Choice gives.
pub fn code(rate: usize, n_tx: usize) -> Code {
    Code::new(rate, n_tx).unwrap()
}

/// The encoding of drawn bits.
pub fn codeword(code: &Code, draws: &mut Draws) -> Vec<u8> {
    let info = draws.bits(code.info_bits());
    let mut word = vec![9; code.coded_bits()];
    code.encode(&info, &mut word).unwrap();
    assert_eq!(word[..info.len()], info);
    word
}

pub fn refusal<T>(number: usize, first: usize, second: usize) -> Result<T, Refusal> {
    Err(Refusal {
        number,
        first,
        second,
    })
}

/// A number by its bits: +0 and -0 are two, NaNs are one.
pub trait Number: Copy + Debug {
    fn key(self) -> u64;
}

impl Number for f32 {
    fn key(self) -> u64 {
        if self.is_nan() {
            return u64::MAX;
        }
        self.to_bits().into()
    }
}

macro_rules! whole {
    ($($name:ty)*) => {
        $(impl Number for $name {
            fn key(self) -> u64 {
                self as u64
            }
        })*
    };
}

whole!(u8 u16 u32 usize);

pub fn keys<T: Number>(numbers: &[T]) -> Vec<u64> {
    numbers.iter().map(|n| n.key()).collect()
}

/// How many guards stand on either side of a lent slice.
const GUARDS: usize = 16;

/// A slice lent out of the middle of a longer one.
pub struct Lent<T> {
    all: Vec<T>,
    before: Vec<u64>,
}

impl<T: Number> Lent<T> {
    pub fn new(part: &[T], guard: T) -> Lent<T> {
        let mut all = vec![guard; GUARDS];
        all.extend_from_slice(part);
        all.extend_from_slice(&[guard; GUARDS]);
        let before = keys(&all);
        Lent { all, before }
    }

    pub fn part(&mut self) -> &mut [T] {
        let end = self.all.len() - GUARDS;
        &mut self.all[GUARDS..end]
    }

    /// Fails unless all is as it was, the guards too.
    #[track_caller]
    pub fn unchanged(&self) {
        assert_eq!(keys(&self.all), self.before, "a lent slice was changed");
    }

    /// Fails unless all but the first n of the slice is as it was.
    #[track_caller]
    pub fn unchanged_but(&self, n: usize) {
        let now = keys(&self.all);
        let end = GUARDS + n;
        assert_eq!(now[..GUARDS], self.before[..GUARDS], "before the slice");
        assert_eq!(now[end..], self.before[end..], "past what is written");
    }
}

/// Slices with their guards: bytes to write, numbers of work memory, rows, shifts, a list.
pub fn bytes(n: usize) -> Lent<u8> {
    Lent::new(&vec![0xA5; n], 0x5A)
}

pub fn work(n: usize) -> Lent<f32> {
    Lent::new(&vec![7.5; n], -2.25)
}

pub fn halves(n: usize) -> Lent<u16> {
    Lent::new(&vec![0xA5A5; n], 0x5A5A)
}

pub fn list(n: usize) -> Lent<u32> {
    Lent::new(&vec![0xA5A5_A5A5; n], 0x5A5A_5A5A)
}
