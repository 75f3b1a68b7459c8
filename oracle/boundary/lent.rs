//! Slices that are lent out of the middle of longer ones, so that a write outside them is seen.
use super::random::Random;
use std::fmt::Debug;

/// What slices are made of.
pub trait Number: Copy + Debug + PartialEq {
    fn drawn(random: &mut Random) -> Self;
    /// Its bits: of floats too, each NaN by its own.
    fn raw(self) -> u64;
}

impl Number for f32 {
    fn drawn(random: &mut Random) -> f32 {
        f32::from_bits(random.next() as u32)
    }

    fn raw(self) -> u64 {
        self.to_bits().into()
    }
}

macro_rules! whole {
    ($($name:ty)*) => {
        $(impl Number for $name {
            fn drawn(random: &mut Random) -> $name {
                random.next() as $name
            }

            fn raw(self) -> u64 {
                self as u64
            }
        })*
    };
}

whole!(u8 u16 u32 usize);

/// How many guards stand on either side.
const GUARDS: usize = 16;

pub struct Lent<T> {
    pub name: &'static str,
    all: Vec<T>,
    before: Vec<T>,
    /// Whether a slice of 0 elements is lent with a null pointer.
    null: bool,
}

impl<T: Number> Lent<T> {
    pub fn new(name: &'static str, part: &[T], random: &mut Random) -> Lent<T> {
        let mut all = Vec::with_capacity(part.len() + 2 * GUARDS);
        all.extend((0..GUARDS).map(|_| T::drawn(random)));
        all.extend_from_slice(part);
        all.extend((0..GUARDS).map(|_| T::drawn(random)));
        Lent {
            name,
            before: all.clone(),
            all,
            null: random.bit(),
        }
    }

    /// A slice of drawn content.
    pub fn drawn(name: &'static str, len: usize, random: &mut Random) -> Lent<T> {
        let part: Vec<T> = (0..len).map(|_| T::drawn(random)).collect();
        Lent::new(name, &part, random)
    }

    pub fn len(&self) -> usize {
        self.all.len() - 2 * GUARDS
    }

    pub fn part(&self) -> &[T] {
        &self.all[GUARDS..self.all.len() - GUARDS]
    }

    pub fn part_mut(&mut self) -> &mut [T] {
        let end = self.all.len() - GUARDS;
        &mut self.all[GUARDS..end]
    }

    /// The slice as it was lent.
    pub fn old(&self) -> &[T] {
        &self.before[GUARDS..self.all.len() - GUARDS]
    }

    pub fn ptr(&self) -> *const T {
        if self.null && self.len() == 0 {
            return std::ptr::null();
        }
        self.part().as_ptr()
    }

    pub fn ptr_mut(&mut self) -> *mut T {
        if self.null && self.len() == 0 {
            return std::ptr::null_mut();
        }
        self.part_mut().as_mut_ptr()
    }

    /// An error where more than the first n of the slice was changed.
    pub fn kept_but(&self, n: usize) -> Result<(), String> {
        let end = GUARDS + n;
        let changed = |i: &usize| self.all[*i].raw() != self.before[*i].raw();
        let Some(i) = (0..GUARDS).chain(end..self.all.len()).find(changed) else {
            return Ok(());
        };
        let (was, is) = (self.before[i], self.all[i]);
        Err(format!(
            "{} of {}, place {}: was {was:?}, is {is:?}, and is not to be written",
            self.name,
            self.len(),
            i as isize - GUARDS as isize
        ))
    }
}

/// A slice of any type.
pub trait Slice {
    fn untouched(&self) -> Result<(), String>;
    fn guarded(&self) -> Result<(), String>;
    fn text(&self) -> String;
}

/// Longer slices are told by their length.
const SHOWN: usize = 64;

impl<T: Number> Slice for Lent<T> {
    /// An error where anything was changed.
    fn untouched(&self) -> Result<(), String> {
        self.kept_but(0)
    }

    /// An error where a guard was changed.
    fn guarded(&self) -> Result<(), String> {
        self.kept_but(self.len())
    }

    /// As it was lent; floats by their bits.
    fn text(&self) -> String {
        if self.len() > SHOWN {
            return format!("{}: {} elements", self.name, self.len());
        }
        let raw: Vec<String> = self
            .old()
            .iter()
            .map(|x| format!("{:x}", x.raw()))
            .collect();
        format!("{}, in hexadecimal: [{}]", self.name, raw.join(" "))
    }
}
