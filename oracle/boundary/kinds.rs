//! Readings of a codeword, of every kind: noise as a channel has it, and what no channel gives.
use super::random::Random;

type Readings = fn(&[bool], &mut Random) -> Vec<f32>;

/// Each kind by its name.
pub const KINDS: [(&str, Readings); 24] = [
    ("noise 0.3", |word, random| noise(word, 0.3, random)),
    ("noise 0.5", |word, random| noise(word, 0.5, random)),
    ("noise 0.65", |word, random| noise(word, 0.65, random)),
    ("noise 0.8", |word, random| noise(word, 0.8, random)),
    ("noise 1.0", |word, random| noise(word, 1.0, random)),
    ("noise 1.5", |word, random| noise(word, 1.5, random)),
    ("a clean codeword", |word, random| noise(word, 0.0, random)),
    ("random signs", random_signs),
    ("few flips, one magnitude", one_magnitude),
    ("few flips, four magnitudes", four_magnitudes),
    ("all equal", all_equal),
    ("odd numbers", odd_numbers),
    ("noise and odd numbers", some_odd),
    ("noise and one infinite", |word, random| {
        one(word, f32::INFINITY, random)
    }),
    ("noise and one NaN", |word, random| {
        one(word, f32::NAN, random)
    }),
    ("noise and one zero", |word, random| one(word, 0.0, random)),
    ("any bits", |word, random| {
        each(word, random, |_, random| {
            f32::from_bits(random.next() as u32)
        })
    }),
    ("zeros of both signs, some ones", zeros),
    ("infinities", |word, random| {
        each(word, random, |bit, _| sign(bit) * f32::INFINITY)
    }),
    ("denormals", denormals),
    ("huge", |word, random| scaled(word, 1e38, random)),
    ("near the certain reading", |word, random| {
        scaled(word, 1e6, random)
    }),
    ("of every size", every_size),
    ("neighbours of one magnitude", neighbours),
];

/// Zeros, infinities, NaNs, denormals, the least and the largest numbers, and what the code itself uses.
const ODD: [f32; 26] = [
    0.0,
    -0.0,
    f32::INFINITY,
    f32::NEG_INFINITY,
    f32::NAN,
    f32::from_bits(0xFFC0_0001),
    f32::from_bits(0x7F80_0001),
    1e-45,
    -1e-45,
    1e-39,
    -1e-39,
    f32::MIN_POSITIVE,
    -f32::MIN_POSITIVE,
    f32::MAX,
    f32::MIN,
    1e-30,
    -1e-30,
    1e8,
    -1e8,
    1e6,
    -1e6,
    1.0,
    -1.0,
    0.75,
    -0.75,
    f32::EPSILON,
];

fn sign(bit: bool) -> f32 {
    if bit {
        -1.0
    } else {
        1.0
    }
}

/// A reading for each bit.
fn each(
    word: &[bool],
    random: &mut Random,
    reading: impl Fn(bool, &mut Random) -> f32,
) -> Vec<f32> {
    word.iter().map(|&bit| reading(bit, random)).collect()
}

/// The codeword's bit, sometimes the other.
fn flipped(bit: bool, random: &mut Random) -> f32 {
    sign(bit ^ random.one_in(16))
}

fn noise(word: &[bool], level: f64, random: &mut Random) -> Vec<f32> {
    each(word, random, |bit, random| {
        sign(bit) + (level * random.gauss()) as f32
    })
}

fn random_signs(word: &[bool], random: &mut Random) -> Vec<f32> {
    each(word, random, |_, random| sign(random.bit()))
}

fn one_magnitude(word: &[bool], random: &mut Random) -> Vec<f32> {
    let magnitude = random.pick(&[1.0, 0.1, 0.3, 1e-3, 7.0, 1e6, 1e-44, 3e38]);
    each(word, random, |bit, random| flipped(bit, random) * magnitude)
}

fn four_magnitudes(word: &[bool], random: &mut Random) -> Vec<f32> {
    each(word, random, |bit, random| {
        flipped(bit, random) * random.pick(&[0.5, 1.0, 1.5, 2.0])
    })
}

fn all_equal(word: &[bool], random: &mut Random) -> Vec<f32> {
    vec![random.pick(&ODD); word.len()]
}

fn odd_numbers(word: &[bool], random: &mut Random) -> Vec<f32> {
    each(word, random, |_, random| random.pick(&ODD))
}

fn some_odd(word: &[bool], random: &mut Random) -> Vec<f32> {
    let often = random.pick(&[4, 16, 64]);
    let mut rx = noise(word, 0.6, random);
    for x in &mut rx {
        if random.one_in(often) {
            *x = random.pick(&ODD);
        }
    }
    rx
}

/// Noise, and at one place this reading with either sign.
fn one(word: &[bool], reading: f32, random: &mut Random) -> Vec<f32> {
    let mut rx = noise(word, 0.6, random);
    let place = random.below(rx.len());
    rx[place] = sign(random.bit()) * reading;
    rx
}

fn zeros(word: &[bool], random: &mut Random) -> Vec<f32> {
    each(word, random, |bit, random| {
        if random.one_in(4) {
            sign(bit)
        } else {
            sign(random.bit()) * 0.0
        }
    })
}

/// Numbers below the least normal one, whose products are rounded coarsely.
fn denormals(word: &[bool], random: &mut Random) -> Vec<f32> {
    each(word, random, |bit, random| {
        let bits = random.next() as u32 % (1 << (1 + random.below(23)));
        flipped(bit, random) * f32::from_bits(bits)
    })
}

/// Noise around a large number, past the largest at times.
fn scaled(word: &[bool], by: f32, random: &mut Random) -> Vec<f32> {
    let rx = noise(word, 0.7, random);
    rx.iter().map(|x| x * by).collect()
}

/// Signs with few flips, and any exponent.
fn every_size(word: &[bool], random: &mut Random) -> Vec<f32> {
    each(word, random, |bit, random| {
        let bits = random.next() as u32 & 0x7FFF_FFFF;
        flipped(bit, random) * f32::from_bits(bits % 0x7F80_0000)
    })
}

/// Magnitudes that differ in the last bit or not at all.
fn neighbours(word: &[bool], random: &mut Random) -> Vec<f32> {
    let middle = random.pick(&[1f32, 0.75, 1e6, 3.3]).to_bits();
    each(word, random, |bit, random| {
        flipped(bit, random) * f32::from_bits(middle + random.below(3) as u32 - 1)
    })
}
