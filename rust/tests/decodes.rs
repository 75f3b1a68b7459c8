//! Codewords, and decodes broken into grants.
mod common;

use common::{code, codeword, keys, Draws, Number, CODES, ODD};
use fuyegbo::{Code, Decode, DecodeResult};

#[test]
fn a_codeword_meets_every_check() {
    let mut draws = Draws(1);
    for (rate, n_tx) in CODES {
        let c = code(rate, n_tx);
        let mut word = codeword(&c, &mut draws);
        assert_eq!(c.unsatisfied(&word), Ok(0));
        // missing bits are 0, and those past n_tx don't count
        let ones = word.iter().rposition(|&bit| bit == 1).map_or(0, |i| i + 1);
        assert_eq!(c.unsatisfied(&word[..ones]), Ok(0));
        word.extend([1; 5]);
        assert_eq!(c.unsatisfied(&word), Ok(0));
    }
}

/// Unsatisfied checks, counted by the lists of their members.
#[test]
fn checks_are_their_members() {
    let mut draws = Draws(2);
    for (rate, n_tx) in CODES {
        let c = code(rate, n_tx);
        let checks = n_tx - c.info_bits();
        let word = draws.bits(n_tx);
        let mut list = [0; 64];
        let mut failed = 0;
        for check in 0..checks {
            let n = c.check_members(check, &mut list).unwrap();
            let sum: usize = list[..n].iter().map(|&i| word[i as usize] as usize).sum();
            failed += sum % 2;
        }
        assert_eq!(c.unsatisfied(&word), Ok(failed));
    }
}

/// The one call, in memory of its own that held something else before.
fn unbroken(c: &Code, rx: &[f32], limit: u16) -> (DecodeResult, Vec<u8>, Vec<f32>) {
    let mut work = vec![f32::NAN; c.work_needed().unwrap()];
    let mut out = vec![9; rx.len()];
    let told = fuyegbo::decode(c.rate(), rx.len(), rx, limit, &mut work, &mut out).unwrap();
    (told, out, work)
}

/// A decode in drawn grants and reads; each read is held to the unbroken decode, and at the end every number.
fn broken_off(c: &Code, rx: &[f32], draws: &mut Draws) -> DecodeResult {
    let needed = c.work_needed().unwrap();
    let spare = draws.below(40);
    let mut work = vec![7.5; needed + spare];
    let mut out = vec![9; rx.len()];
    let mut d = Decode::start(c, rx, &mut work).unwrap();
    assert_eq!(d.numbers()[..6], c.numbers());
    assert_eq!(d.numbers()[6..], [0, 0]);
    let mut sum = 0;
    for _ in 0..3 + draws.below(4) {
        let g = draws.below(5) as u16;
        d.grant(g, &mut work).unwrap();
        sum += g;
        if draws.below(2) == 0 {
            let told = d.read(&work, &mut out).unwrap();
            let (one, word, _) = unbroken(c, rx, sum);
            assert_eq!((told, &out), (one, &word));
        }
        // the record goes by its numbers as well as by itself
        d = Decode::from_numbers(d.numbers());
    }
    let told = d.read(&work, &mut out).unwrap();
    let (one, word, numbers) = unbroken(c, rx, sum);
    assert_eq!((told, &out), (one, &word));
    assert_eq!(
        (told.iterations as usize, told.converged),
        (d.iterations(), d.converged())
    );
    assert_eq!(keys(&work[..needed]), keys(&numbers));
    assert_eq!(keys(&work[needed..]), vec![7.5f32.key(); spare]);
    told
}

#[test]
fn grants_are_one_call() {
    let mut draws = Draws(3);
    let mut converged = 0;
    let mut blocks = 0;
    for (rate, n_tx) in CODES {
        let c = code(rate, n_tx);
        for turn in 0..12 {
            let word = codeword(&c, &mut draws);
            let mut rx = draws.readings(&word, 0.15 * turn as f32);
            if turn % 4 == 3 {
                for _ in 0..1 + n_tx / 20 {
                    let at = draws.below(n_tx);
                    rx[at] = ODD[draws.below(ODD.len())];
                }
            }
            converged += broken_off(&c, &rx, &mut draws).converged as usize;
            blocks += 1;
        }
    }
    // both ends are met
    assert!(20 < converged && converged < blocks - 20, "{converged}");
}

#[test]
fn no_noise_ends_at_once() {
    let mut draws = Draws(4);
    for (rate, n_tx) in CODES {
        let c = code(rate, n_tx);
        let word = codeword(&c, &mut draws);
        // any size, 0 and infinity among them; only the sign counts
        let rx: Vec<f32> = word
            .iter()
            .map(|&bit| {
                let size = [1e-45, 1e-20, 0.3, 1.0, 9e9, 3e38, f32::INFINITY][draws.below(7)];
                match bit {
                    1 => -size,
                    _ => [size, 0.0, -0.0][draws.below(3)],
                }
            })
            .collect();
        for limit in [1, 2, 65_535] {
            let (told, out, _) = unbroken(&c, &rx, limit);
            assert_eq!(
                told,
                DecodeResult {
                    iterations: 1,
                    converged: true,
                    clean: true
                }
            );
            assert_eq!(out, word);
        }
    }
}

#[test]
fn noise_is_taken_out() {
    let mut draws = Draws(5);
    for (rate, much) in [(0, 0.4), (1, 0.5), (2, 0.55), (3, 0.6), (4, 0.65), (5, 0.7)] {
        let c = code(rate, 3_000);
        let word = codeword(&c, &mut draws);
        let rx = draws.readings(&word, much);
        let wrong = rx
            .iter()
            .zip(&word)
            .filter(|(x, b)| (**x < 0.0) != (**b == 1));
        assert!(wrong.count() > 0);
        let (told, out, _) = unbroken(&c, &rx, 50);
        assert!(told.clean && out == word, "rate {rate}: {told:?}");
    }
}

#[test]
fn longest() {
    let mut draws = Draws(6);
    for rate in 0..6 {
        let c = code(rate, 19_440);
        let word = codeword(&c, &mut draws);
        assert_eq!(c.unsatisfied(&word), Ok(0));
        let rx = draws.readings(&word, 0.25);
        let told = broken_off(&c, &rx, &mut draws);
        let (all, out, _) = unbroken(&c, &rx, 50);
        assert!(all.clean && out == word, "rate {rate}: {told:?}, {all:?}");
    }
}

/// Clean goes by the word, whatever the record says.
#[test]
fn a_flag_does_not_make_it_clean() {
    let c = code(5, 10);
    let mut rx = [1.0; 10];
    rx[0] = -1.0;
    let mut work = [7.5; 68];
    let mut out = [9; 10];
    let d = Decode::start(&c, &rx, &mut work).unwrap();
    let mut numbers = d.numbers();
    numbers[6] = 65_535;
    numbers[7] = 1;
    let told = Decode::from_numbers(numbers).read(&work, &mut out);
    assert_eq!(
        told,
        Ok(DecodeResult {
            iterations: 65_535,
            converged: true,
            clean: false
        })
    );
}
