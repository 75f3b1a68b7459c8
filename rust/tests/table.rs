//! The commissioning table, row by row.
mod common;

use common::{code, refusal};
use fuyegbo::{graph, Code, Decode, DecodeResult};

fn digits(text: &str) -> Vec<u8> {
    text.bytes().map(|b| b - b'0').collect()
}

#[test]
fn codes_made() {
    // rate, n_tx, family, z, k, shortened
    let rows = [
        [0, 4, 1, 1, 1, 16],
        [0, 9, 1, 1, 6, 11],
        [0, 10, 0, 1, 1, 50],
        [4, 10, 2, 1, 4, 0],
        [4, 12, 1, 1, 1, 8],
        [5, 20, 1, 1, 7, 0],
        [5, 22, 2, 3, 1, 8],
        [0, 61, 0, 2, 43, 59],
        [0, 19_440, 0, 324, 16_524, 0],
    ];
    for row in rows {
        let c = code(row[0], row[1]);
        assert_eq!(c.numbers(), row);
        assert_eq!(c, Code::from_numbers(row));
        let fields = [
            c.rate(),
            c.coded_bits(),
            c.family(),
            c.lift(),
            c.info_bits(),
            c.shortened_bits(),
        ];
        assert_eq!(fields, row);
    }
    assert_eq!(Code::new(9, 10), Code::new(5, 10));
    assert_eq!(Code::new(usize::MAX, 10), Code::new(5, 10));
}

#[test]
fn codes_refused() {
    for (rate, n_tx) in [(0, 3), (4, 11), (5, 21), (0, 0), (5, 0)] {
        assert_eq!(Code::new(rate, n_tx), refusal(1, 1, n_tx));
    }
    for n_tx in [19_441, 65_536 + 61, usize::MAX] {
        assert_eq!(Code::new(0, n_tx), refusal(2, n_tx, 19_440));
    }
}

#[test]
fn every_length() {
    // the lengths that no family serves
    let refused: [&[usize]; 6] = [
        &[0, 1, 2, 3],
        &[0, 1, 2, 3],
        &[0, 1, 2, 3, 4],
        &[0, 1, 2, 3, 4, 5],
        &[0, 1, 2, 3, 4, 5, 6, 11],
        &[0, 1, 2, 3, 4, 5, 6, 7, 11, 12, 13, 21],
    ];
    let mut most = 0;
    for (rate, none) in refused.iter().enumerate() {
        for n_tx in 0..=19_440 {
            let made = Code::new(rate, n_tx);
            assert_eq!(made.is_err(), none.contains(&n_tx), "({rate}, {n_tx})");
            if let Ok(c) = made {
                most = most.max(c.work_needed().unwrap());
            }
        }
    }
    assert_eq!(most, fuyegbo::MAX_WORK);
}

#[test]
fn sizes() {
    // 2 * N + 2 * E, and k / n_tx
    assert_eq!(code(5, 10).work_needed(), Ok(68));
    assert_eq!(code(2, 1_000).work_needed(), Ok(7_480));
    assert_eq!(code(0, 19_440).work_needed(), Ok(150_336));
    assert_eq!(code(5, 10).effective_rate(), Ok(0.3));
    assert_eq!(code(0, 61).effective_rate(), Ok(43.0 / 61.0));
    assert_eq!(code(0, 19_440).effective_rate(), Ok(0.85));
}

#[test]
fn encodings() {
    for (rate, n_tx, info, word) in [
        (5, 10, "100", "1001001011"),
        (5, 10, "010", "0101100001"),
        (5, 22, "1", "1100101101111110100100"),
    ] {
        let c = code(rate, n_tx);
        let mut out = vec![9; n_tx];
        c.encode(&digits(info), &mut out).unwrap();
        assert_eq!(out, digits(word));
        assert_eq!(c.unsatisfied(&out), Ok(0));
        for i in 0..n_tx {
            out[i] ^= 1;
            assert_ne!(c.unsatisfied(&out), Ok(0), "bit {i} toggled");
            out[i] ^= 1;
        }
    }
}

/// A decode by a start, one grant and a read; and by the one call, which must tell the same.
fn decoded(rate: usize, rx: &[f32], g: u16) -> (String, DecodeResult, usize) {
    let c = code(rate, rx.len());
    let mut work = vec![7.5; c.work_needed().unwrap()];
    let mut out = vec![9; rx.len()];
    let mut d = Decode::start(&c, rx, &mut work).unwrap();
    d.grant(g, &mut work).unwrap();
    let result = d.read(&work, &mut out).unwrap();
    let mut word = vec![9; rx.len()];
    let one = fuyegbo::decode(rate, rx.len(), rx, g, &mut work, &mut word);
    assert_eq!((one, &word), (Ok(result), &out));
    let text = out.iter().map(|bit| bit.to_string()).collect();
    (text, result, c.unsatisfied(&out).unwrap())
}

fn result(iterations: u16, converged: bool, clean: bool) -> DecodeResult {
    DecodeResult {
        iterations,
        converged,
        clean,
    }
}

#[test]
fn one_negative_reading() {
    let mut rx = [1.0; 10];
    rx[0] = -1.0;
    let (word, told, _) = decoded(5, &rx, 1);
    assert_eq!((word.as_str(), told), ("0000000000", result(1, true, true)));
    let (word, told, _) = decoded(5, &rx, 50);
    assert_eq!((word.as_str(), told), ("0000000000", result(1, true, true)));
    let (word, told, _) = decoded(5, &rx, 0);
    assert_eq!(
        (word.as_str(), told),
        ("1000000000", result(0, false, false))
    );
}

#[test]
fn converged_and_not_clean() {
    let mut rx = [1e8; 9];
    for i in [2, 3, 6] {
        rx[i] = -1e8;
    }
    let (word, told, unsatisfied) = decoded(5, &rx, 50);
    assert_eq!(
        (word.as_str(), told, unsatisfied),
        ("001100100", result(1, true, false), 3)
    );
}

#[test]
fn four_cycles() {
    let rows = [0, 1, 2, 0, 1, 2];
    let shifts = [0, 0, 0, 0, 0, 1];
    assert_eq!(graph::four_cycles(5, 2, &rows, &shifts, 5), Ok(1));
    assert_eq!(graph::four_cycles(5, 2, &rows, &shifts, 1), Ok(3));
}
