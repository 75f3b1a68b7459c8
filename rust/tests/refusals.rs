//! Every refusal with its pair and in its order, and nothing lent is changed. Each slice has guards on both sides.
mod common;

use common::{bytes, code, codeword, halves, list, refusal, work, Draws, Lent};
use fuyegbo::{graph, Code, Decode, Refusal};
use std::fmt::Debug;

/// Fails unless a call was refused so.
#[track_caller]
fn refused<T: PartialEq + Debug>(told: Result<T, Refusal>, number: usize, pair: (usize, usize)) {
    assert_eq!(told, refusal(number, pair.0, pair.1));
}

#[test]
fn refusals_of_codes() {
    refused(Code::new(0, 3), 1, (1, 3));
    refused(Code::new(7, 21), 1, (1, 21));
    refused(Code::new(0, 19_441), 2, (19_441, 19_440));
    let text = Code::new(0, 19_441).unwrap_err().to_string();
    assert_eq!(text, "refusal 2: 19441 transmitted bits, above 19440");
}

#[test]
fn refusals_of_check_members() {
    let c = code(2, 100);
    let checks = c.coded_bits() - c.info_bits();
    for check in [checks, checks + 1, usize::MAX] {
        for room in [0, 64] {
            let mut out = list(room);
            refused(c.check_members(check, out.part()), 7, (check, checks));
            out.unchanged();
        }
    }
    for check in [0, 1, checks - 1] {
        let mut out = list(64);
        let n = c.check_members(check, out.part()).unwrap();
        assert!(2 < n);
        out.unchanged_but(n);
        for room in [0, 1, n - 1] {
            let mut out = list(room);
            refused(c.check_members(check, out.part()), 9, (room, n));
            out.unchanged();
        }
        let mut out = list(n);
        assert_eq!(c.check_members(check, out.part()), Ok(n));
        out.unchanged_but(n);
    }
}

#[test]
fn refusals_of_unsatisfied() {
    let c = code(5, 10);
    for len in [1, 10, 25] {
        for (at, byte) in [(0, 2), (len - 1, 255), (len / 2, 3)] {
            let mut word = vec![1; len];
            word[at] = byte;
            // a later fault is not the first one
            if at + 1 < len {
                word[len - 1] = 77;
            }
            let mut word = Lent::new(&word, 9);
            refused(c.unsatisfied(word.part()), 6, (at, byte as usize));
            word.unchanged();
        }
    }
    assert!(c.unsatisfied(&[]).is_ok());
}

#[test]
fn refusals_of_encode() {
    let c = code(2, 100);
    let (k, n) = (c.info_bits(), c.coded_bits());
    for len in [0, k - 1, k + 1, n] {
        // 5 before 9 and 6
        for room in [n, n - 1] {
            let mut info = Lent::new(&vec![2; len], 9);
            let mut out = bytes(room);
            refused(c.encode(info.part(), out.part()), 5, (len, k));
            info.unchanged();
            out.unchanged();
        }
    }
    for room in [0, k, n - 1, n + 1] {
        // 9 before 6
        let mut info = Lent::new(&vec![2; k], 9);
        let mut out = bytes(room);
        refused(c.encode(info.part(), out.part()), 9, (room, n));
        info.unchanged();
        out.unchanged();
    }
    for at in [0, 1, k - 1] {
        for byte in [2, 128, 255] {
            let mut bits = vec![1; k];
            bits[at] = byte;
            bits[k - 1] = byte;
            let mut info = Lent::new(&bits, 9);
            let mut out = bytes(n);
            refused(c.encode(info.part(), out.part()), 6, (at, byte as usize));
            info.unchanged();
            out.unchanged();
        }
    }
    let mut info = Lent::new(&vec![1; k], 9);
    let mut out = bytes(n);
    c.encode(info.part(), out.part()).unwrap();
    info.unchanged();
    out.unchanged_but(n);
}

#[test]
fn refusals_of_start() {
    let c = code(2, 100);
    let (n, needed) = (c.coded_bits(), c.work_needed().unwrap());
    for len in [0, n - 1, n + 1] {
        // 5 before 8
        for room in [needed, 0] {
            let mut rx = Lent::new(&vec![1.0; len], 9.0);
            let mut memory = work(room);
            refused(Decode::start(&c, rx.part(), memory.part()), 5, (len, n));
            rx.unchanged();
            memory.unchanged();
        }
    }
    for room in [0, 1, needed - 1] {
        let mut rx = Lent::new(&vec![-1.0; n], 9.0);
        let mut memory = work(room);
        refused(
            Decode::start(&c, rx.part(), memory.part()),
            8,
            (room, needed),
        );
        rx.unchanged();
        memory.unchanged();
    }
    for room in [needed, needed + 3] {
        let mut rx = Lent::new(&vec![-1.0; n], 9.0);
        let mut memory = work(room);
        assert!(Decode::start(&c, rx.part(), memory.part()).is_ok());
        rx.unchanged();
        memory.unchanged_but(needed);
    }
}

/// A decode under way, at 3 iterations and not converged, with its memory of so many numbers.
fn under_way(c: &Code, spare: usize) -> (Decode, Vec<f32>) {
    let mut draws = Draws(8);
    let word = codeword(c, &mut draws);
    let rx = draws.readings(&word, 2.0);
    let mut memory = vec![7.5; c.work_needed().unwrap() + spare];
    let mut d = Decode::start(c, &rx, &mut memory).unwrap();
    d.grant(3, &mut memory).unwrap();
    assert_eq!((d.iterations(), d.converged()), (3, false));
    (d, memory)
}

#[test]
fn refusals_of_grant() {
    let c = code(2, 100);
    let needed = c.work_needed().unwrap();
    let (d, memory) = under_way(&c, 3);
    for room in [0, 1, needed - 1] {
        // 8 before 10
        for g in [0, 1, 65_535] {
            let mut lent = Lent::new(&memory[..room], -2.25);
            let mut record = d.clone();
            refused(record.grant(g, lent.part()), 8, (room, needed));
            assert_eq!(record, d);
            lent.unchanged();
        }
    }
    let mut lent = Lent::new(&memory, -2.25);
    let mut record = d.clone();
    for (g, sum) in [(65_533, 65_536), (65_534, 65_537), (65_535, 65_538)] {
        refused(record.grant(g, lent.part()), 10, (sum, 65_535));
        assert_eq!(record, d);
        lent.unchanged();
    }
    record.grant(0, lent.part()).unwrap();
    assert_eq!(record, d);
    lent.unchanged();
    record.grant(1, lent.part()).unwrap();
    assert_eq!(record.iterations(), 4);
    lent.unchanged_but(needed);
}

/// 10 counts for a converged decode too, and what it accepts there changes nothing.
#[test]
fn grants_of_a_converged_decode() {
    let c = code(5, 10);
    let mut memory = work(c.work_needed().unwrap());
    let mut d = Decode::start(&c, &[1.0; 10], memory.part()).unwrap();
    d.grant(65_535, memory.part()).unwrap();
    assert_eq!((d.iterations(), d.converged()), (1, true));
    let before = d.clone();
    let mut memory = Lent::new(memory.part(), -2.25);
    refused(d.grant(65_535, memory.part()), 10, (65_536, 65_535));
    assert_eq!(d, before);
    for g in [0, 1, 65_534] {
        d.grant(g, memory.part()).unwrap();
        assert_eq!(d, before);
    }
    memory.unchanged();
}

#[test]
fn the_last_iteration() {
    let c = code(2, 100);
    let (d, mut memory) = under_way(&c, 0);
    let mut numbers = d.numbers();
    numbers[6] = 65_534;
    let mut record = Decode::from_numbers(numbers);
    refused(record.grant(2, &mut memory), 10, (65_536, 65_535));
    record.grant(1, &mut memory).unwrap();
    assert_eq!(record.iterations(), 65_535);
    refused(record.grant(1, &mut memory), 10, (65_536, 65_535));
    refused(record.grant(65_535, &mut memory), 10, (131_070, 65_535));
    record.grant(0, &mut memory).unwrap();
}

#[test]
fn refusals_of_read() {
    let c = code(2, 100);
    let (n, needed) = (c.coded_bits(), c.work_needed().unwrap());
    let (d, memory) = under_way(&c, 3);
    for room in [0, n - 1, n + 1] {
        // 9 before 8
        for lent in [needed, 0] {
            let mut lent = Lent::new(&memory[..lent], -2.25);
            let mut out = bytes(room);
            refused(d.read(lent.part(), out.part()), 9, (room, n));
            lent.unchanged();
            out.unchanged();
        }
    }
    for room in [0, 1, needed - 1] {
        let mut lent = Lent::new(&memory[..room], -2.25);
        let mut out = bytes(n);
        refused(d.read(lent.part(), out.part()), 8, (room, needed));
        lent.unchanged();
        out.unchanged();
    }
    let mut lent = Lent::new(&memory, -2.25);
    let mut out = bytes(n);
    d.read(lent.part(), out.part()).unwrap();
    lent.unchanged();
    out.unchanged_but(n);
}

#[test]
fn refusals_of_the_one_call() {
    let c = code(2, 100);
    let (n, needed) = (c.coded_bits(), c.work_needed().unwrap());
    // rate, n_tx, readings, work memory, output: the refusal
    let cases = [
        (0, 19_441, 1, 1, 1, (2, 19_441, 19_440)),
        (5, 21, 1, 1, 1, (1, 1, 21)),
        (2, n, n - 1, 0, 0, (5, n - 1, n)),
        (2, n, n + 1, needed, n, (5, n + 1, n)),
        (2, n, n, 0, n - 1, (9, n - 1, n)),
        (2, n, n, needed, n + 1, (9, n + 1, n)),
        (2, n, n, needed - 1, n, (8, needed - 1, needed)),
        (2, n, n, 0, n, (8, 0, needed)),
    ];
    for (rate, n_tx, readings, room, out, told) in cases {
        let mut rx = Lent::new(&vec![-1.0; readings], 9.0);
        let mut memory = work(room);
        let mut out = bytes(out);
        let answer = fuyegbo::decode(rate, n_tx, rx.part(), 5, memory.part(), out.part());
        refused(answer, told.0, (told.1, told.2));
        rx.unchanged();
        memory.unchanged();
        out.unchanged();
    }
    let mut rx = Lent::new(&vec![-1.0; n], 9.0);
    let mut memory = work(needed + 3);
    let mut out = bytes(n);
    fuyegbo::decode(2, n, rx.part(), 65_535, memory.part(), out.part()).unwrap();
    rx.unchanged();
    memory.unchanged_but(needed);
    out.unchanged_but(n);
}

/// Every call that takes a record refuses this one with 11, before all else, and changes nothing.
#[track_caller]
fn no_code(numbers: [usize; 6]) {
    let c = Code::from_numbers(numbers);
    let pair = (numbers[0], numbers[1]);
    refused(c.work_needed(), 11, pair);
    refused(c.effective_rate(), 11, pair);
    let mut out = list(64);
    refused(c.check_members(0, out.part()), 11, pair);
    refused(c.check_members(usize::MAX, out.part()), 11, pair);
    out.unchanged();
    refused(c.unsatisfied(&[0; 3]), 11, pair);
    refused(c.unsatisfied(&[2; 3]), 11, pair);
    let mut out = bytes(100);
    refused(c.encode(&[2; 3], out.part()), 11, pair);
    out.unchanged();
    let mut memory = work(800);
    refused(Decode::start(&c, &[1.0; 3], memory.part()), 11, pair);
    refused(Decode::start(&c, &[1.0; 3], &mut []), 11, pair);
    memory.unchanged();
    for tail in [[0, 0], [3, 0], [3, 1]] {
        let mut record = [0; 8];
        record[..6].copy_from_slice(&numbers);
        record[6..].copy_from_slice(&tail);
        no_decode(record);
    }
}

/// The same of a decode record.
#[track_caller]
fn no_decode(numbers: [usize; 8]) {
    let pair = (numbers[0], numbers[1]);
    for g in [0, 1, 65_535] {
        for room in [0, 800] {
            let mut memory = work(room);
            let mut record = Lent::new(&numbers, 77);
            let mut d = Decode::from_numbers(record.part().try_into().unwrap());
            refused(d.grant(g, memory.part()), 11, pair);
            assert_eq!(d.numbers(), numbers);
            record.unchanged();
            memory.unchanged();
            let mut out = bytes(100);
            refused(d.read(memory.part(), out.part()), 11, pair);
            refused(d.read(memory.part(), &mut []), 11, pair);
            memory.unchanged();
            out.unchanged();
        }
    }
}

#[test]
fn forged_codes() {
    for (rate, n_tx) in [(2, 100), (0, 4), (5, 22), (5, 10), (0, 120), (0, 19_440)] {
        let true_one = code(rate, n_tx).numbers();
        for i in 0..6 {
            for forged in [
                true_one[i].wrapping_add(1),
                true_one[i].wrapping_sub(1),
                true_one[i].wrapping_add(1 << 32),
                usize::MAX,
            ] {
                let mut numbers = true_one;
                numbers[i] = forged;
                no_code(numbers);
            }
        }
    }
    // a rate above 5 and a length past the limit, with all that would follow from them
    no_code([6, 10, 2, 1, 3, 0]);
    no_code([0, 19_441, 0, 325, 16_516, 59]);
    no_code([0; 6]);
    no_code([usize::MAX; 6]);
    // the other families' records of a length that the first serves
    no_code([0, 60, 1, 3, 51, 0]);
    no_code([5, 20, 2, 2, 6, 0]);
}

#[test]
fn forged_decodes() {
    let (d, _) = under_way(&code(2, 100), 0);
    let true_one = d.numbers();
    for (i, forged) in [
        (6, 65_536),
        (6, 65_536 + 3),
        (6, 1 << 32),
        (6, usize::MAX),
        (7, 2),
        (7, 256),
        (7, 1 << 32),
        (7, usize::MAX),
    ] {
        let mut numbers = true_one;
        numbers[i] = forged;
        no_decode(numbers);
    }
    let mut numbers = true_one;
    numbers[6] = 65_536;
    numbers[7] = 2;
    no_decode(numbers);
}

#[test]
fn refusals_of_information_columns() {
    let told = graph::information_columns;
    refused(told(3, 50), 3, (3, 4));
    refused(told(0, 101), 3, (0, 4));
    refused(told(65, 101), 3, (65, 64));
    refused(told(usize::MAX, 50), 3, (usize::MAX, 64));
    refused(told(4, 101), 3, (101, 100));
    refused(told(64, usize::MAX), 3, (usize::MAX, 100));
}

#[test]
fn refusals_of_peg() {
    for (n_b, k_b, pair) in [
        (3, 0, (3, 4)),
        (65, 0, (65, 64)),
        (10, 0, (0, 1)),
        (10, 8, (8, 7)),
        (4, usize::MAX, (usize::MAX, 1)),
    ] {
        let mut rows = bytes(21);
        refused(graph::peg(n_b, k_b, rows.part()), 3, pair);
        rows.unchanged();
    }
    for room in [0, 7, 20, 22] {
        let mut rows = bytes(room);
        refused(graph::peg(10, 7, rows.part()), 9, (room, 21));
        rows.unchanged();
    }
    let mut rows = bytes(21);
    graph::peg(10, 7, rows.part()).unwrap();
    rows.unchanged_but(21);
}

/// Rows of 7 columns over 3 rows, good ones.
const ROWS: [u8; 21] = [
    0, 1, 2, 2, 1, 0, 1, 0, 2, 0, 2, 1, 2, 0, 1, 1, 2, 0, 0, 1, 2,
];

#[test]
fn refusals_of_assign_shifts() {
    // n_b, k_b, rows lent, shifts lent: the refusal
    for (n_b, k_b, given, room, told) in [
        (3, 9, 21, 21, (3, 3, 4)),
        (65, 9, 21, 21, (3, 65, 64)),
        (10, 0, 21, 21, (3, 0, 1)),
        (10, 8, 21, 21, (3, 8, 7)),
        (10, 7, 20, 20, (5, 20, 21)),
        (10, 7, 0, 21, (5, 0, 21)),
        (10, 7, 21, 20, (9, 20, 21)),
        (10, 7, 21, 22, (9, 22, 21)),
        (10, 6, 21, 21, (5, 21, 18)),
    ] {
        // a wrong row besides, which is told only where nothing else is wrong
        let mut rows = Lent::new(&vec![200; given], 0x5A);
        let mut shifts = halves(room);
        let answer = graph::assign_shifts(n_b, k_b, rows.part(), 1, shifts.part());
        refused(answer, told.0, (told.1, told.2));
        rows.unchanged();
        shifts.unchanged();
    }
    for (column, place, row) in wrong_rows() {
        let mut rows = Lent::new(&with_row(column, place, row), 0x5A);
        let mut shifts = halves(21);
        let answer = graph::assign_shifts(10, 7, rows.part(), 1, shifts.part());
        refused(answer, 4, (column, place));
        rows.unchanged();
        shifts.unchanged();
    }
    let mut rows = Lent::new(&ROWS, 0x5A);
    let mut shifts = halves(21);
    graph::assign_shifts(10, 7, rows.part(), 1, shifts.part()).unwrap();
    rows.unchanged();
    shifts.unchanged_but(21);
}

/// Column, place and row: a row that is not below m_b, or repeated in its column, first seen at its later place.
fn wrong_rows() -> Vec<(usize, usize, u8)> {
    let mut all = Vec::new();
    for column in 0..7 {
        for place in 0..3 {
            all.push((column, place, 3));
            all.push((column, place, 255));
            for earlier in 0..place {
                all.push((column, place, ROWS[3 * column + earlier]));
            }
        }
    }
    all
}

/// The good rows but for one.
fn with_row(column: usize, place: usize, row: u8) -> [u8; 21] {
    let mut rows = ROWS;
    rows[3 * column + place] = row;
    // a fault in a later column is not the first one
    if column < 6 {
        rows[20] = 200;
    }
    rows
}

#[test]
fn refusals_of_build() {
    for (n_b, percent, rows, shifts, told) in [
        (3, 101, 21, 21, (3, 3, 4)),
        (65, 70, 21, 21, (3, 65, 64)),
        (10, 101, 21, 21, (3, 101, 100)),
        (10, 70, 20, 20, (9, 20, 21)),
        (10, 70, 0, 21, (9, 0, 21)),
        (10, 70, 21, 20, (9, 20, 21)),
        (10, 70, 21, 22, (9, 22, 21)),
        (10, 70, 22, 23, (9, 22, 21)),
    ] {
        let mut rows = bytes(rows);
        let mut shifts = halves(shifts);
        let answer = graph::build(n_b, percent, 1, rows.part(), shifts.part());
        refused(answer, told.0, (told.1, told.2));
        rows.unchanged();
        shifts.unchanged();
    }
    let mut rows = bytes(21);
    let mut shifts = halves(21);
    graph::build(10, 70, 1, rows.part(), shifts.part()).unwrap();
    rows.unchanged_but(21);
    shifts.unchanged_but(21);
}

#[test]
fn refusals_of_four_cycles() {
    for (n_b, k_b, z, given, also, told) in [
        (3, 9, 0, 21, 21, (3, 3, 4)),
        (10, 8, 0, 21, 21, (3, 8, 7)),
        (10, 7, 0, 20, 20, (3, 0, 1)),
        (10, 7, 65_536, 20, 20, (3, 65_536, 65_535)),
        (10, 7, 1, 20, 19, (5, 20, 21)),
        (10, 7, 1, 21, 19, (5, 19, 21)),
        (10, 7, 65_535, 21, 22, (5, 22, 21)),
    ] {
        let mut rows = Lent::new(&vec![200; given], 0x5A);
        let mut shifts = halves(also);
        let answer = graph::four_cycles(n_b, k_b, rows.part(), shifts.part(), z);
        refused(answer, told.0, (told.1, told.2));
        rows.unchanged();
        shifts.unchanged();
    }
    for (column, place, row) in wrong_rows() {
        let mut rows = Lent::new(&with_row(column, place, row), 0x5A);
        let mut shifts = halves(21);
        let answer = graph::four_cycles(10, 7, rows.part(), shifts.part(), 1);
        refused(answer, 4, (column, place));
        rows.unchanged();
        shifts.unchanged();
    }
    // at lift 1 every pair of columns over the same three rows has three
    let mut rows = Lent::new(&ROWS, 0x5A);
    let mut shifts = halves(21);
    let answer = graph::four_cycles(10, 7, rows.part(), shifts.part(), 1);
    assert_eq!(answer, Ok(3 * 21));
    rows.unchanged();
    shifts.unchanged();
}
