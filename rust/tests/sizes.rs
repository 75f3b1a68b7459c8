//! The slices of fixed size, through the raw calls: what is refused where one has another size, and what a call writes of its
//! answer.
mod common;

use common::{bytes, code, halves, list, work, Lent};
use fuyegbo::sys;

/// Numbers that no call answers.
const BLANK: usize = 0xA5A5_A5A5;

fn blank(n: usize) -> Lent<usize> {
    Lent::new(&vec![BLANK; n], 77)
}

/// The slices that a call may be lent, of good content; a test lends some of them in another size.
struct Slices {
    answer: Lent<usize>,
    code: Lent<usize>,
    decode: Lent<usize>,
    rate: Lent<f32>,
    info: Lent<u8>,
    word: Lent<u8>,
    rx: Lent<f32>,
    work: Lent<f32>,
    list: Lent<u32>,
    rows: Lent<u8>,
    shifts: Lent<u16>,
}

/// How long the slices of fixed size are to be.
#[derive(Clone, Copy)]
struct Fixed {
    answer: usize,
    code: usize,
    decode: usize,
    rate: usize,
}

const RIGHT: Fixed = Fixed {
    answer: 3,
    code: 6,
    decode: 8,
    rate: 1,
};

/// The front of the numbers, or as many more.
fn cut(numbers: &[usize], n: usize) -> Lent<usize> {
    let mut part = numbers.to_vec();
    part.resize(n, 0);
    Lent::new(&part, 77)
}

impl Slices {
    fn new(fixed: Fixed) -> Slices {
        let c = code(5, 10);
        let mut decode = c.numbers().to_vec();
        decode.extend([5, 0]);
        Slices {
            answer: blank(fixed.answer),
            code: cut(&c.numbers(), fixed.code),
            decode: cut(&decode, fixed.decode),
            rate: Lent::new(&vec![7.5; fixed.rate], 9.0),
            info: Lent::new(&[1, 0, 1], 9),
            word: bytes(10),
            rx: Lent::new(&[1.0; 10], 9.0),
            work: work(c.work_needed().unwrap()),
            list: list(20),
            rows: Lent::new(&[0, 1, 2, 0, 1, 2], 0x5A),
            shifts: halves(6),
        }
    }

    fn unchanged_but_answer(&self) {
        self.code.unchanged();
        self.decode.unchanged();
        self.rate.unchanged();
        self.info.unchanged();
        self.word.unchanged();
        self.rx.unchanged();
        self.work.unchanged();
        self.list.unchanged();
        self.rows.unchanged();
        self.shifts.unchanged();
    }
}

/// Which slices of fixed size a call has besides its answer: a record read, a record written, a rate.
#[derive(Clone, Copy)]
enum Takes {
    Nothing,
    CodeRead,
    CodeWritten,
    CodeReadDecodeWritten,
    DecodeRead,
    CodeReadRateWritten,
}

/// A call over those slices.
struct Call {
    name: &'static str,
    takes: Takes,
    run: fn(&mut Slices) -> usize,
    /// How many numbers of the answer are written where it is not refused.
    tells: usize,
}

/// A slice as a call takes it.
macro_rules! lend {
    ($f:ident($s:ident $(, $arg:tt)*)) => {
        // SAFETY: each pointer and length is of one slice, no two of them overlap, and the slices outlive the call.
        unsafe { lend!(@ $f $s [] $($arg)*) }
    };
    (@ $f:ident $s:ident [$($done:expr,)*]) => {
        sys::$f($($done,)*)
    };
    (@ $f:ident $s:ident [$($done:expr,)*] ($value:expr) $($rest:tt)*) => {
        lend!(@ $f $s [$($done,)* $value,] $($rest)*)
    };
    (@ $f:ident $s:ident [$($done:expr,)*] $name:ident $($rest:tt)*) => {
        lend!(@ $f $s [$($done,)* $s.$name.part().as_mut_ptr(), $s.$name.part().len(),] $($rest)*)
    };
}

fn calls() -> Vec<Call> {
    let call = |name, takes, run, tells| Call {
        name,
        takes,
        run,
        tells,
    };
    use Takes::*;
    vec![
        call(
            "code",
            CodeWritten,
            |s| lend!(fuyegbo_code(s, (5), (10), code, answer)),
            0,
        ),
        call(
            "work_needed",
            CodeRead,
            |s| lend!(fuyegbo_work_needed(s, code, answer)),
            1,
        ),
        call(
            "effective_rate",
            CodeReadRateWritten,
            |s| lend!(fuyegbo_effective_rate(s, code, rate, answer)),
            0,
        ),
        call(
            "check_members",
            CodeRead,
            |s| lend!(fuyegbo_check_members(s, code, (0), list, answer)),
            1,
        ),
        call(
            "unsatisfied",
            CodeRead,
            |s| lend!(fuyegbo_unsatisfied(s, code, info, answer)),
            1,
        ),
        call(
            "encode",
            CodeRead,
            |s| lend!(fuyegbo_encode(s, code, info, word, answer)),
            0,
        ),
        call(
            "start",
            CodeReadDecodeWritten,
            |s| lend!(fuyegbo_start(s, code, rx, work, decode, answer)),
            0,
        ),
        call(
            "grant",
            DecodeRead,
            |s| lend!(fuyegbo_grant(s, decode, (1), work, answer)),
            0,
        ),
        call(
            "read",
            DecodeRead,
            |s| lend!(fuyegbo_read(s, decode, work, word, answer)),
            3,
        ),
        call(
            "decode",
            Nothing,
            |s| lend!(fuyegbo_decode(s, (5), (10), rx, (9), work, word, answer)),
            3,
        ),
        call(
            "information_columns",
            Nothing,
            |s| lend!(fuyegbo_information_columns(s, (10), (70), answer)),
            1,
        ),
        call(
            "peg",
            Nothing,
            |s| lend!(fuyegbo_peg(s, (5), (2), rows, answer)),
            0,
        ),
        call(
            "assign_shifts",
            Nothing,
            |s| {
                lend!(fuyegbo_assign_shifts(
                    s,
                    (5),
                    (2),
                    rows,
                    (1),
                    shifts,
                    answer
                ))
            },
            0,
        ),
        call(
            "build",
            Nothing,
            |s| lend!(fuyegbo_build(s, (5), (40), (1), rows, shifts, answer)),
            0,
        ),
        call(
            "four_cycles",
            Nothing,
            |s| lend!(fuyegbo_four_cycles(s, (5), (2), rows, shifts, (5), answer)),
            1,
        ),
    ]
}

/// Runs a call that must be refused so; its answer has the pair and nothing more.
fn refused(call: &Call, fixed: Fixed, number: usize, given: usize, wanted: usize) {
    let mut s = Slices::new(fixed);
    assert_eq!((call.run)(&mut s), number, "{}", call.name);
    assert_eq!(s.answer.part(), [given, wanted, BLANK], "{}", call.name);
    s.answer.unchanged_but(2);
    s.unchanged_but_answer();
}

const ANSWERS: [usize; 5] = [0, 1, 2, 4, 9];
const CODES: [usize; 5] = [0, 1, 5, 7, 8];
const DECODES: [usize; 5] = [0, 6, 7, 9, 12];

#[test]
fn nothing_is_written_to_an_answer_of_another_size() {
    for call in calls() {
        for answer in ANSWERS {
            // it is the first test, whatever else is wrong
            for (code, decode) in [(6, 8), (5, 7), (7, 9), (0, 0)] {
                let mut s = Slices::new(Fixed {
                    answer,
                    code,
                    decode,
                    ..RIGHT
                });
                assert_eq!((call.run)(&mut s), 9, "{}", call.name);
                s.answer.unchanged();
                s.unchanged_but_answer();
            }
        }
    }
}

#[test]
fn records_of_another_size() {
    use Takes::*;
    for call in calls() {
        for code in CODES {
            let fixed = Fixed { code, ..RIGHT };
            match call.takes {
                CodeRead | CodeReadRateWritten => refused(&call, fixed, 5, code, 6),
                CodeWritten => refused(&call, fixed, 9, code, 6),
                CodeReadDecodeWritten => {
                    // the one read before the one written
                    refused(&call, fixed, 5, code, 6);
                    let decode = 7;
                    refused(&call, Fixed { decode, ..fixed }, 5, code, 6);
                }
                DecodeRead | Nothing => {}
            }
        }
        for decode in DECODES {
            let fixed = Fixed { decode, ..RIGHT };
            match call.takes {
                DecodeRead => refused(&call, fixed, 5, decode, 8),
                CodeReadDecodeWritten => refused(&call, fixed, 9, decode, 8),
                _ => {}
            }
        }
    }
}

/// Sizes come before what a call's own list begins with.
#[test]
fn sizes_before_the_rest() {
    use Takes::*;
    for call in calls() {
        let mut s = Slices::new(RIGHT);
        let (number, given, wanted) = match call.takes {
            CodeReadDecodeWritten => {
                // 9 for the record written, before 11 for the one read
                s.decode = cut(&[0; 7], 7);
                s.code = cut(&[1; 6], 6);
                (9, 7, 8)
            }
            CodeReadRateWritten => {
                // 11 before 9 for the rate, which is no record
                s.rate = Lent::new(&[7.5; 2], 9.0);
                s.code = cut(&[1; 6], 6);
                (11, 1, 1)
            }
            _ => continue,
        };
        assert_eq!((call.run)(&mut s), number, "{}", call.name);
        assert_eq!(s.answer.part(), [given, wanted, BLANK], "{}", call.name);
        s.unchanged_but_answer();
    }
    // a record to write, before 2 and 1
    for n_tx in [3, 19_441] {
        let mut s = Slices::new(Fixed { code: 7, ..RIGHT });
        let number = lend!(fuyegbo_code(s, (0), (n_tx), code, answer));
        assert_eq!((number, s.answer.part()), (9, [7, 6, BLANK].as_mut_slice()));
        s.unchanged_but_answer();
    }
}

/// What the wrapper does not show: a refused call writes no record, no rate, and of the answer the pair.
#[test]
fn refused_calls_write_no_record() {
    let told = |call: fn(&mut Slices) -> usize, wanted: (usize, usize, usize)| {
        let mut s = Slices::new(RIGHT);
        let number = call(&mut s);
        let answer = s.answer.part();
        assert_eq!((number, answer[0], answer[1]), wanted);
        s.answer.unchanged_but(2);
        s.unchanged_but_answer();
    };
    told(
        |s| lend!(fuyegbo_code(s, (0), (3), code, answer)),
        (1, 1, 3),
    );
    told(
        |s| lend!(fuyegbo_code(s, (0), (19_441), code, answer)),
        (2, 19_441, 19_440),
    );
    told(
        |s| {
            s.code = cut(&[5, 10, 2, 1, 3, 1], 6);
            lend!(fuyegbo_effective_rate(s, code, rate, answer))
        },
        (11, 5, 10),
    );
    told(
        |s| {
            s.code = cut(&[5, 10, 2, 1, 3, 1], 6);
            lend!(fuyegbo_start(s, code, rx, work, decode, answer))
        },
        (11, 5, 10),
    );
    told(
        |s| {
            s.rx = Lent::new(&[1.0; 9], 9.0);
            lend!(fuyegbo_start(s, code, rx, work, decode, answer))
        },
        (5, 9, 10),
    );
    told(
        |s| {
            s.work = work(67);
            lend!(fuyegbo_start(s, code, rx, work, decode, answer))
        },
        (8, 67, 68),
    );
    told(
        |s| {
            s.work = work(67);
            lend!(fuyegbo_grant(s, decode, (1), work, answer))
        },
        (8, 67, 68),
    );
    told(
        |s| lend!(fuyegbo_grant(s, decode, (65_531), work, answer)),
        (10, 65_536, 65_535),
    );
    told(
        |s| {
            s.decode = cut(&[5, 10, 2, 1, 3, 0, 5, 2], 8);
            lend!(fuyegbo_grant(s, decode, (1), work, answer))
        },
        (11, 5, 10),
    );
}

#[test]
fn one_float_for_the_rate() {
    for call in calls() {
        if let Takes::CodeReadRateWritten = call.takes {
            for rate in [0, 2, 8] {
                refused(&call, Fixed { rate, ..RIGHT }, 9, rate, 1);
            }
        }
    }
}

#[test]
fn only_the_front_of_an_answer_is_written() {
    for call in calls() {
        let mut s = Slices::new(RIGHT);
        assert_eq!((call.run)(&mut s), 0, "{}", call.name);
        s.answer.unchanged_but(call.tells);
        assert!(
            !s.answer.part()[..call.tells].contains(&BLANK),
            "{}",
            call.name
        );
        // what is read is never written
        match call.name {
            "code" => s.code.unchanged_but(6),
            _ => s.code.unchanged(),
        }
        match call.name {
            "start" | "grant" => s.decode.unchanged_but(8),
            _ => s.decode.unchanged(),
        }
        match call.name {
            "effective_rate" => s.rate.unchanged_but(1),
            _ => s.rate.unchanged(),
        }
        match call.name {
            "encode" | "read" | "decode" => s.word.unchanged_but(10),
            _ => s.word.unchanged(),
        }
        match call.name {
            "start" | "grant" | "decode" => s.work.unchanged_but(68),
            _ => s.work.unchanged(),
        }
        match call.name {
            "peg" | "build" => s.rows.unchanged_but(6),
            _ => s.rows.unchanged(),
        }
        match call.name {
            "assign_shifts" | "build" => s.shifts.unchanged_but(6),
            _ => s.shifts.unchanged(),
        }
        match call.name {
            "check_members" => s.list.unchanged_but(s.answer.part()[0]),
            _ => s.list.unchanged(),
        }
        s.info.unchanged();
        s.rx.unchanged();
    }
}

/// A slice of 0 elements may have any pointer.
#[test]
fn empty_slices_may_be_null() {
    let mut s = Slices::new(RIGHT);
    let null = std::ptr::null_mut::<u8>();
    // SAFETY: as in `lend`; the pointer of a slice of 0 elements is not used.
    let number = unsafe {
        sys::fuyegbo_unsatisfied(
            s.code.part().as_ptr(),
            6,
            null,
            0,
            s.answer.part().as_mut_ptr(),
            3,
        )
    };
    assert_eq!((number, s.answer.part()[0]), (0, 0));
    // SAFETY: as above.
    let number = unsafe {
        sys::fuyegbo_encode(
            std::ptr::null(),
            0,
            null,
            0,
            null,
            0,
            s.answer.part().as_mut_ptr(),
            3,
        )
    };
    assert_eq!((number, &s.answer.part()[..2]), (5, [0, 6].as_slice()));
    // SAFETY: as above.
    let number = unsafe { sys::fuyegbo_peg(5, 2, null, 0, std::ptr::null_mut(), 0) };
    assert_eq!(number, 9);
}
