//! Ours and the Rust as published, timed in one process. `run` puts this file in the place of the module `vectors` of xtask's
//! main.rs, which it builds as it stands, so that `build` can be called.
//!
//! A sample goes through all blocks of a code, again and again for some 2 ms; ours and theirs take turns, and the best of
//! SAMPLES counts. Buffers are not cleared between runs: our work memory and outputs are those of the run before, while the
//! Rust fetches its own anew in each call, which is part of its time.
//!
//! How fast a loop is goes also by where the linker puts it, by up to 14 in 100, ours and theirs. So `run` links the program at
//! several places, and of all of them the best counts: a run takes up the times that the one before left in a file.
mod random;

use fuyegbo::{graph, Decode};
use random::{seed_of, Random};
use std::fmt::Write;
use std::hint::black_box;
use std::time::Instant;

/// The lifts are 324, 17, 8, 6, 4, 3, 2 and 1: each way that a pass has for short lifts is watched.
const CODES: [(usize, usize); 15] = [
    (0, 19440),
    (2, 19440),
    (5, 19440),
    (0, 1000),
    (2, 1000),
    (5, 1000),
    (2, 480),
    (2, 350),
    (2, 200),
    (2, 150),
    (2, 100),
    (0, 60),
    (5, 60),
    (5, 10),
    (0, 10),
];

const GRAPHS: [(usize, usize); 8] = [
    (60, 85),
    (60, 65),
    (60, 35),
    (20, 85),
    (20, 35),
    (10, 85),
    (10, 35),
    (64, 0),
];

const LIMIT: u16 = 10;
const SAMPLES: usize = 15;
/// How many bits the blocks of a code have together, so that short codes have many: noise does not repeat in the field, and few
/// blocks, timed again and again, are learnt by the processor's branch predictor.
const BITS: usize = 40_000;
/// How many draws a block has to take the whole limit, before the slowest of them is taken.
const DRAWS: usize = 200;

/// Nanoseconds in the order in which they are measured: of the run before, where there was one, and the least so far.
struct Times {
    before: Vec<f64>,
    least: Vec<f64>,
}

impl Times {
    /// Of a file with a number a line. It is empty for the first run, and else has as many as this run leaves.
    fn read(path: &str) -> Times {
        let text = std::fs::read_to_string(path).expect(path);
        Times {
            before: text.lines().map(|l| l.parse().expect(path)).collect(),
            least: Vec::new(),
        }
    }

    fn write(&self, path: &str) {
        assert!(self.before.is_empty() || self.before.len() == self.least.len());
        let text: String = self.least.iter().map(|ns| format!("{ns}\n")).collect();
        std::fs::write(path, text).expect(path);
    }

    /// The less of a time and of that which the run before left in its place.
    fn least(&mut self, ns: f64) -> f64 {
        let before = self.before.get(self.least.len()).copied().unwrap_or(ns);
        self.least.push(ns.min(before));
        ns.min(before)
    }

    fn both(&mut self, (ours, theirs): (f64, f64)) -> (f64, f64) {
        (self.least(ours), self.least(theirs))
    }
}

/// The nanoseconds of one call of f, the best of some samples. `other` runs in between.
fn best(mut f: impl FnMut(), mut other: impl FnMut()) -> (f64, f64) {
    let (n, m) = (repeats(&mut f), repeats(&mut other));
    let mut least = (f64::MAX, f64::MAX);
    for _ in 0..SAMPLES {
        least.0 = least.0.min(sample(&mut f, n));
        least.1 = least.1.min(sample(&mut other, m));
    }
    least
}

fn sample(f: &mut impl FnMut(), n: usize) -> f64 {
    let start = Instant::now();
    for _ in 0..n {
        f();
    }
    start.elapsed().as_nanos() as f64 / n as f64
}

/// How often f runs in 2 ms.
fn repeats(f: &mut impl FnMut()) -> usize {
    let once = sample(f, 1).min(sample(f, 1)).max(1.0);
    (2e6 / once) as usize + 1
}

/// The blocks of a code, with what both sides decode and encode.
struct Blocks {
    ours: fuyegbo::Code,
    theirs: lcr_core::ecc::ldpc::Code,
    info: Vec<Vec<bool>>,
    bytes: Vec<Vec<u8>>,
    rx: Vec<Vec<f32>>,
    /// Iterations of all blocks together.
    iterations: usize,
    edges: usize,
}

fn bytes_of(bits: &[bool]) -> Vec<u8> {
    bits.iter().map(|&b| b as u8).collect()
}

impl Blocks {
    fn new(rate: usize, n_tx: usize) -> Blocks {
        let theirs = lcr_core::ecc::ldpc::Code::new(rate, n_tx).unwrap();
        let (_, k_b, m_b) = theirs.base_shape();
        let mut blocks = Blocks {
            ours: fuyegbo::Code::new(rate, n_tx).unwrap(),
            edges: theirs.lift() * (3 * k_b + 2 * m_b + 1),
            theirs,
            info: Vec::new(),
            bytes: Vec::new(),
            rx: Vec::new(),
            iterations: 0,
        };
        for i in 0..BITS / n_tx {
            blocks.draw(Random::new(seed_of(143, &[rate, n_tx, i])));
        }
        blocks
    }

    /// A block with noise that keeps the decoder busy, where one is found.
    fn draw(&mut self, mut random: Random) {
        let info = random.bits(self.theirs.info_bits());
        let sent = self.theirs.encode(&info).unwrap();
        let (mut rx, mut most) = (Vec::new(), 0);
        for _ in 0..DRAWS {
            let heard: Vec<f32> = sent
                .iter()
                .map(|&b| (if b { -1.0 } else { 1.0 }) + random.gauss() as f32)
                .collect();
            let iterations = self.theirs.decode(&heard, LIMIT).unwrap().iterations;
            if iterations > most {
                (rx, most) = (heard, iterations);
            }
            if most == LIMIT {
                break;
            }
        }
        self.iterations += most as usize;
        self.bytes.push(bytes_of(&info));
        self.info.push(info);
        self.rx.push(rx);
    }

    fn count(&self) -> f64 {
        self.rx.len() as f64
    }
}

/// What a code's calls take, ours and theirs, in nanoseconds for all its blocks.
fn decode_times(b: &Blocks, work: &mut [f32], out: &mut [u8]) -> (f64, f64) {
    best(
        || {
            for rx in &b.rx {
                let mut d = Decode::start(&b.ours, black_box(rx), work).unwrap();
                d.grant(LIMIT, work).unwrap();
                black_box(d.read(work, out).unwrap());
            }
        },
        || {
            for rx in &b.rx {
                black_box(b.theirs.decode(black_box(rx), LIMIT).unwrap());
            }
        },
    )
}

fn call_times(b: &Blocks, work: &mut [f32], out: &mut [u8]) -> (f64, f64) {
    let (rate, n_tx) = (b.ours.rate(), b.ours.coded_bits());
    best(
        || {
            for rx in &b.rx {
                black_box(fuyegbo::decode(rate, n_tx, black_box(rx), LIMIT, work, out).unwrap());
            }
        },
        || {
            for rx in &b.rx {
                let code = lcr_core::ecc::ldpc::Code::new(black_box(rate), n_tx).unwrap();
                black_box(code.decode(black_box(rx), LIMIT).unwrap());
            }
        },
    )
}

fn encode_times(b: &Blocks, out: &mut [u8]) -> (f64, f64) {
    best(
        || {
            for info in &b.bytes {
                b.ours.encode(black_box(info), out).unwrap();
                black_box(&out);
            }
        },
        || {
            for info in &b.info {
                black_box(b.theirs.encode(black_box(info)).unwrap());
            }
        },
    )
}

/// Ours alone, one block: start, a grant of 1 after a start less the start, and a read.
fn step_times(b: &Blocks, work: &mut [f32], out: &mut [u8]) -> (f64, f64, f64) {
    let rx = &b.rx[0];
    let mut memory = work.to_vec();
    let (start, both) = best(
        || {
            black_box(Decode::start(&b.ours, black_box(rx), work).unwrap());
        },
        || {
            let mut d = Decode::start(&b.ours, black_box(rx), &mut memory).unwrap();
            d.grant(1, &mut memory).unwrap();
            black_box(d);
        },
    );
    let mut d = Decode::start(&b.ours, rx, work).unwrap();
    d.grant(1, work).unwrap();
    let (read, _) = best(
        || {
            black_box(d.read(black_box(work), out).unwrap());
        },
        || (),
    );
    (start, both - start, read)
}

fn codes(times: &mut Times, text: &mut String) {
    writeln!(text, "decode: ns for each edge and iteration, ours and theirs; then theirs over ours for a decode on a ready code,").unwrap();
    writeln!(text, "for the one call against new and decode, and for an encoding").unwrap();
    writeln!(text, "rate  n_tx   z  iterations     ours  theirs   decode  one call  encode").unwrap();
    for (rate, n_tx) in CODES {
        let b = Blocks::new(rate, n_tx);
        let mut work = vec![0f32; b.ours.work_needed().unwrap()];
        let mut out = vec![0u8; n_tx];
        let decode = times.both(decode_times(&b, &mut work, &mut out));
        let call = times.both(call_times(&b, &mut work, &mut out));
        let encode = times.both(encode_times(&b, &mut out));
        let all = (b.edges * b.iterations) as f64;
        writeln!(
            text,
            "{rate:4} {n_tx:5} {:3}  {:10.1} {:8.2} {:7.2} {:8.2} {:9.2} {:7.2}",
            b.ours.lift(),
            b.iterations as f64 / b.count(),
            decode.0 / all,
            decode.1 / all,
            decode.1 / decode.0,
            call.1 / call.0,
            encode.1 / encode.0,
        )
        .unwrap();
    }
}

fn steps(times: &mut Times, text: &mut String) {
    writeln!(text, "\nours alone, microseconds: start, a grant of 1, a read that has not converged").unwrap();
    writeln!(text, "rate  n_tx    start  grant 1     read").unwrap();
    for (rate, n_tx) in CODES {
        let b = Blocks::new(rate, n_tx);
        let mut work = vec![0f32; b.ours.work_needed().unwrap()];
        let mut out = vec![0u8; n_tx];
        let (start, grant, read) = step_times(&b, &mut work, &mut out);
        writeln!(
            text,
            "{rate:4} {n_tx:5} {:8.2} {:8.2} {:8.2}",
            times.least(start) / 1e3,
            times.least(grant) / 1e3,
            times.least(read) / 1e3
        )
        .unwrap();
    }
}

fn graphs(times: &mut Times, text: &mut String) {
    writeln!(text, "\nbuild, microseconds, and theirs over ours\nn_b  percent     ours   theirs    build").unwrap();
    for (n_b, percent) in GRAPHS {
        let n = 3 * graph::information_columns(n_b, percent).unwrap();
        let (mut rows, mut shifts) = (vec![0u8; n], vec![0u16; n]);
        let (ours, theirs) = times.both(best(
            || graph::build(black_box(n_b), percent, 143, &mut rows, &mut shifts).unwrap(),
            || {
                black_box(crate::build(black_box(n_b), percent, 143));
            },
        ));
        writeln!(
            text,
            "{n_b:3} {percent:8} {:8.2} {:8.2} {:8.2}",
            ours / 1e3,
            theirs / 1e3,
            theirs / ours
        )
        .unwrap();
    }
}

/// xtask prints this for its task `vectors`.
pub fn report() -> String {
    let path = std::env::var("BENCH_TIMES").expect("BENCH_TIMES, the file of times, is named by bench/run");
    let mut times = Times::read(&path);
    let mut text = format!(
        "buffers are not cleared between runs; best of {SAMPLES} samples, in turns, at each place of the code; at most {LIMIT} iterations\n\n"
    );
    codes(&mut times, &mut text);
    steps(&mut times, &mut text);
    graphs(&mut times, &mut text);
    times.write(&path);
    text
}
