//! Decodes broken into lists of grants and reads, refused ones among them, and the one call. A case has a rate, n_tx, the kind
//! of its readings, a draw, and as its limit the number of calls in the list. From FAR on, draws make grants of any size.
use super::cases::{refusal, same, same_list, Case, Plan, Section};
use super::decodes::{readings, told, told_with};
use super::kinds::KINDS;
use super::lent::{Lent, Slice};
use super::random::{seed_of, Random};
use super::state::{Pair, Room, Truth};
use fuyegbo::Decode;

pub const SECTION: Section = Section {
    name: "grants",
    about: "every call of lists of grants and reads, whole work memories after each; the one call",
    cases,
    check,
    end: |_| Ok(String::new()),
    rates: 6,
    draws: 4,
};

const FAR: usize = 1_000;

/// The most iterations that a record tells.
const MOST: usize = 65_535;

const LONGER: [usize; 8] = [100, 200, 500, 1_000, 2_000, 5_000, 10_000, 19_440];

fn cases(plan: Plan) -> Vec<Case> {
    let mut cases = Vec::new();
    let mut add = |n_tx: usize, kind: usize, draw: usize, calls: usize| {
        for rate in 0..6 {
            let drawn = seed_of(plan.seed, &[rate, n_tx, kind, draw]) as usize;
            cases.push(Case::new(rate, n_tx, kind, draw, 1 + drawn % calls));
        }
    };
    for n_tx in 1..=80 {
        for i in 0..plan.of(16, 2) * KINDS.len() {
            add(n_tx, i % KINDS.len(), i / KINDS.len(), 16);
        }
        // a grant of any size takes long, so of each length some kinds only
        let step = plan.of(2, KINDS.len());
        for kind in (n_tx % step..KINDS.len()).step_by(step) {
            if n_tx <= 24 {
                add(n_tx, kind, FAR, 8);
            }
        }
    }
    for n_tx in LONGER.into_iter().step_by(plan.of(1, 7)) {
        for i in (0..plan.of(3, 1) * KINDS.len()).step_by(plan.of(1, 5)) {
            add(n_tx, i % KINDS.len(), i / KINDS.len(), 10);
        }
    }
    cases
}

/// A decode under way, and what the Rust says of it.
struct List<'a> {
    pair: &'a Pair,
    rx: &'a [f32],
    decode: Decode,
    work: Lent<f32>,
    truth: Truth,
    /// The running sum of grants.
    sum: usize,
    far: bool,
    count: usize,
}

fn check(room: &mut Room, case: Case) -> Result<usize, String> {
    let mut random = case.random(room, 4);
    let Some(pair) = room.pair(case.rate, case.n_tx) else {
        return Ok(0);
    };
    let rx = readings(&pair, case.kind, &mut random)?;
    whole_list(&pair, &rx, case, &mut random).map_err(|text| told_with(text, case.kind, &rx))
}

fn whole_list(pair: &Pair, rx: &[f32], case: Case, random: &mut Random) -> Result<usize, String> {
    let room = pair.needed() + random.below(4);
    let mut work = Lent::drawn("work", room, random);
    let begun = Decode::start(&pair.ours(), rx, work.part_mut());
    let mut list = List {
        decode: begun.map_err(|r| format!("start: {r}"))?,
        truth: pair.decode(rx, 0)?,
        far: case.draw >= FAR,
        sum: 0,
        count: 0,
        pair,
        rx,
        work,
    };
    list.held()?;
    for place in 0..case.limit {
        let (sum, text) = (list.sum, list.step(random));
        text.map_err(|text| format!("call {place} of the list, running sum {sum}: {text}"))?;
    }
    list.one_call(random)?;
    Ok(list.count)
}

impl List<'_> {
    /// One call, and then the record and the whole work memory.
    fn step(&mut self, random: &mut Random) -> Result<(), String> {
        match random.below(8) {
            0..=2 => {
                let (g, len) = (self.grant_size(random), self.length(random));
                self.grant(g, len)?;
            }
            3 => self.grant(0, self.work.len())?,
            4 => self.forged(random)?,
            _ => {
                let len = self.length(random);
                self.read(len, random)?;
            }
        }
        self.held()
    }

    /// How much of the work memory a call is lent: at times too little.
    fn length(&self, random: &mut Random) -> usize {
        let needed = self.pair.needed();
        match random.below(6) {
            0 => random.below(needed),
            1 => needed - 1,
            _ => needed + random.below(self.work.len() - needed + 1),
        }
    }

    /// Mostly a few iterations. 65,535 is refused after the first iteration.
    fn grant_size(&self, random: &mut Random) -> u16 {
        let rest = MOST - self.truth.iterations;
        let cheap = self.truth.iterations > 0 || self.truth.converged;
        match random.below(8) {
            0 if cheap => MOST as u16,
            1 if self.far => rest as u16,
            2 if self.far => (rest + 1).min(MOST) as u16,
            3 if self.far => random.next() as u16,
            4 => random.below(30) as u16,
            _ => random.below(5) as u16,
        }
    }

    fn grant(&mut self, g: u16, len: usize) -> Result<(), String> {
        let (needed, all) = (self.pair.needed(), self.truth.iterations + g as usize);
        let wanted = match () {
            _ if len < needed => refusal(8, len, needed),
            _ if all > MOST => refusal(10, all, MOST),
            _ => Ok(()),
        };
        let told = self.decode.grant(g, &mut self.work.part_mut()[..len]);
        same(&format!("grant of {g} in {len}"), told, wanted)?;
        if wanted.is_ok() {
            self.sum += g as usize;
            // a decode that has converged is the same under every higher limit
            if g > 0 && !self.truth.converged {
                self.truth = self.pair.decode(self.rx, self.sum as u16)?;
            }
        }
        self.count += 1;
        Ok(())
    }

    fn read(&mut self, len: usize, random: &mut Random) -> Result<(), String> {
        let (needed, n_tx) = (self.pair.needed(), self.pair.n_tx());
        let room = random.pick(&[n_tx, n_tx, n_tx, n_tx, n_tx - 1, n_tx + 1]);
        let wanted = match () {
            _ if room != n_tx => refusal(9, room, n_tx),
            _ if len < needed => refusal(8, len, needed),
            _ => Ok(told(&self.truth)),
        };
        let mut out = Lent::drawn("out", room, random);
        let told = self.decode.read(&self.work.part()[..len], out.part_mut());
        same(&format!("read from {len} into {room}"), told, wanted)?;
        if wanted.is_ok() {
            same_list("word", out.part(), &self.truth.word)?;
            out.guarded()?;
        } else {
            out.untouched()?;
        }
        self.count += 1;
        Ok(())
    }

    /// A grant and a read with a record that no start or grant returned.
    fn forged(&mut self, random: &mut Random) -> Result<(), String> {
        let mut numbers = self.decode.numbers();
        match random.below(6) {
            0 => numbers[6] = MOST + 1,
            1 => numbers[7] = 2,
            place => numbers[place] += 1,
        }
        let wanted = (numbers[0], numbers[1]);
        let mut forged = Decode::from_numbers(numbers);
        let told = forged.grant(1, self.work.part_mut());
        same(
            "grant, forged record",
            told,
            refusal(11, wanted.0, wanted.1),
        )?;
        same("forged record", forged.numbers(), numbers)?;
        let mut out = Lent::drawn("out", self.pair.n_tx(), random);
        let told = forged.read(self.work.part(), out.part_mut());
        same("read, forged record", told, refusal(11, wanted.0, wanted.1))?;
        self.count += 2;
        out.untouched()
    }

    /// The record and the work memory are those of the Rust's decode limited to the running sum.
    fn held(&mut self) -> Result<(), String> {
        let mut wanted = [0; 8];
        wanted[..6].copy_from_slice(&self.pair.numbers);
        wanted[6] = self.truth.iterations;
        wanted[7] = self.truth.converged as usize;
        same("record", self.decode.numbers(), wanted)?;
        self.pair.same_memory(self.work.part(), &self.truth)?;
        self.count += 2;
        self.work.kept_but(self.pair.needed())
    }

    /// The one call with the running sum as its limit, in other memory.
    fn one_call(&mut self, random: &mut Random) -> Result<(), String> {
        let [rate, n_tx, ..] = self.pair.numbers;
        let mut work = Lent::drawn("work", self.pair.needed() + random.below(3), random);
        let mut out = Lent::drawn("out", n_tx, random);
        let limit = self.sum.min(MOST) as u16;
        let told_here =
            fuyegbo::decode(rate, n_tx, self.rx, limit, work.part_mut(), out.part_mut());
        let what = format!("the one call, limit {limit}");
        same(&what, told_here, Ok(told(&self.truth)))?;
        same_list(&what, out.part(), &self.truth.word)?;
        self.pair.same_memory(work.part(), &self.truth)?;
        work.kept_but(self.pair.needed())?;
        self.count += 2;
        out.guarded()
    }
}
