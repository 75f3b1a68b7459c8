//! Graph design. A case has n_b as its n_tx, a rate that gives the percentage or k_b, a kind as numbered below, and a draw.
use super::cases::{same, same_list, Case, Plan, Section};
use super::lent::{Lent, Slice};
use super::random::Random;
use super::state::Room;
use crate::{assign_shifts, build, four_cycles, peg, Base};
use fuyegbo::graph;

pub const SECTION: Section = Section {
    name: "graphs",
    about: "information columns, builds, growths, shifts of grown and of drawn rows, four-cycles",
    cases,
    check,
    end: |_| Ok(String::new()),
    rates: 101,
    draws: 2,
};

const BUILT: usize = 0;
const GROWN: usize = 1;
const SHIFTED: usize = 2;
const DRAWN_SHIFTED: usize = 3;
const CYCLES: usize = 4;

fn cases(plan: Plan) -> Vec<Case> {
    let mut cases = Vec::new();
    for n_b in 4..=64 {
        for percent in (0..=100).step_by(plan.of(1, 19)) {
            cases.push(Case::new(percent, n_b, BUILT, 0, 0));
        }
        for k in 0..n_b - 3 {
            cases.push(Case::new(k, n_b, GROWN, 0, 0));
        }
        for i in 0..plan.of(250, 40) {
            // any rate will do: it is taken modulo the number of k_b
            for kind in [SHIFTED, DRAWN_SHIFTED, CYCLES] {
                cases.push(Case::new(7 * i, n_b, kind, i, 0));
            }
        }
    }
    cases
}

fn check(room: &mut Room, case: Case) -> Result<usize, String> {
    let n_b = case.n_tx;
    if !(4..=64).contains(&n_b) {
        return Ok(0);
    }
    let mut random = case.random(room, 6);
    let k_b = 1 + case.rate % (n_b - 3);
    match case.kind {
        BUILT => built(n_b, case.rate.min(100), &mut random),
        GROWN => grown(n_b, k_b, &mut random),
        SHIFTED => shifted(n_b, k_b, &peg(n_b, k_b), &mut random),
        DRAWN_SHIFTED => shifted(n_b, k_b, &rows(n_b, k_b, &mut random), &mut random),
        _ => cycles(n_b, k_b, &mut random),
    }
}

/// Columns of three different rows below m_b.
pub fn rows(n_b: usize, k_b: usize, random: &mut Random) -> Vec<[u8; 3]> {
    let m_b = n_b - k_b;
    // few rows make many four-cycles
    let among = 3 + random.below(m_b - 2);
    let column = |_| loop {
        let rows = [0; 3].map(|_| random.below(among) as u8);
        if rows[0] != rows[1] && rows[0] != rows[2] && rows[1] != rows[2] {
            break rows;
        }
    };
    (0..k_b).map(column).collect()
}

/// Any 64 bits, at times few of them.
pub fn seed(random: &mut Random) -> u64 {
    random.next() >> random.pick(&[0, 0, 32, 60, 63])
}

/// Columns as the Rust has them: pairs of a row and a shift.
pub type Columns = [[(u8, u16); 3]];

pub fn rows_of(info: &Columns) -> Vec<u8> {
    info.iter().flatten().map(|pair| pair.0).collect()
}

pub fn shifts_of(info: &Columns) -> Vec<u16> {
    info.iter().flatten().map(|pair| pair.1).collect()
}

/// The number of columns, the rows and shifts, and the four-cycles at a drawn lift.
fn built(n_b: usize, percent: usize, random: &mut Random) -> Result<usize, String> {
    let seed = seed(random);
    let what = format!("n_b {n_b}, percent {percent}, seed {seed:#x}");
    let wanted = build(n_b, percent, seed);
    let k_b = graph::information_columns(n_b, percent);
    same(&format!("{what}: k_b"), k_b, Ok(wanted.k_b))?;
    let mut rows = Lent::drawn("rows", 3 * wanted.k_b, random);
    let mut shifts = Lent::drawn("shifts", 3 * wanted.k_b, random);
    let told = graph::build(n_b, percent, seed, rows.part_mut(), shifts.part_mut());
    same(&what, told, Ok(()))?;
    same_list(&what, rows.part(), &rows_of(&wanted.info))?;
    same_list(&what, shifts.part(), &shifts_of(&wanted.info))?;
    rows.guarded()?;
    shifts.guarded()?;
    counted(&what, &wanted, lift(random))?;
    Ok(3)
}

fn grown(n_b: usize, k_b: usize, random: &mut Random) -> Result<usize, String> {
    let what = format!("n_b {n_b}, k_b {k_b}: rows");
    let mut rows = Lent::drawn("rows", 3 * k_b, random);
    same(&what, graph::peg(n_b, k_b, rows.part_mut()), Ok(()))?;
    same_list(&what, rows.part(), &peg(n_b, k_b).concat())?;
    rows.guarded()?;
    Ok(1)
}

fn shifted(n_b: usize, k_b: usize, rows: &[[u8; 3]], random: &mut Random) -> Result<usize, String> {
    let seed = seed(random);
    let what = format!("n_b {n_b}, k_b {k_b}, rows {rows:?}, seed {seed:#x}: shifts");
    let wanted = assign_shifts(n_b, k_b, rows, seed);
    let lent = Lent::new("rows", &rows.concat(), random);
    let mut shifts = Lent::drawn("shifts", 3 * k_b, random);
    let told = graph::assign_shifts(n_b, k_b, lent.part(), seed, shifts.part_mut());
    same(&what, told, Ok(()))?;
    same_list(&what, shifts.part(), &shifts_of(&wanted))?;
    shifts.guarded()?;
    lent.untouched()?;
    Ok(1)
}

/// The ends of the lifts and of the shifts, and what lies about the middle.
const ENDS: [u16; 8] = [1, 2, 511, 512, 32_767, 32_768, 65_534, 65_535];

/// Small lifts often: under large ones few cycles close.
fn lift(random: &mut Random) -> u16 {
    let z = random.next() as u16;
    match random.below(5) {
        0 => 1 + z % 8,
        1 => 1 + z % 512,
        2 => random.pick(&ENDS),
        _ => z.max(1),
    }
}

/// Any shift, or one of few.
fn shift(base: u16, among: usize, random: &mut Random) -> u16 {
    match among {
        0 => random.pick(&ENDS).wrapping_add(random.below(2) as u16),
        _ => base.wrapping_add(random.below(among) as u16),
    }
}

/// Drawn columns.
fn cycles(n_b: usize, k_b: usize, random: &mut Random) -> Result<usize, String> {
    let among = random.pick(&[0, 0, 1, 2, 5, 512, 65_536]);
    let base = random.next() as u16;
    let mut info = Vec::new();
    for column in rows(n_b, k_b, random) {
        info.push(column.map(|row| (row, shift(base, among, random))));
    }
    let b = Base {
        n_b,
        k_b,
        m_b: n_b - k_b,
        info,
    };
    let what = format!("n_b {n_b}, k_b {k_b}, columns {:?}", b.info);
    for _ in 0..4 {
        counted(&what, &b, lift(random))?;
    }
    Ok(4)
}

fn counted(what: &str, b: &Base, z: u16) -> Result<(), String> {
    let (rows, shifts) = (rows_of(&b.info), shifts_of(&b.info));
    let told = graph::four_cycles(b.n_b, b.k_b, &rows, &shifts, z as usize);
    let what = format!("{what}: four-cycles at z {z}");
    same(&what, told, Ok(four_cycles(b, z)))
}
