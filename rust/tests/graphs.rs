//! Graph design: the 18 table graphs from their seeds, and the codes that are made of them.
mod common;

use common::refusal;
use fuyegbo::{graph, Code};
use std::collections::BTreeSet;

const PERCENT: [usize; 6] = [85, 75, 65, 55, 45, 35];
const COLUMNS: [usize; 3] = [60, 20, 10];

struct Graph {
    n_b: usize,
    k_b: usize,
    rows: Vec<u8>,
    shifts: Vec<u16>,
}

/// A graph of the table, by its rate and family.
fn built(rate: usize, family: usize) -> Graph {
    let n_b = COLUMNS[family];
    let k_b = graph::information_columns(n_b, PERCENT[rate]).unwrap();
    let seed = 0x5EED_0000 + 977 * rate as u64 + n_b as u64;
    let mut rows = vec![0xA5; 3 * k_b];
    let mut shifts = vec![0xA5A5; 3 * k_b];
    graph::build(n_b, PERCENT[rate], seed, &mut rows, &mut shifts).unwrap();
    // the same in two steps
    let mut grown = vec![0x5A; 3 * k_b];
    let mut drawn = vec![0x5A5A; 3 * k_b];
    graph::peg(n_b, k_b, &mut grown).unwrap();
    graph::assign_shifts(n_b, k_b, &grown, seed, &mut drawn).unwrap();
    assert_eq!((&grown, &drawn), (&rows, &shifts));
    Graph {
        n_b,
        k_b,
        rows,
        shifts,
    }
}

#[test]
fn columns_by_their_rule() {
    for n_b in 4..=64 {
        for percent in 0..=100 {
            let wanted = (n_b * percent / 100).min(n_b - 3).max(1);
            assert_eq!(graph::information_columns(n_b, percent), Ok(wanted));
        }
    }
}

#[test]
fn table_graphs() {
    let mut columns = 0;
    for family in 0..3 {
        for rate in 0..6 {
            let g = built(rate, family);
            let m_b = g.n_b - g.k_b;
            columns += g.k_b;
            assert!(g.shifts.iter().all(|&s| s < 512));
            for r in g.rows.chunks(3) {
                assert!(r.iter().all(|&row| (row as usize) < m_b), "{r:?}");
                assert!(r[0] != r[1] && r[0] != r[2] && r[1] != r[2], "{r:?}");
            }
        }
    }
    assert_eq!(columns, 320);
}

/// The first columns of the table, as published.
#[test]
fn published_columns() {
    let g = built(0, 0);
    assert_eq!(g.rows[..9], [0, 6, 2, 1, 5, 3, 7, 1, 4]);
    assert_eq!(g.shifts[..9], [155, 500, 185, 290, 183, 107, 504, 347, 218]);
}

/// Another seed has other shifts and the same rows.
#[test]
fn seeds_differ() {
    let g = built(2, 1);
    let mut shifts = vec![0; g.shifts.len()];
    for seed in [0, 1, u64::MAX] {
        graph::assign_shifts(g.n_b, g.k_b, &g.rows, seed, &mut shifts).unwrap();
        assert!(shifts.iter().all(|&s| s < 512));
        assert_ne!(shifts, g.shifts);
    }
}

/// As tables.rs reports them, at lifts 2, 8, 32, 128 and 324.
#[test]
fn residual_four_cycles() {
    let wanted = [
        [[307, 41], [7, 0], [0, 0], [0, 0], [0, 0], [0, 0]],
        [[192, 33], [35, 0], [6, 0], [1, 0], [0, 0], [0, 0]],
        [[27, 1], [27, 3], [6, 0], [1, 0], [0, 0], [0, 0]],
    ];
    for (family, rates) in wanted.iter().enumerate() {
        for (rate, counts) in rates.iter().enumerate() {
            let g = built(rate, family);
            let lifts = [2, 8, 32, 128, 324];
            let told = lifts.map(|z| graph::four_cycles(g.n_b, g.k_b, &g.rows, &g.shifts, z));
            assert_eq!(told[..2], counts.map(Ok), "family {family}, rate {rate}");
            assert_eq!(told[2..], [Ok(0); 3], "family {family}, rate {rate}");
        }
    }
}

/// The members of each check by document 01's rule, over a graph that was built: (row, column, shift) joins check
/// row * z + t to bit column * z + (t + shift) mod z.
fn members(c: &Code, g: &Graph) -> Vec<Vec<u32>> {
    let (z, m_b) = (c.lift(), g.n_b - g.k_b);
    let mut edges: Vec<(usize, usize, usize)> = (0..3 * g.k_b)
        .map(|i| (g.rows[i] as usize, i / 3, g.shifts[i] as usize))
        .collect();
    edges.extend([(0, g.k_b, 0), (m_b - 1, g.k_b, 0), (m_b / 2, g.k_b, 1)]);
    for j in 1..m_b {
        edges.extend([(j, g.k_b + j, 0), (j - 1, g.k_b + j, 0)]);
    }
    let mut lists = vec![Vec::new(); m_b * z];
    for (row, column, shift) in edges {
        for t in 0..z {
            let bit = column * z + (t + shift) % z;
            let parity = g.k_b * z;
            if bit < c.info_bits() {
                lists[row * z + t].push(bit as u32);
            } else if parity <= bit {
                lists[row * z + t].push((c.info_bits() + bit - parity) as u32);
            }
        }
    }
    lists
}

/// So the codes stand on the table's graphs, shortened and not: on all but the tiny one of rate 0, which no length needs.
#[test]
fn codes_are_of_these_graphs() {
    let mut seen = BTreeSet::new();
    for rate in 0..6 {
        for n_tx in (4..80).chain([119, 120, 1_000, 5_001]) {
            let Ok(c) = Code::new(rate, n_tx) else {
                continue;
            };
            seen.insert((c.family(), rate));
            let lists = members(&c, &built(rate, c.family()));
            let mut out = [0; 64];
            for (check, list) in lists.iter().enumerate() {
                let n = c.check_members(check, &mut out).unwrap();
                assert_eq!(&out[..n], list, "({rate}, {n_tx}) check {check}");
            }
            let end = lists.len();
            assert_eq!(c.check_members(end, &mut out), refusal(7, end, end));
        }
    }
    assert!(seen.len() == 17 && !seen.contains(&(2, 0)), "{seen:?}");
}
