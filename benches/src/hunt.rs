//! The hunt for the graph that costs the search most: hill climbing over graphs, by the calls of plain Rust's copy.

use crate::graphs::{disagreeing, flip, pairs_far_apart, pairs_in_a_row, random, relabelled, triples_in_a_row, Graph};
use crate::rng::Rng;

/// How many changes in a row may bring nothing before a climb ends.
const PATIENCE: usize = 3000;

/// A search that counts its calls.
pub type Counted = fn(&[u16], &mut u64) -> u16;

pub fn calls(search: Counted, graph: &Graph) -> u64 {
    let mut calls = 0;
    search(graph, &mut calls);
    calls
}

/// The most calls found, and the graph that has them.
pub fn hunt(search: Counted, seed: u64, climbs: usize) -> (u64, Graph) {
    let mut rng = Rng::new(seed);
    let mut most = (0, [0; 16]);
    for _ in 0..climbs {
        let start = start(&mut rng);
        let top = climb(&mut rng, search, start);
        if most.0 < top.0 {
            most = top;
        }
    }
    most
}

/// A random graph, or one with many sets of one size, its lamps in random order.
fn start(rng: &mut Rng) -> Graph {
    let graph = match rng.below(8) {
        0 => pairs_in_a_row(),
        1 => pairs_far_apart(),
        2 => triples_in_a_row(),
        3 => disagreeing((0..4).map(|k| (4 * k..4 * k + 4).collect())),
        _ => {
            let percent = 40 + rng.below(58);
            random(rng, percent)
        }
    };
    relabelled(rng, &graph)
}

/// Changes up to three agreements at a time and keeps what costs no fewer calls.
fn climb(rng: &mut Rng, search: Counted, start: Graph) -> (u64, Graph) {
    let mut top = (calls(search, &start), start);
    let mut idle = 0;
    while idle < PATIENCE {
        let mut graph = top.1;
        for _ in 0..1 + rng.below(3) {
            let i = rng.below(16);
            let j = (i + 1 + rng.below(15)) % 16;
            flip(&mut graph, i, j);
        }
        let cost = calls(search, &graph);
        idle = if top.0 < cost { 0 } else { idle + 1 };
        if top.0 <= cost {
            top = (cost, graph);
        }
    }
    top
}

/// The graph, and others that one or two changes make of it and that cost at least nine tenths of its calls.
pub fn neighbours(search: Counted, seed: u64, graph: &Graph, count: usize) -> Vec<Graph> {
    let mut rng = Rng::new(seed);
    let least = calls(search, graph) * 9 / 10;
    let mut found = vec![*graph];
    for _ in 0..100_000 {
        if found.len() == count {
            break;
        }
        let mut other = *graph;
        for _ in 0..1 + rng.below(2) {
            let i = rng.below(16);
            flip(&mut other, i, (i + 1 + rng.below(15)) % 16);
        }
        if least <= calls(search, &other) && !found.contains(&other) {
            found.push(other);
        }
    }
    found
}
