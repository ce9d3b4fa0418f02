//! Reports whose happy set is looked for: graphs of agreements over 16 lamps.

use crate::inputs::Reports;
use crate::rng::Rng;

/// Row i has bit j where lamps i + 1 and j + 1 agree.
pub type Graph = [u16; 16];

pub fn complete() -> Graph {
    let mut graph = [0xFFFF; 16];
    for (i, row) in graph.iter_mut().enumerate() {
        *row ^= 1 << i;
    }
    graph
}

/// Lets two places change from agreement to disagreement or back.
pub fn flip(graph: &mut Graph, i: usize, j: usize) {
    graph[i] ^= 1 << j;
    graph[j] ^= 1 << i;
}

/// Complete, but that nobody agrees within a group.
pub fn disagreeing(groups: impl Iterator<Item = Vec<usize>>) -> Graph {
    let mut graph = complete();
    for group in groups {
        for (k, &i) in group.iter().enumerate() {
            for &j in &group[..k] {
                flip(&mut graph, i, j);
            }
        }
    }
    graph
}

/// Lamps 1 and 2 disagree, 3 and 4, and so on.
pub fn pairs_in_a_row() -> Graph {
    disagreeing((0..8).map(|k| vec![2 * k, 2 * k + 1]))
}

/// Lamps 1 and 9 disagree, 2 and 10, and so on.
pub fn pairs_far_apart() -> Graph {
    disagreeing((0..8).map(|k| vec![k, k + 8]))
}

/// Of lamps 1, 2 and 3 no two agree, of 4, 5 and 6, and so on.
pub fn triples_in_a_row() -> Graph {
    disagreeing((0..5).map(|k| vec![3 * k, 3 * k + 1, 3 * k + 2]))
}

/// Lamps 14, 15 and 16 agree with nobody.
pub fn thirteen() -> Graph {
    let mut graph = [0; 16];
    for (i, row) in graph.iter_mut().take(13).enumerate() {
        *row = 0x1FFF & !(1 << i);
    }
    graph
}

pub fn random(rng: &mut Rng, percent: usize) -> Graph {
    let mut graph = complete();
    for i in 0..16 {
        for j in 0..i {
            if !rng.chance(percent) {
                flip(&mut graph, i, j);
            }
        }
    }
    graph
}

/// The same graph with the lamps in another order.
pub fn relabelled(rng: &mut Rng, graph: &Graph) -> Graph {
    let order = rng.order(16);
    let mut other = [0; 16];
    for i in 0..16 {
        for j in 0..16 {
            other[order[i]] |= (graph[i] >> j & 1) << order[j];
        }
    }
    other
}

/// Reports of this graph. What is ignored is at random: own bits, and one side's one where two disagree.
pub fn reports(rng: &mut Rng, graph: &Graph) -> Reports {
    let mut reports = graph.to_vec();
    for i in 0..16 {
        reports[i] |= u16::from(rng.chance(50)) << i;
        for j in 0..i {
            let (one, other) = if rng.chance(50) { (i, j) } else { (j, i) };
            if graph[i] >> j & 1 == 0 && rng.chance(50) {
                reports[one] |= 1 << other;
            }
        }
    }
    Reports(reports)
}
