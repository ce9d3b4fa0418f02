//! Lies and garbage: what faulty parties send, and where.

use crate::field::Width;
use crate::record::{pair_place, Record};
use crate::rng::Rng;

/// What a liar may say in place of the truth, the truth among it.
pub fn lie(rng: &mut Rng, width: Width, truth: u32) -> u32 {
    match rng.below(8) {
        0 => truth,
        1 => width.cut(truth.wrapping_add(1)),
        2 => width.cut(truth.wrapping_sub(1)),
        3 => rng.not_sent(width),
        4 => 0,
        5 if width == Width::Wide => wide_lie(rng, truth),
        5 => rng.number(width),
        _ => rng.element(width),
    }
}

/// Lies that only wide numbers can tell: the truth and the prime, the truth of
/// 16 bits, an edge.
fn wide_lie(rng: &mut Rng, truth: u32) -> u32 {
    match rng.below(4) {
        0 => truth.wrapping_add(Width::Wide.prime() as u32),
        1 => Width::Narrow.cut(truth),
        2 => rng.edge(Width::Wide),
        _ => rng.number(Width::Wide),
    }
}

/// A lie that is not the truth.
pub fn wrong(rng: &mut Rng, width: Width, truth: u32) -> u32 {
    loop {
        let number = lie(rng, width, truth);
        if number != truth {
            return number;
        }
    }
}

/// Every listener gets another number, or by chance the right one.
pub fn lie_in_pairs(rng: &mut Rng, record: &mut Record, faulty: &[usize]) {
    for &sender in faulty {
        let lying = rng.between(10, 100);
        for receiver in 1..=record.n {
            let place = pair_place(record.n, receiver, sender);
            for k in place..place + 2 {
                if rng.chance(lying) {
                    record.pairs[k] = lie(rng, record.width, record.pairs[k]);
                }
            }
        }
    }
}

pub fn lie_in_reports(rng: &mut Rng, record: &mut Record, faulty: &[usize]) {
    for &i in faulty {
        record.reports[i - 1] = match rng.below(5) {
            0 => 0,
            1 => 65_535,
            2 => rng.word(),
            // Denying one party at a time gives many sets of equal size.
            3 => !(1 << rng.below(record.n)),
            _ => record.reports[i - 1],
        };
    }
}

pub fn lie_in_shares(rng: &mut Rng, record: &mut Record, faulty: &[usize]) {
    for &i in faulty {
        record.shares[i - 1] = lie(rng, record.width, record.shares[i - 1]);
    }
}

/// How many parties a fault hits: mostly about t, where the limit is.
pub fn about_t(rng: &mut Rng, n: usize, t: usize) -> usize {
    match rng.below(5) {
        0 => 1,
        1 => t + 1,
        2 => rng.between(1, n),
        3 => rng.between(1, t),
        _ => t,
    }
}

pub fn victims(rng: &mut Rng, record: &Record) -> Vec<usize> {
    let count = about_t(rng, record.n, record.t);
    rng.some_of(record.n, count)
}

/// Some numbers at and above the prime, or just below.
pub fn enlarge(rng: &mut Rng, width: Width, section: &mut [u32]) {
    let percent = rng.pick(&[1, 3, 10, 30, 100]);
    for number in section {
        if rng.chance(percent) {
            *number = rng.edge(width);
        }
    }
}

pub fn garble(rng: &mut Rng, width: Width, section: &mut [u32]) {
    for number in section {
        *number = rng.number(width);
    }
}

pub fn garble_reports(rng: &mut Rng, reports: &mut [u16]) {
    for report in reports {
        *report = rng.word();
    }
}
