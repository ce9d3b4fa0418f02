//! Pairs, reports and published shares tampered with, for parties whose points
//! are those of a table.

use crate::lies::{about_t, enlarge, garble, garble_reports, victims, wrong};
use crate::poly::value;
use crate::published::leave_unsent;
use crate::record::{pair_place, Record};
use crate::rng::Rng;
use crate::scenario::{PairFault, ReportFault, ShareFault};
use crate::stations::point;

// ---- tampering with the pairs ----

pub fn tamper_pairs(rng: &mut Rng, record: &mut Record, table: &[u32], fault: PairFault) {
    match fault {
        PairFault::None => {}
        PairFault::Graph => pairs_for_graph(rng, record),
        PairFault::Repair => pairs_for_repair(rng, record),
        PairFault::OtherColumn => pairs_of_other_column(rng, record, table),
        PairFault::Large => enlarge(rng, record.width, &mut record.pairs),
        PairFault::Garbage => garble(rng, record.width, &mut record.pairs),
    }
}

/// Pairs of parties that shall not agree: a matching (many sets of one
/// size), some at random, or some parties' agreements thinned out.
pub fn missing_edges(rng: &mut Rng, n: usize, t: usize) -> Vec<(usize, usize)> {
    match rng.below(4) {
        0 => {
            let count = rng.between(1, t + 1);
            let ends = rng.some_of(n, 2 * count);
            ends.chunks(2).map(|e| (e[0], e[1])).collect()
        }
        1 => {
            let count = rng.between(1, 3 * t + 2);
            (0..count).map(|_| random_edge(rng, n)).collect()
        }
        2 => {
            let count = about_t(rng, n, t);
            let thinned = rng.some_of(n, count);
            let percent = rng.between(5, 100);
            edges(n)
                .into_iter()
                .filter(|(a, b)| thinned.contains(a) || thinned.contains(b))
                .filter(|_| rng.chance(percent))
                .collect()
        }
        _ => {
            let percent = rng.between(1, 100);
            edges(n)
                .into_iter()
                .filter(|_| rng.chance(percent))
                .collect()
        }
    }
}

fn random_edge(rng: &mut Rng, n: usize) -> (usize, usize) {
    let ends = rng.some_of(n, 2);
    (ends[0], ends[1])
}

fn edges(n: usize) -> Vec<(usize, usize)> {
    (1..=n)
        .flat_map(|a| (a + 1..=n).map(move |b| (a, b)))
        .collect()
}

/// Spoils what the receiver hears from the sender: the first number, the
/// second, or both.
fn spoil_pair(rng: &mut Rng, record: &mut Record, receiver: usize, sender: usize) {
    let place = pair_place(record.n, receiver, sender);
    let which = rng.below(3);
    if which != 1 {
        record.pairs[place] = wrong(rng, record.width, record.pairs[place]);
    }
    if which != 0 {
        record.pairs[place + 1] = wrong(rng, record.width, record.pairs[place + 1]);
    }
}

/// One side's doubt is enough to part two; both is as good.
fn pairs_for_graph(rng: &mut Rng, record: &mut Record) {
    for (a, b) in missing_edges(rng, record.n, record.t) {
        let sides = rng.below(3);
        if sides != 1 {
            spoil_pair(rng, record, a, b);
        }
        if sides != 0 {
            spoil_pair(rng, record, b, a);
        }
    }
}

/// Some receivers doubt many senders (by the second number, which a repair
/// does not use) and hear about t wrong first numbers.
fn pairs_for_repair(rng: &mut Rng, record: &mut Record) {
    let count = rng.between(1, record.t);
    for receiver in rng.some_of(record.n, count) {
        let doubted = rng.between(record.t, record.n);
        for sender in rng.some_of(record.n, doubted) {
            let place = pair_place(record.n, receiver, sender) + 1;
            record.pairs[place] = wrong(rng, record.width, record.pairs[place]);
        }
        let lies = rng.between(0, 2 * record.t + 1);
        for sender in rng.some_of(record.n, lies) {
            let place = pair_place(record.n, receiver, sender);
            record.pairs[place] = wrong(rng, record.width, record.pairs[place]);
        }
    }
}

/// Some receivers hear first numbers of a column that is not theirs, except
/// from a few senders; a repair then finds that column.
fn pairs_of_other_column(rng: &mut Rng, record: &mut Record, table: &[u32]) {
    let count = rng.between(1, record.t);
    for receiver in rng.some_of(record.n, count) {
        let column: Vec<u64> = (0..=record.t)
            .map(|_| rng.element(record.width).into())
            .collect();
        let spared = rng.between(0, 2 * record.t + 1);
        let spared = rng.some_of(record.n, spared);
        for sender in 1..=record.n {
            if !spared.contains(&sender) {
                let place = pair_place(record.n, receiver, sender);
                record.pairs[place] = value(record.width, &column, point(table, sender)) as u32;
            }
        }
    }
}

// ---- tampering with the reports ----

pub fn tamper_reports(rng: &mut Rng, record: &mut Record, fault: ReportFault) {
    match fault {
        ReportFault::None => {}
        ReportFault::Extra => extra_bits(rng, record),
        ReportFault::Flipped => flip_bits(rng, record),
        ReportFault::Missing => {
            for i in victims(rng, record) {
                record.reports[i - 1] = 0;
            }
        }
        ReportFault::Graph => reports_of_graph(rng, record),
        ReportFault::Garbage => garble_reports(rng, &mut record.reports),
    }
}

/// Bits that no agreement may depend on.
fn extra_bits(rng: &mut Rng, record: &mut Record) {
    let count = rng.between(1, record.n);
    for i in rng.some_of(record.n, count) {
        let own = 1u16 << (i - 1);
        let beyond = !((1u32 << record.n) - 1) as u16;
        record.reports[i - 1] |= match rng.below(3) {
            0 => own,
            1 => beyond & rng.word(),
            _ => own | beyond,
        };
    }
}

fn flip_bits(rng: &mut Rng, record: &mut Record) {
    let count = rng.between(1, 2 * record.t + 2);
    for _ in 0..count {
        let i = rng.below(record.n);
        record.reports[i] ^= 1 << rng.below(16);
    }
}

fn reports_of_graph(rng: &mut Rng, record: &mut Record) {
    for (i, report) in record.reports.iter_mut().enumerate() {
        *report = (((1u32 << record.n) - 1) as u16) & !(1 << i);
    }
    for (a, b) in missing_edges(rng, record.n, record.t) {
        let sides = rng.below(3);
        if sides != 1 {
            record.reports[a - 1] &= !(1 << (b - 1));
        }
        if sides != 0 {
            record.reports[b - 1] &= !(1 << (a - 1));
        }
    }
}

// ---- tampering with the published shares ----

pub fn tamper_shares(rng: &mut Rng, record: &mut Record, table: &[u32], fault: ShareFault) {
    match fault {
        ShareFault::None => {}
        ShareFault::Wrong => {
            for i in victims(rng, record) {
                record.shares[i - 1] = wrong(rng, record.width, record.shares[i - 1]);
            }
        }
        ShareFault::Other => shares_of_other(rng, record, table),
        ShareFault::Unsent => {
            leave_unsent(rng, record.width, table, record.t, None, &mut record.shares)
        }
        ShareFault::Large => enlarge(rng, record.width, &mut record.shares),
        ShareFault::Flat => {
            let p = record.width.prime() as u32;
            let number = rng.pick(&[record.width.not_sent(), 0, p, p - 1, 7]);
            record.shares.fill(number);
        }
        ShareFault::Garbage => garble(rng, record.width, &mut record.shares),
    }
}

fn shares_of_other(rng: &mut Rng, record: &mut Record, table: &[u32]) {
    let poly: Vec<u64> = (0..=record.t)
        .map(|_| rng.element(record.width).into())
        .collect();
    let spared = victims(rng, record);
    for i in 1..=record.n {
        if !spared.contains(&i) {
            record.shares[i - 1] = value(record.width, &poly, point(table, i)) as u32;
        }
    }
}
