//! Random sharings, honest and otherwise, as records of the right shape.
//!
//! A sharing is built in the protocol's order: deals, pairs, reports, shares.
//! Each step first follows honestly from the one before and is then tampered
//! with. So the parties mostly agree with their entries in the reports, and
//! faults reach the verdict, the repair and the opening instead of ending
//! in refusal 7.

use crate::field::Width;
use crate::follow;
use crate::lies::{lie_in_pairs, lie_in_reports, lie_in_shares};
use crate::record::Record;
use crate::rng::Rng;
use crate::stations::one_to;
use crate::tamper_deals::tamper_deals;
use crate::tamper_sent::{tamper_pairs, tamper_reports, tamper_shares};

pub struct Scenario {
    pub record: Record,
    /// The parties' points.
    pub table: Vec<u32>,
    /// The dealer's list.
    pub coefs: Vec<u32>,
    /// The parties that lie.
    pub faulty: Vec<usize>,
}

#[derive(Clone, Copy, PartialEq, Eq, Debug)]
pub enum DealFault {
    None,
    /// Single numbers of some deals altered: mostly unsound.
    Altered,
    /// Some parties get deals of another polynomial: sound, inconsistent.
    Other,
    /// Rows or columns altered so that they still agree with t parties.
    Sly,
    /// The own-crossing trap: t+2 parties agree, two deals are unsound.
    Crossing,
    /// Numbers at and above the prime, and just below.
    Large,
    Garbage,
}

#[derive(Clone, Copy, PartialEq, Eq, Debug)]
pub enum PairFault {
    None,
    /// Pairs altered so that a chosen graph of agreements results.
    Graph,
    /// Some receivers hear about t wrong first numbers.
    Repair,
    /// Some receivers hear first numbers of another column.
    OtherColumn,
    Large,
    Garbage,
}

#[derive(Clone, Copy, PartialEq, Eq, Debug)]
pub enum ReportFault {
    None,
    /// Own bits and bits from n up.
    Extra,
    /// Some bits turned over.
    Flipped,
    /// Some reports missing, that is 0.
    Missing,
    /// The reports of a random graph close to the complete one.
    Graph,
    Garbage,
}

#[derive(Clone, Copy, PartialEq, Eq, Debug)]
pub enum ShareFault {
    None,
    /// About t wrong numbers.
    Wrong,
    /// All but about t numbers on another polynomial.
    Other,
    /// Many not sent, and some wrong: near the borders of an opening.
    Unsent,
    Large,
    /// All the same: not sent, or zero, or another number.
    Flat,
    Garbage,
}

#[derive(Clone, Copy, Debug)]
pub struct Plan {
    pub deals: DealFault,
    pub pairs: PairFault,
    pub reports: ReportFault,
    pub shares: ShareFault,
    pub liars: usize,
}

/// Nothing wrong anywhere.
pub const HONEST: Plan = Plan {
    deals: DealFault::None,
    pairs: PairFault::None,
    reports: ReportFault::None,
    shares: ShareFault::None,
    liars: 0,
};

pub const DEAL_FAULTS: [DealFault; 6] = [
    DealFault::Altered,
    DealFault::Other,
    DealFault::Sly,
    DealFault::Crossing,
    DealFault::Large,
    DealFault::Garbage,
];

pub const PAIR_FAULTS: [PairFault; 5] = [
    PairFault::Graph,
    PairFault::Repair,
    PairFault::OtherColumn,
    PairFault::Large,
    PairFault::Garbage,
];

pub const REPORT_FAULTS: [ReportFault; 5] = [
    ReportFault::Extra,
    ReportFault::Flipped,
    ReportFault::Missing,
    ReportFault::Graph,
    ReportFault::Garbage,
];

pub const SHARE_FAULTS: [ShareFault; 6] = [
    ShareFault::Wrong,
    ShareFault::Other,
    ShareFault::Unsent,
    ShareFault::Large,
    ShareFault::Flat,
    ShareFault::Garbage,
];

/// A size of the protocol. The larger t are as likely as t = 1.
pub fn legal_size(rng: &mut Rng) -> (usize, usize) {
    let t = rng.between(1, 3);
    (rng.between(4 * t + 1, 16), t)
}

/// Builds a sharing after a plan, with the points 1 to n.
pub fn build(rng: &mut Rng, width: Width, n: usize, t: usize, plan: Plan) -> Scenario {
    build_on(rng, width, &one_to(n), t, plan)
}

/// Builds a sharing after a plan, with the points of a table.
pub fn build_on(rng: &mut Rng, width: Width, table: &[u32], t: usize, plan: Plan) -> Scenario {
    let n = table.len();
    let coefs = polynomial(rng, width, t);
    let faulty = rng.some_of(n, plan.liars);
    let mut record = Record {
        width,
        n,
        t,
        deals: follow::deals(width, table, t, &coefs),
        pairs: vec![0; 2 * n * n],
        reports: vec![0; n],
        shares: vec![0; n],
    };
    tamper_deals(rng, &mut record, table, plan.deals);
    follow::pairs(&mut record, table);
    tamper_pairs(rng, &mut record, table, plan.pairs);
    lie_in_pairs(rng, &mut record, &faulty);
    follow::reports(&mut record, table);
    lie_in_reports(rng, &mut record, &faulty);
    tamper_reports(rng, &mut record, plan.reports);
    follow::shares(&mut record, table);
    lie_in_shares(rng, &mut record, &faulty);
    tamper_shares(rng, &mut record, table, plan.shares);
    Scenario {
        record,
        table: table.to_vec(),
        coefs,
        faulty,
    }
}

// ---- the dealer's list ----

/// A dealer's list for t.
pub fn polynomial(rng: &mut Rng, width: Width, t: usize) -> Vec<u32> {
    coefficients(rng, width, (t + 1) * (t + 1))
}

/// At least one coefficient: mostly random, sometimes at the edges of the
/// field.
pub fn coefficients(rng: &mut Rng, width: Width, length: usize) -> Vec<u32> {
    let last = width.prime() as u32 - 1;
    let edges: &[u32] = match width {
        Width::Narrow => &[0, 1, 65_520],
        Width::Wide => &[0, 1, 65_520, 65_521, 65_535, 65_536, 2_147_483_646],
    };
    let style = rng.below(10);
    let mut coefs: Vec<u32> = (0..length)
        .map(|_| match style {
            0 => 0,
            1 => last,
            2 => rng.pick(edges),
            3 => rng.below(10) as u32,
            _ => rng.element(width),
        })
        .collect();
    if rng.chance(10) {
        coefs[0] = rng.pick(edges);
    }
    coefs
}

// ---- the honest steps with the points 1 to n, which a record has ----

pub fn honest_deals(width: Width, n: usize, t: usize, coefs: &[u32]) -> Vec<u32> {
    follow::deals(width, &one_to(n), t, coefs)
}

pub fn follow_pairs(record: &mut Record) {
    follow::pairs(record, &one_to(record.n));
}

pub fn follow_reports(record: &mut Record) {
    follow::reports(record, &one_to(record.n));
}

pub fn follow_shares(record: &mut Record) {
    follow::shares(record, &one_to(record.n));
}

/// F(x, y) of a dealer's list, term by term; used to check results.
pub fn value_of_f(width: Width, coefs: &[u32], t: usize, x: u64, y: u64) -> u64 {
    let mut sum = 0;
    let mut x_power = 1;
    for u in 0..=t {
        let mut power = x_power;
        for v in 0..=t {
            let coef = u64::from(coefs[u * (t + 1) + v]);
            sum = width.add(sum, width.mul(coef, power));
            power = width.mul(power, y);
        }
        x_power = width.mul(x_power, x);
    }
    sum
}
