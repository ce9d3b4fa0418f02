//! Deals of a faulty dealer, for parties whose points are those of a table.

use crate::field::Width;
use crate::follow;
use crate::lies::{enlarge, garble, victims, wrong};
use crate::poly::{times_root, value};
use crate::record::Record;
use crate::rng::Rng;
use crate::scenario::{polynomial, DealFault};
use crate::stations::point;

pub fn tamper_deals(rng: &mut Rng, record: &mut Record, table: &[u32], fault: DealFault) {
    match fault {
        DealFault::None => {}
        DealFault::Altered => alter_deals(rng, record),
        DealFault::Other => mix_polynomials(rng, record, table),
        DealFault::Sly => sly_deals(rng, record, table),
        DealFault::Crossing => crossing_trap(rng, record, table),
        DealFault::Large => enlarge(rng, record.width, &mut record.deals),
        DealFault::Garbage => garble(rng, record.width, &mut record.deals),
    }
}

/// Where party i's row (0) or column (1) starts in the deals.
fn half_place(t: usize, i: usize, half: usize) -> usize {
    ((i - 1) * 2 + half) * (t + 1)
}

fn alter_deals(rng: &mut Rng, record: &mut Record) {
    for i in victims(rng, record) {
        let k = half_place(record.t, i, 0) + rng.below(2 * (record.t + 1));
        record.deals[k] = wrong(rng, record.width, record.deals[k]);
    }
}

fn mix_polynomials(rng: &mut Rng, record: &mut Record, table: &[u32]) {
    let other = polynomial(rng, record.width, record.t);
    let deals = follow::deals(record.width, table, record.t, &other);
    let length = 2 * (record.t + 1);
    for i in victims(rng, record) {
        let stretch = (i - 1) * length..i * length;
        record.deals[stretch.clone()].copy_from_slice(&deals[stretch]);
    }
}

/// The product of (X - x) over the points x of a set of parties, times a
/// factor.
fn vanishing(width: Width, table: &[u32], set: &[usize], factor: u64) -> Vec<u64> {
    let mut poly = vec![factor];
    for &s in set {
        times_root(width, &mut poly, point(table, s));
    }
    poly
}

/// Adds a polynomial to party i's row (0) or column (1).
fn add_to_half(record: &mut Record, i: usize, half: usize, poly: &[u64]) {
    let start = half_place(record.t, i, half);
    for (k, &c) in poly.iter().enumerate() {
        let old = u64::from(record.deals[start + k]);
        record.deals[start + k] = record.width.add(old, c) as u32;
    }
}

/// The alteration vanishes at t parties' points. If the own point is among
/// them the deal stays sound.
fn sly_deals(rng: &mut Rng, record: &mut Record, table: &[u32]) {
    for i in victims(rng, record) {
        let mut set = rng.some_of(record.n, record.t);
        if rng.chance(50) && !set.contains(&i) {
            set[0] = i;
        }
        let factor = u64::from(rng.unit(record.width));
        let half = rng.below(2);
        let poly = vanishing(record.width, table, &set, factor);
        add_to_half(record, i, half, &poly);
    }
}

/// Party b's column and party c's row are altered by polynomials that vanish
/// on the same t parties and cross each other rightly: those t+2 parties see
/// only values that agree, and b and c can tell only by their own crossing.
fn crossing_trap(rng: &mut Rng, record: &mut Record, table: &[u32]) {
    let width = record.width;
    let chosen = rng.some_of(record.n, record.t + 2);
    let (b, c, set) = (chosen[0], chosen[1], &chosen[2..]);
    let (b_point, c_point) = (point(table, b), point(table, c));
    let base = vanishing(width, table, set, 1);
    let factor = u64::from(rng.unit(width));
    let column = vanishing(width, table, set, factor);
    let (at_b, at_c) = (value(width, &base, b_point), value(width, &base, c_point));
    let ratio = width.mul(at_c, width.inverse(at_b));
    let row = vanishing(width, table, set, width.mul(factor, ratio));
    debug_assert_eq!(value(width, &column, c_point), value(width, &row, b_point));
    add_to_half(record, b, 1, &column);
    add_to_half(record, c, 0, &row);
}
