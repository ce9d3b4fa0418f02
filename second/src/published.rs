//! Random lists of published shares for openings: with lies, of another
//! polynomial, and with many parties dark, near the borders of what opens.

use crate::field::Width;
use crate::lies::{about_t, enlarge, garble, lie, wrong};
use crate::poly::value;
use crate::record::Record;
use crate::rng::Rng;
use crate::scenario::Scenario;
use crate::stations::point;

/// Published shares for party `own`: all true, about t wrong, many dark, another
/// polynomial, or worse.
pub fn share_list(rng: &mut Rng, world: &Scenario, own: usize) -> Vec<u32> {
    let Record { width, n, t, .. } = world.record;
    let mut list = world.record.shares.clone();
    let count = about_t(rng, n, t);
    let some = rng.some_of(n, count);
    match rng.below(16) {
        0..=1 => {}
        2..=6 => {
            for j in some {
                list[j - 1] = wrong(rng, width, list[j - 1]);
            }
        }
        7 => {
            let poly: Vec<u64> = (0..=t).map(|_| rng.element(width).into()).collect();
            for j in (1..=n).filter(|j| !some.contains(j)) {
                list[j - 1] = value(width, &poly, point(&world.table, j)) as u32;
            }
        }
        8 => enlarge(rng, width, &mut list),
        9 => garble(rng, width, &mut list),
        _ => return unsent_list(rng, world, own),
    }
    list
}

/// The world's shares with many parties dark, as party `own` opens them.
pub fn unsent_list(rng: &mut Rng, world: &Scenario, own: usize) -> Vec<u32> {
    let Record { width, t, .. } = world.record;
    let mut list = world.record.shares.clone();
    leave_unsent(rng, width, &world.table, t, Some(own), &mut list);
    list
}

/// How many are sent, and how many of these lie. Half of the time it is at a
/// border: 2t+1 must agree, with t lies that is 3t+1, and the 3t+2 of 2t+1 true
/// ones and t+1 lies are the most that n = 4t+1 has room for.
fn sent_and_lies(rng: &mut Rng, n: usize, t: usize) -> (usize, usize) {
    if rng.chance(50) {
        return rng.pick(&[
            (2 * t, 0),
            (2 * t, 0),
            (2 * t, 0),
            (2 * t + 1, 0),
            (2 * t + 1, 1),
            (2 * t + 2, 1),
            (3 * t, t),
            (3 * t + 1, t),
            (3 * t + 1, t),
            (3 * t + 1, t + 1),
            (3 * t + 2, t + 1),
        ]);
    }
    let any = rng.between(0, n);
    let sent = rng.pick(&[2 * t, 2 * t + 1, 3 * t, 3 * t + 1, 3 * t + 2, any]);
    let any = rng.between(0, sent);
    (sent, rng.pick(&[0, 0, t, t, t + 1, 1, any]).min(sent))
}

/// Makes parties dark and lets some of the others lie. If a party opens the list
/// itself, its own share is one of those sent, and what stands in its place is
/// anything.
pub fn leave_unsent(
    rng: &mut Rng,
    width: Width,
    table: &[u32],
    t: usize,
    own: Option<usize>,
    list: &mut [u32],
) {
    let n = list.len();
    let (sent, lies) = sent_and_lies(rng, n, t);
    let mut order = rng.some_of(n, n);
    if let Some(own) = own {
        order.retain(|&i| i != own);
        order.insert(0, own);
    }
    let (true_ones, others) = order.split_at(sent - lies);
    let (liars, unsent) = others.split_at(lies);
    speak_falsely(rng, width, table, t, (true_ones, liars), list);
    for &i in unsent {
        list[i - 1] = unsent_number(rng, width, list[i - 1]);
    }
    if let Some(own) = own {
        list[own - 1] = lie(rng, width, list[own - 1]);
    }
}

/// The liars' numbers are sent and wrong: each off by another number, or all on
/// one other polynomial, which may agree with the true one at t points of those
/// who do not lie.
fn speak_falsely(
    rng: &mut Rng,
    width: Width,
    table: &[u32],
    t: usize,
    (true_ones, liars): (&[usize], &[usize]),
    list: &mut [u32],
) {
    let common = rng.pick(&[0, t, t]).min(true_ones.len());
    let alike = rng.chance(60);
    let factor = u64::from(rng.unit(width));
    for &i in liars {
        // One who has no share stays dark.
        if !width.is_sent(list[i - 1]) {
            continue;
        }
        let x = point(table, i);
        let by = match alike {
            true => true_ones[..common].iter().fold(factor, |by, &j| {
                width.mul(by, width.sub(x, point(table, j)))
            }),
            false => rng.unit(width).into(),
        };
        list[i - 1] = width.add(list[i - 1].into(), by) as u32;
    }
}

/// What stands for a dark party: what a sender writes, the prime, or any number
/// that is not sent. A wide one may be the truth with the prime added.
fn unsent_number(rng: &mut Rng, width: Width, truth: u32) -> u32 {
    match rng.below(6) {
        0..=1 => width.not_sent(),
        2 => width.prime() as u32,
        3 if width == Width::Wide && width.is_sent(truth) => truth + width.prime() as u32,
        _ => rng.not_sent(width),
    }
}
