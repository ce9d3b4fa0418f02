//! Records, narrow and wide: the example, one with liars, honest ones, and others made of them.
//!
//! Adding an honest sharing to every number of a record changes neither who agrees with whom nor who lies: such a sum
//! is the same case with other numbers.

use crate::inputs::Bytes;
use crate::plain::deal::deal;
use crate::plain::field::{value, Number};
use crate::plain::lamp::report;
use crate::plain::record::{lengths, read};
use crate::points::{any_size, lamps, leave_unsent, raised, zero_at};
use crate::rng::Rng;

pub const EXAMPLE: &[u8] = include_bytes!("../../crates/bench/stdin");
pub const LIARS: &[u8] = include_bytes!("../../docs/pictures/liars.rec");

/// The sizes of a record.
fn sizes<N: Number>(record: &[u8]) -> (u8, u8) {
    (record[0] - N::MARK, record[1])
}

/// Where the sections start.
fn starts<N: Number>(n: u8, t: u8) -> [usize; 4] {
    let [deals, pairs, reports, _] = lengths::<N>(n, t);
    [18, 18 + deals, 18 + deals + pairs, 18 + deals + pairs + reports]
}

fn put<N: Number>(bytes: &mut [u8], at: usize, x: N) {
    x.write(&mut bytes[at..]);
}

/// The honest record of F = 0.
fn zero<N: Number>(n: u8, t: u8) -> Vec<u8> {
    let mut bytes = vec![0; 18 + lengths::<N>(n, t).iter().sum::<usize>()];
    bytes[0] = n + N::MARK;
    bytes[1] = t;
    let starts = starts::<N>(n, t);
    for (k, (start, length)) in starts.into_iter().zip(lengths::<N>(n, t)).enumerate() {
        put(&mut bytes, 2 + 4 * k, start as u16);
        put(&mut bytes, 4 + 4 * k, length as u16);
    }
    let size = usize::from(n);
    for i in 0..size {
        let own = starts[1] + 2 * N::BYTES * (i * size + i);
        put(&mut bytes, own, N::NOT_SENT);
        put(&mut bytes, own + N::BYTES, N::NOT_SENT);
        put(&mut bytes, starts[2] + 2 * i, (((1u32 << n) - 1) as u16) & !(1 << i));
    }
    bytes
}

/// Adds a field element to the number at a place, if one was sent.
fn add<N: Number>(bytes: &mut [u8], at: usize, x: N) {
    let old = N::read(&bytes[at..]);
    if old.is_sent() {
        put(bytes, at, N::lent(N::mul_add(1, x.into(), old.into())));
    }
}

/// The record with the honest sharing of a random F added.
pub fn shifted<N: Number>(rng: &mut Rng, record: &[u8]) -> Bytes {
    let mut bytes = record.to_vec();
    let (n, t) = sizes::<N>(record);
    let (size, width) = (usize::from(n), usize::from(t) + 1);
    let mut deals = vec![N::from(0); 2 * size * width];
    deal(n, t, &rng.elements(width * width), &mut deals);
    let starts = starts::<N>(n, t);
    for (k, &x) in deals.iter().enumerate() {
        add(&mut bytes, starts[0] + N::BYTES * k, x);
    }
    for j in 0..size {
        let (row, column) = deals[2 * width * j..2 * width * (j + 1)].split_at(width);
        for i in 0..size {
            let place = starts[1] + 2 * N::BYTES * (i * size + j);
            add(&mut bytes, place, N::lent(value(row, i as u32 + 1)));
            add(&mut bytes, place + N::BYTES, N::lent(value(column, i as u32 + 1)));
        }
        add(&mut bytes, starts[3] + N::BYTES * j, column[0]);
    }
    Bytes(bytes)
}

pub fn honest<N: Number>(rng: &mut Rng, n: u8, t: u8) -> Bytes {
    shifted::<N>(rng, &zero::<N>(n, t))
}

/// A wide record of F = 0 with the reports and the lies of a narrow one, whose deals are honest: 1 stands where that
/// has another number than it would without lies, and what was not sent is not sent.
pub fn widened(record: &[u8]) -> Vec<u8> {
    let (n, t) = sizes::<u16>(record);
    let (size, width) = (usize::from(n), usize::from(t) + 1);
    let mut bytes = zero::<u32>(n, t);
    let (from, to) = (starts::<u16>(n, t), starts::<u32>(n, t));
    bytes[to[2]..to[3]].copy_from_slice(&record[from[2]..from[3]]);
    let mut tell = |at: usize, place: usize, right: u32| {
        let x = u16::read(&record[at..]);
        if u32::from(x) != right {
            put(&mut bytes, place, if x.is_sent() { 1 } else { u32::NOT_SENT });
        }
    };
    for j in 0..size {
        let at = |k: usize| u16::read(&record[from[0] + 2 * (2 * width * j + k)..]);
        let row: Vec<u16> = (0..width).map(at).collect();
        let column: Vec<u16> = (width..2 * width).map(at).collect();
        for i in 0..size {
            let (at, place) = (from[1] + 4 * (i * size + j), to[1] + 8 * (i * size + j));
            tell(at, place, value(&row, i as u32 + 1));
            tell(at + 2, place + 4, value(&column, i as u32 + 1));
        }
        tell(from[3] + 2 * j, to[3] + 4 * j, column[0].into());
    }
    bytes
}

/// Any record, sometimes of F = 0: some numbers altered, reports mostly in keeping with them, sometimes a damaged head
/// or end.
pub fn any_record<N: Number>(rng: &mut Rng) -> Bytes {
    let mut bytes = any_until_reports::<N>(rng);
    let (n, t) = sizes::<N>(&bytes);
    let (from, end) = (starts::<N>(n, t)[3], bytes.len());
    for _ in 0..rng.below(usize::from(t) + 2) {
        alter::<N>(rng, &mut bytes, from, end);
    }
    damage(rng, &mut bytes);
    Bytes(bytes)
}

/// The same with many shares not sent; in half of them nothing else is altered, so that the dealer is accepted.
pub fn any_unsent_record<N: Number>(rng: &mut Rng) -> Bytes {
    let (n, t) = any_size(rng);
    let Bytes(honest) = honest::<N>(rng, n as u8, t as u8);
    let mut bytes = if rng.chance(50) { honest } else { any_until_reports::<N>(rng) };
    let (n, t) = sizes::<N>(&bytes);
    let from = starts::<N>(n, t)[3];
    let mut shares: Vec<N> = bytes[from..].chunks_exact(N::BYTES).map(N::read).collect();
    leave_unsent(rng, usize::from(t), &lamps(usize::from(n)), &mut shares);
    for (k, &share) in shares.iter().enumerate() {
        put(&mut bytes, from + N::BYTES * k, share);
    }
    damage(rng, &mut bytes);
    Bytes(bytes)
}

/// Any record of which nothing is altered but deals, pairs and reports.
fn any_until_reports<N: Number>(rng: &mut Rng) -> Vec<u8> {
    let (n, t) = any_size(rng);
    let (n, t) = (n as u8, t as u8);
    let mut bytes = if rng.chance(25) { zero::<N>(n, t) } else { honest::<N>(rng, n, t).0 };
    alter_deals_and_pairs::<N>(rng, &mut bytes);
    let starts = starts::<N>(n, t);
    for i in 1..=n {
        let bits = report(&read::<N>(&bytes).ok().unwrap(), i);
        put(&mut bytes, starts[2] + 2 * (usize::from(i) - 1), bits);
    }
    for _ in 0..rng.below(6).saturating_sub(3) {
        let at = starts[2] + 2 * rng.below(usize::from(n));
        put(&mut bytes, at, rng.any());
    }
    bytes
}

fn alter_deals_and_pairs<N: Number>(rng: &mut Rng, bytes: &mut [u8]) {
    let (n, t) = sizes::<N>(bytes);
    let [deals, pairs, reports, _] = starts::<N>(n, t);
    for _ in 0..rng.below(6).saturating_sub(3) {
        alter::<N>(rng, bytes, deals, pairs);
    }
    for _ in 0..rng.below(4).saturating_sub(1) {
        alter_slyly::<N>(rng, bytes);
    }
    for _ in 0..rng.below(40) * rng.below(2) {
        alter::<N>(rng, bytes, pairs, reports);
    }
    // What one lamp hears: it may become unhappy, and its repair fail.
    let width = (reports - pairs) / usize::from(n);
    let from = pairs + width * rng.below(usize::from(n));
    for _ in 0..rng.below(24) * rng.below(2) {
        alter::<N>(rng, bytes, from, from + width);
    }
}

/// Adds to one lamp's row or column a polynomial that is 0 at t lamps: with those all seems well.
fn alter_slyly<N: Number>(rng: &mut Rng, bytes: &mut [u8]) {
    let (n, t) = sizes::<N>(bytes);
    let (n, t) = (usize::from(n), usize::from(t));
    let points: Vec<N> = rng.order(n).into_iter().take(t).map(|k| N::ONE_TO[k]).collect();
    let change = zero_at(rng, &points);
    let half = rng.below(2 * n);
    for (k, &c) in change.iter().enumerate() {
        add(bytes, 18 + N::BYTES * (half * (t + 1) + k), c);
    }
}

/// Puts another number into a random place of a section.
fn alter<N: Number>(rng: &mut Rng, bytes: &mut [u8], from: usize, to: usize) {
    let at = from + N::BYTES * rng.below((to - from) / N::BYTES);
    let x: N = if rng.chance(70) { rng.edge() } else { raised(rng, N::read(&bytes[at..])) };
    put(bytes, at, x);
}

fn damage(rng: &mut Rng, bytes: &mut Vec<u8>) {
    match rng.below(20) {
        0 => bytes[rng.below(18)] ^= 1 << rng.below(8),
        1 => bytes.truncate(rng.below(bytes.len())),
        2 => bytes.push(0),
        _ => {}
    }
}
