//! A lamp run on a record: its deal, its report on the pairs, and settling.

use super::deal::residues;
use super::field::{value, Number};
use super::record::{numbers, Record};

/// Row and column as dealt, with zeros behind them.
struct Deal<N> {
    row: [N; 4],
    column: [N; 4],
    width: usize,
}

impl<N: Number> Deal<N> {
    fn of(record: &Record<N>, i: u8) -> Deal<N> {
        let width = usize::from(record.t) + 1;
        let half = N::BYTES * width;
        let from = 2 * half * (usize::from(i) - 1);
        let (row, column) = record.deals[from..from + 2 * half].split_at(half);
        Deal { row: numbers(row), column: numbers(column), width }
    }

    fn row_at(&self, j: u8) -> N {
        N::lent(value(&self.row[..self.width], u32::from(j)))
    }

    fn column_at(&self, j: u8) -> N {
        N::lent(value(&self.column[..self.width], u32::from(j)))
    }

    fn sound(&self, i: u8) -> bool {
        residues(&self.row) && residues(&self.column) && self.row_at(i) == self.column_at(i)
    }
}

/// The pairs that lamp i heard, two numbers for each lamp.
fn heard<'a, N: Number>(record: &Record<'a, N>, i: u8) -> &'a [u8] {
    let width = 2 * N::BYTES * usize::from(record.n);
    let from = width * (usize::from(i) - 1);
    &record.pairs[from..from + width]
}

/// Lamp i's report on the pairs it heard.
pub fn report<N: Number>(record: &Record<N>, i: u8) -> u16 {
    let deal = Deal::of(record, i);
    if !deal.sound(i) {
        return 0;
    }
    let mut bits = 0;
    for (pair, j) in heard(record, i).chunks_exact(2 * N::BYTES).zip(1u8..) {
        if j != i && N::read(pair) == deal.column_at(j) && N::read(&pair[N::BYTES..]) == deal.row_at(j) {
            bits |= 1 << (j - 1);
        }
    }
    bits
}

/// How the happy set, the fit of a repair and that of an opening are found. With `ONCE` the happy set of the reports is
/// found once for all lamps.
pub trait Ways {
    const ONCE: bool;
    fn happy_set(reports: &[u16]) -> u16;
    fn fit<N: Number>(t: usize, need: usize, xs: &[N], ys: &[N]) -> Option<[N; 4]>;
    fn open<N: Number>(t: usize, xs: &[N], ys: &[N]) -> Option<[N; 4]>;
}

/// The constant of the column that fits what the happy lamps said first.
fn repaired<W: Ways, N: Number>(record: &Record<N>, i: u8, set: u16) -> Option<N> {
    let (mut xs, mut ys, mut count) = ([N::from(0); 16], [N::from(0); 16], 0);
    for (pair, j) in heard(record, i).chunks_exact(2 * N::BYTES).zip(1u16..) {
        if set >> (j - 1) & 1 == 1 {
            xs[count] = N::from(j);
            ys[count] = N::read(pair);
            count += 1;
        }
    }
    let t = usize::from(record.t);
    W::fit(t, count - t, &xs[..count], &ys[..count]).map(|f| f[0])
}

/// Lamp i's share, or the number of its refusal.
pub fn settle<W: Ways, N: Number>(record: &Record<N>, i: u8, reports: &[u16], known: u16) -> Result<N, u8> {
    if report(record, i) != reports[usize::from(i) - 1] {
        return Err(7);
    }
    let set = if W::ONCE { known } else { W::happy_set(reports) };
    if set.count_ones() < u32::from(record.n - record.t) {
        return Err(8);
    }
    if set >> (i - 1) & 1 == 1 {
        return Ok(Deal::of(record, i).column[0]);
    }
    repaired::<W, N>(record, i, set).ok_or(9)
}
