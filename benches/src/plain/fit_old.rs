//! Decoding by the first algorithm: every choice of t + 1 among the first t + 1 + spare points sent is interpolated,
//! and all points are counted.

use super::field::Number;
use super::fit::{interpolate, needed, search, sent, value, Taken};

pub const NAME: &str = "every choice in order";

pub fn fit<N: Number>(t: usize, need: usize, xs: &[N], ys: &[N]) -> Option<[N; 4]> {
    choices(t, need, xs, ys, sent(ys).saturating_sub(need))
}

pub fn open<N: Number>(t: usize, xs: &[N], ys: &[N]) -> Option<[N; 4]> {
    fit(t, needed(t, sent(ys)), xs, ys)
}

/// The choices of t + 1 among the first t + 1 + spare points sent, in order, until one fits.
pub fn choices<N: Number>(t: usize, need: usize, xs: &[N], ys: &[N], spare: usize) -> Option<[N; 4]> {
    if 3 < t || xs.len() != ys.len() {
        return None;
    }
    let test = |taken: &Taken| {
        let f = interpolate(taken);
        let hits = xs.iter().zip(ys).filter(|&(&x, &y)| value(&f[..taken.count], x) == y).count();
        (need <= hits).then_some(f)
    };
    search(xs, ys, &test, 0, t + 1, spare, Taken::default())
}
