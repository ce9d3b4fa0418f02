//! Decoding by groups: where at most one polynomial fits, t + 1 points that fail hold a wrong one, so they are dropped,
//! and one fewer may be wrong among the rest. Where the rest gets short, its choices are tried as in the first
//! algorithm. A cubic with three wrong points among fewer than 16 is looked for by pairs of points.
//!
//! An opening first asks whether all lamps but t agree with the first t + 1 sent: then it opens, whoever is dark. Only
//! where they do not, those sent are counted.

use super::differences_now;
use super::field::Number;
use super::fit::{cubic, enough, interpolate, needed, search, sent, Taken};

pub const NAME: &str = "groups of t + 1, or pairs";

/// Two of five pairs of points, each by the place of its first point: every choice but that of the first two.
const CHOICES: [(usize, usize); 9] = [(4, 6), (0, 4), (0, 6), (2, 4), (2, 6), (0, 8), (2, 8), (4, 8), (6, 8)];

pub fn fit<N: Number>(t: usize, need: usize, xs: &[N], ys: &[N]) -> Option<[N; 4]> {
    fit_by(differences_now::differences::<N>, t, need, xs, ys)
}

pub fn open<N: Number>(t: usize, xs: &[N], ys: &[N]) -> Option<[N; 4]> {
    open_by(differences_now::differences::<N>, t, xs, ys)
}

/// With Newton's coefficients of four points taken so.
#[inline(always)]
pub fn fit_by<N: Number>(
    differences: impl Fn([u32; 4], [u32; 4]) -> [u32; 4],
    t: usize,
    need: usize,
    xs: &[N],
    ys: &[N],
) -> Option<[N; 4]> {
    let points = Points::new(differences, t, xs, ys)?;
    let first = points.next(need, 0);
    if first.is_some() {
        return first;
    }
    points.later(need, sent(ys))
}

/// The same for an opening, in the library's order: where some lamps are dark, the first points are tried again with the
/// need of those sent, and then the others.
#[inline(always)]
pub fn open_by<N: Number>(
    differences: impl Fn([u32; 4], [u32; 4]) -> [u32; 4],
    t: usize,
    xs: &[N],
    ys: &[N],
) -> Option<[N; 4]> {
    let points = Points::new(differences, t, xs, ys)?;
    let first = points.next(needed(t, ys.len()), 0);
    if first.is_some() {
        return first;
    }
    let sent = sent(ys);
    let need = needed(t, sent);
    if sent < ys.len() {
        let again = points.next(need, 0);
        if again.is_some() {
            return again;
        }
    }
    points.later(need, sent)
}

/// What is decoded: a polynomial of degree t, and the points.
struct Points<'a, N, D> {
    differences: D,
    t: usize,
    xs: &'a [N],
    ys: &'a [N],
}

impl<'a, N: Number, D: Fn([u32; 4], [u32; 4]) -> [u32; 4]> Points<'a, N, D> {
    #[inline(always)]
    fn new(differences: D, t: usize, xs: &'a [N], ys: &'a [N]) -> Option<Self> {
        (t <= 3 && xs.len() == ys.len()).then_some(Points { differences, t, xs, ys })
    }

    /// The polynomial through the points taken, if enough agree. Four points have their own way, as in the library. It is
    /// called: written out in the loop over groups, it is short of registers.
    #[inline(never)]
    fn test(&self, need: usize, taken: &Taken) -> Option<[N; 4]> {
        let four = || cubic(taken.xs, (self.differences)(taken.xs, taken.ys));
        let f = if taken.count == 4 { four() } else { interpolate(taken) };
        enough(&f, need, self.xs, self.ys).then_some(f)
    }

    /// That through the next t + 1 points sent from place i on.
    #[inline(always)]
    fn next(&self, need: usize, i: usize) -> Option<[N; 4]> {
        self.test(need, &taken_from(i, self.t + 1, self.xs, self.ys)?)
    }

    /// The search where the first t + 1 of so many points sent have failed.
    #[inline(always)]
    fn later(&self, need: usize, sent: usize) -> Option<[N; 4]> {
        let (t, xs, ys) = (self.t, self.xs, self.ys);
        let test = |taken: &Taken| self.test(need, taken);
        if sent <= need {
            return None;
        }
        let spare = sent - need;
        if need <= spare + t {
            return search(xs, ys, &test, 0, t + 1, spare, Taken::default());
        }
        if t == 3 && spare == 3 && sent < 16 {
            return pairs(&self.differences, need, xs, ys);
        }
        let (mut i, mut left, mut wrong) = (0, sent, spare);
        while 2 * t + 1 + wrong <= left {
            i = behind(ys, i, t + 1);
            left -= t + 1;
            wrong -= 1;
            let group = self.next(need, i);
            if group.is_some() || wrong == 0 {
                return group;
            }
        }
        search(xs, ys, &test, i, t + 1, wrong, Taken::default())
    }
}

/// Of five pairs of points two have no wrong one, where three of the ten are wrong.
fn pairs<N: Number>(
    differences: impl Fn([u32; 4], [u32; 4]) -> [u32; 4],
    need: usize,
    xs: &[N],
    ys: &[N],
) -> Option<[N; 4]> {
    let mut ten = [(N::from(0), N::from(0)); 10];
    let sent = xs.iter().zip(ys).filter(|(_, y)| y.is_sent());
    for (place, (&x, &y)) in ten.iter_mut().zip(sent) {
        *place = (x, y);
    }
    CHOICES.iter().find_map(|&(a, b)| {
        let four = [ten[a], ten[a + 1], ten[b], ten[b + 1]];
        let (xs4, ys4) = (four.map(|(x, _)| x.into()), four.map(|(_, y)| y.into()));
        let f = cubic(xs4, differences(xs4, ys4));
        enough(&f, need, xs, ys).then_some(f)
    })
}

/// The next `count` points sent, if there are as many.
#[inline(always)]
fn taken_from<N: Number>(i: usize, count: usize, xs: &[N], ys: &[N]) -> Option<Taken> {
    let mut taken = Taken::default();
    for (&x, &y) in xs.iter().zip(ys).skip(i) {
        if y.is_sent() {
            taken = taken.with(x, y);
            if taken.count == count {
                return Some(taken);
            }
        }
    }
    None
}

/// The place behind the next `count` values sent.
fn behind<N: Number>(ys: &[N], mut i: usize, mut count: usize) -> usize {
    while 0 < count && i < ys.len() {
        count -= usize::from(ys[i].is_sent());
        i += 1;
    }
    i
}
