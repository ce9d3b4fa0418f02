//! Decoding by an error locator, after Berlekamp and Welch: polynomials Q and E with Q(x) = y E(x) at points enough, E
//! being 0 at the wrong ones, so that Q over E is the polynomial that fits. Two solutions of the lowest degrees are
//! kept and brought up point by point, by cross multiplication: the only inverse is that of the last division.

use super::differences_now;
use super::field::Number;
use super::fit::{cubic, enough, interpolate, meets, needed, Taken};

pub const NAME: &str = "an error locator";

/// The most coefficients of Q and of E, in whole groups of four: ten points give Q up to eleven, E up to seven.
const Q: usize = 12;
const E: usize = 8;

pub fn open<N: Number>(t: usize, xs: &[N], ys: &[N]) -> Option<[N; 4]> {
    if 3 < t || xs.len() != ys.len() || 16 < xs.len() {
        return None;
    }
    let sent = Sent::of(xs, ys);
    let need = needed(t, sent.count);
    if sent.count < need {
        return None;
    }
    let f = sent.located(t, sent.count - need)?;
    enough(&f, need, xs, ys).then_some(f)
}

/// The points that were sent, in front.
struct Sent<N> {
    count: usize,
    xs: [N; 16],
    ys: [N; 16],
}

impl<N: Number> Sent<N> {
    /// Every point is written; one that was not sent is written over by the next.
    #[inline(always)]
    fn of(xs: &[N], ys: &[N]) -> Sent<N> {
        let mut sent = Sent { count: 0, xs: [N::from(0); 16], ys: [N::from(0); 16] };
        for (&x, &y) in xs.iter().zip(ys) {
            sent.xs[sent.count & 15] = x;
            sent.ys[sent.count & 15] = y;
            sent.count += usize::from(y.is_sent());
        }
        sent
    }

    /// The polynomial that fits the first points but for so many wrong ones: t + 1 points, and two for each of these.
    /// The one through t + 1 of them may go through more: as far as it does, nothing is solved. Then with each point the
    /// solution of lower degree goes up, unless it holds there: then the other one does.
    #[inline(always)]
    fn located(&self, t: usize, wrong: usize) -> Option<[N; 4]> {
        let (mut first, mut second) = (Solution::none(), Solution::none());
        let f = through(&self.taken(t + 1));
        let end = (t + 1 + 2 * wrong).min(16);
        let start = self.agreeing(&f, t + 1, end);
        second.start(&f[..=t]);
        if start < end {
            first.start_at(&self.xs[..start]);
        }
        for k in start..end {
            let (x, y) = (self.xs[k], self.ys[k]);
            if first.q_count <= second.q_count {
                step(&mut first, &mut second, x, y);
            } else {
                step(&mut second, &mut first, x, y);
            }
        }
        if wrong + 1 < second.e_count {
            return None;
        }
        second.quotient(t)
    }

    /// How many of the points before the end f goes through, the first k among them.
    #[inline(always)]
    fn agreeing(&self, f: &[N; 4], k: usize, end: usize) -> usize {
        (k..end).find(|&i| !meets(f, self.xs[i], self.ys[i])).unwrap_or(end)
    }

    #[inline(always)]
    fn taken(&self, count: usize) -> Taken {
        let four = |[a, b, c, d, ..]: [N; 16]| [a, b, c, d].map(N::into);
        Taken { count, xs: four(self.xs), ys: four(self.ys) }
    }
}

/// The polynomial through the points taken. Four points have their own way, as in the library.
#[inline(always)]
fn through<N: Number>(taken: &Taken) -> [N; 4] {
    if taken.count == 4 {
        cubic(taken.xs, differences_now::differences::<N>(taken.xs, taken.ys))
    } else {
        interpolate(taken)
    }
}

/// Makes both solutions hold at one point more. It is called: written out for either order it would be there twice.
#[inline(never)]
fn step<N: Number>(lower: &mut Solution<N>, other: &mut Solution<N>, x: N, y: N) {
    let times = |a: N, b: N| N::lent(N::mul(a.into(), b.into()));
    let square = times(x, x);
    let powers = &[x, square, times(square, x), times(square, square)];
    let d = lower.discrepancy(powers, y);
    if d == 0 {
        return other.raise(x);
    }
    let g = other.discrepancy(powers, y);
    cross(lower, other, x, N::lent(d), N::lent(g));
}

/// Makes the other solution d times it less g times the lower one, and the lower one X - x times it. It is called, so
/// that d and g are known to be as short as they are lent.
#[inline(never)]
fn cross<N: Number>(lower: &mut Solution<N>, other: &mut Solution<N>, x: N, d: N, g: N) {
    let (minus, d, g) = (N::P - x.into(), d.into(), N::P - g.into());
    let q_count = other.q_count.max(lower.q_count + 1);
    let e_count = other.e_count.max(lower.e_count + 1);
    cross_lists(&mut lower.q[..q_count], &mut other.q[..q_count], minus, d, g);
    cross_lists(&mut lower.e[..e_count], &mut other.e[..e_count], minus, d, g);
    lower.q_count += 1;
    lower.e_count += 1;
}

/// The coefficients of Q and E, the constants first, with zeros behind them. They are kept as they are lent: of numbers
/// that are known to be short, sums of products are reduced in fewer steps.
struct Solution<N> {
    q: [N; Q],
    e: [N; E],
    q_count: usize,
    e_count: usize,
}

impl<N: Number> Solution<N> {
    #[inline(always)]
    fn none() -> Solution<N> {
        Solution { q: [N::from(0); Q], e: [N::from(0); E], q_count: 1, e_count: 1 }
    }

    /// The product of X - x over these points, and 0.
    #[inline(always)]
    fn start_at(&mut self, xs: &[N]) {
        self.q[0] = N::lent(N::sub(0, xs[0].into()));
        self.q[1] = N::from(1);
        self.q_count = 2;
        for &x in &xs[1..] {
            self.q_count += 1;
            raise(&mut self.q[..self.q_count], N::P - x.into());
        }
    }

    /// A polynomial, and 1.
    #[inline(always)]
    fn start(&mut self, f: &[N]) {
        self.q[..f.len()].copy_from_slice(f);
        self.q_count = f.len();
        self.e[0] = N::from(1);
    }

    /// Q(x) - y E(x), of the first powers of x, four coefficients at a time.
    #[inline(always)]
    fn discrepancy(&self, powers: &[N; 4], y: N) -> u32 {
        let q = |k: usize| four([self.q[k], self.q[k + 1], self.q[k + 2], self.q[k + 3]], powers);
        let e = |k: usize| four([self.e[k], self.e[k + 1], self.e[k + 2], self.e[k + 3]], powers);
        let fourth = powers[3].into();
        let raised = |high: u64, low: N| N::lent(N::mul_add(fourth, N::reduced(high), low.into()));
        let mut sum = N::folded(q(0));
        if 4 < self.q_count {
            let mut high = N::lent(N::reduced(q(4)));
            if 8 < self.q_count {
                high = raised(q(8), high);
            }
            sum += u64::from(fourth) * u64::from(high.into());
        }
        let mut e_at = N::lent(N::reduced(e(0)));
        if 4 < self.e_count {
            e_at = raised(e(4), e_at);
        }
        N::reduced(sum + u64::from(N::P - y.into()) * u64::from(e_at.into()))
    }

    /// Both times X - x.
    #[inline(always)]
    fn raise(&mut self, x: N) {
        let minus = N::P - x.into();
        self.q_count += 1;
        self.e_count += 1;
        raise(&mut self.q[..self.q_count], minus);
        raise(&mut self.e[..self.e_count], minus);
    }

    /// Q over E, if that leaves nothing. Where it stands: a copy would wait for what was just written.
    #[inline(always)]
    fn quotient(&mut self, t: usize) -> Option<[N; 4]> {
        let degree = self.e_count - 1;
        let lead = N::inverse_by_nearest(self.e[degree].into());
        let mut f = [N::from(0); 4];
        for s in (0..=t).rev() {
            let c = N::mul(self.q[s + degree].into(), lead);
            f[s & 3] = N::lent(c);
            for (place, &e) in self.q[s..s + degree].iter_mut().zip(&self.e[..degree]) {
                *place = N::lent(N::mul_add(N::P - c, e.into(), (*place).into()));
            }
        }
        self.q[..degree].iter().all(|&c| c == N::from(0)).then_some(f)
    }
}

/// A number with the residue of a cubic's value, of the first powers: three products and a number fit 64 bits.
#[inline(always)]
fn four<N: Number>([a, b, c, d]: [N; 4], &[x, square, cube, _]: &[N; 4]) -> u64 {
    let term = |c: N, power: N| u64::from(c.into()) * u64::from(power.into());
    u64::from(a.into()) + term(b, x) + term(c, square) + term(d, cube)
}

/// Multiplies by X - x, given as the prime less x; the last coefficient was 0.
#[inline(always)]
fn raise<N: Number>(list: &mut [N], minus: u32) {
    let mut below = 0;
    for place in list {
        let c = (*place).into();
        *place = N::lent(N::mul_add(minus, c, below));
        below = c;
    }
}

/// Both lists are gone through once: the other becomes d times it and g times the lower, which goes up as above.
#[inline(always)]
fn cross_lists<N: Number>(lower: &mut [N], other: &mut [N], minus: u32, d: u32, g: u32) {
    let mut below = 0;
    for (low, place) in lower.iter_mut().zip(other) {
        let c = (*low).into();
        *place = N::lent(N::reduced(u64::from(d) * u64::from((*place).into()) + u64::from(g) * u64::from(c)));
        *low = N::lent(N::mul_add(minus, c, below));
        below = c;
    }
}
