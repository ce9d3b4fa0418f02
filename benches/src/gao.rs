//! Gao's decoder: the polynomial through all points sent, then Euclid's algorithm against the product of X - x, stopped
//! half way; the remainder divided by its cofactor is the polynomial that fits. What was not sent is left out.

use crate::plain::field::Number;
use crate::plain::fit::needed;

/// Coefficients, the constant first, with zeros behind them: a product of 16 factors has 17, and one is to spare.
type Polynomial = [u32; 18];

/// The points that were sent, with distinct places.
struct Sent {
    count: usize,
    xs: [u32; 16],
    ys: [u32; 16],
}

pub fn fit<N: Number>(t: usize, need: usize, xs: &[N], ys: &[N]) -> Option<[N; 4]> {
    decode(t, Some(need), xs, ys)
}

pub fn open<N: Number>(t: usize, xs: &[N], ys: &[N]) -> Option<[N; 4]> {
    decode(t, None, xs, ys)
}

/// Where no need is named, it is that of an opening, which those sent say.
fn decode<N: Number>(t: usize, need: Option<usize>, xs: &[N], ys: &[N]) -> Option<[N; 4]> {
    if 3 < t || xs.len() != ys.len() || 16 < xs.len() {
        return None;
    }
    let sent = Sent::of(xs, ys);
    let need = need.unwrap_or(needed(t, sent.count));
    if sent.count < need || sent.count <= t {
        return None;
    }
    let (product, through) = sent.interpolate::<N>();
    let mut euclid = Euclid::new(sent.count, product, through);
    while sent.count + t < 2 * euclid.degree {
        euclid.divide::<N>();
    }
    let errors = sent.count - need;
    if errors < euclid.cofactor_degree {
        return None;
    }
    euclid.quotient(t)
}

impl Sent {
    fn of<N: Number>(xs: &[N], ys: &[N]) -> Sent {
        let mut sent = Sent { count: 0, xs: [0; 16], ys: [0; 16] };
        for (&x, &y) in xs.iter().zip(ys) {
            sent.xs[sent.count & 15] = x.residue();
            sent.ys[sent.count & 15] = y.into();
            sent.count += usize::from(y.is_sent());
        }
        sent
    }

    /// Row i holds the products of the first differences of point i from those before it: Newton's basis there.
    fn basis<N: Number>(&self) -> [[u32; 16]; 16] {
        let mut basis = [[0; 16]; 16];
        for (i, row) in basis.iter_mut().enumerate().take(self.count) {
            let mut w = 1;
            for (place, &x) in row.iter_mut().zip(&self.xs[..i]) {
                *place = w;
                w = N::mul(w, N::sub(self.xs[i], x));
            }
            row[i] = w;
        }
        basis
    }

    /// The coefficients of the polynomial through all points in Newton's basis. Sums of sixteen products, folded, fit
    /// 64 bits and are reduced once.
    fn newton<N: Number>(&self) -> [u32; 16] {
        let basis = self.basis::<N>();
        let inverses = inverses::<N>(&basis, self.count);
        let mut coefficients = [0; 16];
        for i in 0..self.count.min(16) {
            let terms = coefficients[..i].iter().zip(&basis[i]).map(|(&c, &w)| N::folded(u64::from(c) * u64::from(w)));
            let v = N::reduced(terms.sum());
            coefficients[i] = N::mul(N::sub(self.ys[i], v), inverses[i]);
        }
        coefficients
    }

    /// The product of all X - x, and the polynomial through all points.
    fn interpolate<N: Number>(&self) -> (Polynomial, Polynomial) {
        let coefficients = self.newton::<N>();
        let (mut product, mut through): (Polynomial, [u64; 18]) = ([0; 18], [0; 18]);
        product[0] = 1;
        for i in 0..self.count.min(16) {
            for (place, &p) in through.iter_mut().zip(&product[..=i]) {
                *place += N::folded(u64::from(coefficients[i]) * u64::from(p));
            }
            let minus = N::P - self.xs[i];
            for k in (1..=i + 1).rev() {
                product[k] = N::mul_add(minus, product[k], product[k - 1]);
            }
            product[0] = N::mul(minus, product[0]);
        }
        (product, through.map(N::reduced))
    }
}

/// The inverses of the diagonal, all by one inversion.
fn inverses<N: Number>(basis: &[[u32; 16]; 16], count: usize) -> [u32; 16] {
    let (mut before, mut all) = ([0; 16], 1);
    for i in 0..count.min(16) {
        before[i] = all;
        all = N::mul(all, basis[i][i]);
    }
    let mut back = N::inverse(all);
    for i in (0..count.min(16)).rev() {
        before[i] = N::mul(back, before[i]);
        back = N::mul(back, basis[i][i]);
    }
    before
}

/// Two remainders in a row, the cofactors that take the interpolation to them, and their degrees. A remainder of 0 has
/// the degree 0.
struct Euclid {
    last: Polynomial,
    last_degree: usize,
    remainder: Polynomial,
    degree: usize,
    last_cofactor: Polynomial,
    cofactor: Polynomial,
    cofactor_degree: usize,
}

impl Euclid {
    fn new(count: usize, product: Polynomial, through: Polynomial) -> Euclid {
        let (mut one, none) = ([0; 18], [0; 18]);
        one[0] = 1;
        let mut euclid = Euclid {
            last: product,
            last_degree: count,
            remainder: through,
            degree: count,
            last_cofactor: none,
            cofactor: one,
            cofactor_degree: 0,
        };
        euclid.lower();
        euclid
    }

    /// Lowers the degree to that of the first coefficient that is not 0.
    fn lower(&mut self) {
        while 0 < self.degree && self.remainder[self.degree] == 0 {
            self.degree -= 1;
        }
    }

    /// One step: the last remainder less multiples of this one. It is scaled instead of divided by, which costs no
    /// inversion: remainder and cofactor are scaled alike, and their quotient is what counts.
    fn divide<N: Number>(&mut self) {
        let lead = self.remainder[self.degree];
        let steps = self.last_degree - self.degree;
        let (below, top) = (self.cofactor_degree, self.cofactor_degree + steps);
        for s in (0..=steps).rev() {
            let minus = N::P - self.last[s + self.degree];
            combine::<N>(&mut self.last[..=s + self.degree], lead, &self.remainder[..=self.degree], s, minus);
            combine::<N>(&mut self.last_cofactor[..=top], lead, &self.cofactor[..=below], s, minus);
        }
        self.cofactor_degree = top;
        self.last_degree = self.degree;
        std::mem::swap(&mut self.last, &mut self.remainder);
        std::mem::swap(&mut self.last_cofactor, &mut self.cofactor);
        self.degree -= 1;
        self.lower();
    }

    /// The remainder divided by its cofactor, if that leaves nothing and has a degree of at most t.
    fn quotient<N: Number>(mut self, t: usize) -> Option<[N; 4]> {
        let mut f = [N::from(0); 4];
        let below = self.cofactor_degree;
        if self.degree < below {
            return self.remainder.iter().all(|&c| c == 0).then_some(f);
        }
        if below + t < self.degree {
            return None;
        }
        let lead = N::inverse(self.cofactor[below]);
        for s in (0..=self.degree - below).rev() {
            let c = N::mul(self.remainder[s + below], lead);
            f[s & 3] = N::lent(c);
            combine::<N>(&mut self.remainder[s..=s + below], 1, &self.cofactor[..=below], 0, N::P - c);
        }
        self.remainder.iter().all(|&c| c == 0).then_some(f)
    }
}

/// Puts in the place of the list `scale` times it, plus `minus` times the part, moved up by some places.
#[inline(always)]
fn combine<N: Number>(list: &mut [u32], scale: u32, part: &[u32], by: usize, minus: u32) {
    let (low, rest) = list.split_at_mut(by);
    let (middle, high) = rest.split_at_mut(part.len());
    for place in low.iter_mut().chain(high) {
        *place = N::mul(scale, *place);
    }
    for (place, &c) in middle.iter_mut().zip(part) {
        *place = N::reduced(u64::from(scale) * u64::from(*place) + u64::from(minus) * u64::from(c));
    }
}
