//! What the decoders by trial share: interpolation, and whether enough points agree.

use super::field::Number;

/// At most four points that were taken.
#[derive(Clone, Copy, Default)]
pub struct Taken {
    pub count: usize,
    pub xs: [u32; 4],
    pub ys: [u32; 4],
}

impl Taken {
    #[inline(always)]
    pub fn with<N: Number>(mut self, x: N, y: N) -> Taken {
        self.xs[self.count & 3] = x.residue();
        self.ys[self.count & 3] = y.into();
        self.count += 1;
        self
    }
}

/// The slope between residues. To the next point, one further on, nothing is divided.
#[inline(always)]
fn slope<N: Number>(x: u32, y: u32, z: u32, w: u32) -> u32 {
    let (rise, run) = (N::sub(w, y), N::sub(z, x));
    if run == 1 {
        rise
    } else {
        N::mul(rise, N::inverse(run))
    }
}

/// The coefficients of the polynomial through the points taken: Newton's divided differences, multiplied out.
#[inline]
pub fn interpolate<N: Number>(taken: &Taken) -> [N; 4] {
    let (xs, mut ys, count) = (&taken.xs, taken.ys, taken.count.min(4));
    for i in 0..count {
        for j in i + 1..count {
            ys[j] = slope::<N>(xs[i], ys[i], xs[j], ys[j]);
        }
    }
    multiplied_out(xs, ys, count)
}

/// Newton's form of four points, multiplied out one step after the other.
#[inline(always)]
pub fn cubic<N: Number>([x0, x1, x2, _]: [u32; 4], [a, b, c, d]: [u32; 4]) -> [N; 4] {
    let less = |y, x, c| N::mul_add(N::P - x, c, y);
    let c = less(c, x2, d);
    let b = less(b, x1, c);
    let c = less(c, x1, d);
    [less(a, x0, b), less(b, x0, c), less(c, x0, d), d].map(N::lent)
}

/// Newton's form with `count` coefficients, multiplied out.
#[inline(always)]
pub fn multiplied_out<N: Number>(xs: &[u32; 4], mut ys: [u32; 4], count: usize) -> [N; 4] {
    for i in (0..count.min(4)).rev() {
        let minus = N::P - xs[i];
        for j in i..count.min(4) - 1 {
            ys[j] = N::mul_add(minus, ys[j + 1], ys[j]);
        }
    }
    ys.map(N::lent)
}

/// The value of f at x; coefficients above the degree are 0.
#[inline(always)]
pub fn value<N: Number>(f: &[N], x: N) -> N {
    N::lent(super::field::value(f, x.into()))
}

/// Whether y is the value at x of four coefficients. The value less y fits 64 bits, and whether P divides it is asked by a
/// product.
#[inline(always)]
pub fn meets<N: Number>(f: &[N; 4], x: N, y: N) -> bool {
    y.is_sent() && (N::cubic(*f, x.into()) + u64::from(N::P - y.into())) % u64::from(N::P) == 0
}

/// Whether at least `need` points agree with f: from the end, and no further where too many have differed.
#[inline]
pub fn enough<N: Number>(f: &[N; 4], need: usize, xs: &[N], ys: &[N]) -> bool {
    if xs.len() < need {
        return false;
    }
    let mut spare = xs.len() - need;
    for (&x, &y) in xs.iter().zip(ys).rev() {
        if !meets(f, x, y) {
            if spare == 0 {
                return false;
            }
            spare -= 1;
        }
    }
    true
}

/// The first polynomial that passes the test, of those through `more` points from place i on besides those taken, with
/// at most `spare` values passed over that were sent.
pub fn search<N: Number>(
    xs: &[N],
    ys: &[N],
    test: &impl Fn(&Taken) -> Option<[N; 4]>,
    i: usize,
    more: usize,
    spare: usize,
    taken: Taken,
) -> Option<[N; 4]> {
    if more == 0 {
        return test(&taken);
    }
    let (&x, &y) = (xs.get(i)?, ys.get(i)?);
    if !y.is_sent() {
        return search(xs, ys, test, i + 1, more, spare, taken);
    }
    let with_it = search(xs, ys, test, i + 1, more - 1, spare, taken.with(x, y));
    if spare == 0 || with_it.is_some() {
        return with_it;
    }
    search(xs, ys, test, i + 1, more, spare - 1, taken)
}

/// How many values were sent.
#[inline]
pub fn sent<N: Number>(ys: &[N]) -> usize {
    ys.iter().filter(|y| y.is_sent()).count()
}

/// How many must agree where so many shares were sent for an opening: at least 2t + 1, and all of those sent but t. A repair
/// needs all of its points but t, sent or not. Either way at most one polynomial fits.
#[inline(always)]
pub fn needed(t: usize, sent: usize) -> usize {
    (2 * t + 1).max(sent.saturating_sub(t))
}
