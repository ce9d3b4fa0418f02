//! Decoding by the second algorithm: the same choices in the same order, but the search carries Newton's form of the
//! points taken so far, and the count stops where too many have differed.

use super::field::Number;
use super::fit::{multiplied_out, needed, sent};

pub const NAME: &str = "every choice in order, with Newton's form carried along";

/// Newton's form of the points taken: their places, and the coefficients.
#[derive(Clone, Copy, Default)]
struct Form {
    count: usize,
    xs: [u32; 4],
    coefficients: [u32; 4],
}

struct Search<'a, N> {
    need: usize,
    xs: &'a [N],
    ys: &'a [N],
}

pub fn fit<N: Number>(t: usize, need: usize, xs: &[N], ys: &[N]) -> Option<[N; 4]> {
    if 3 < t || xs.len() != ys.len() || xs.len() < need {
        return None;
    }
    let spare = sent(ys).saturating_sub(need);
    let form = Search { need, xs, ys }.from(0, t + 1, spare, Form::default())?;
    Some(multiplied_out(&form.xs, form.coefficients, form.count))
}

pub fn open<N: Number>(t: usize, xs: &[N], ys: &[N]) -> Option<[N; 4]> {
    fit(t, needed(t, sent(ys)), xs, ys)
}

impl Form {
    /// With one point more: its coefficient is the divided difference over all points taken.
    #[inline(always)]
    fn with<N: Number>(mut self, x: N, y: N) -> Form {
        let (x, mut c) = (x.residue(), y.into());
        for k in 0..self.count.min(4) {
            c = N::mul(N::sub(c, self.coefficients[k]), N::inverse(N::sub(x, self.xs[k])));
        }
        self.xs[self.count & 3] = x;
        self.coefficients[self.count & 3] = c;
        self.count += 1;
        self
    }

    /// The value at x, by Horner's rule on the differences.
    #[inline(always)]
    fn value<N: Number>(&self, x: N) -> u32 {
        let mut v = 0u32;
        for k in (0..self.count.min(4)).rev() {
            v = N::mul_add(N::sub(x.residue(), self.xs[k]), v, self.coefficients[k]);
        }
        v
    }
}

impl<N: Number> Search<'_, N> {
    fn enough(&self, form: &Form) -> bool {
        let mut spare = self.xs.len() - self.need;
        for (&x, &y) in self.xs.iter().zip(self.ys).rev() {
            if form.value(x) != y.into() {
                if spare == 0 {
                    return false;
                }
                spare -= 1;
            }
        }
        true
    }

    fn from(&self, i: usize, more: usize, spare: usize, form: Form) -> Option<Form> {
        if more == 0 {
            return self.enough(&form).then_some(form);
        }
        let (&x, &y) = (self.xs.get(i)?, self.ys.get(i)?);
        if !y.is_sent() {
            return self.from(i + 1, more, spare, form);
        }
        let with_it = self.from(i + 1, more - 1, spare, form.with(x, y));
        if spare == 0 || with_it.is_some() {
            return with_it;
        }
        self.from(i + 1, more, spare - 1, form)
    }
}
