//! The divided differences of four points by one inverse, that of the product of all six runs: each is a quotient of
//! products. Where the points are near, slope by slope is quicker, since small runs have their inverses in a turn or two.

use super::differences_slopes;
use super::field::Number;

pub const NAME: &str = "one inverse, or slope by slope where they are near";

/// Runs below this from the first point to the last, forth or back, are near.
const NEAR: u32 = 128;

/// Newton's coefficients, for residues at distinct points.
#[inline(always)]
pub fn differences<N: Number>(xs: [u32; 4], ys: [u32; 4]) -> [u32; 4] {
    let far = N::sub(xs[3], xs[0]);
    if far < NEAR || N::P - far < NEAR {
        return differences_slopes::differences::<N>(xs, ys);
    }
    by_one_inverse::<N>(xs, ys)
}

#[inline(always)]
fn by_one_inverse<N: Number>([x0, x1, x2, x3]: [u32; 4], [a, y1, y2, y3]: [u32; 4]) -> [u32; 4] {
    let (sub, mul, determinant) = (N::sub, N::mul, determinant::<N>);
    let (e1, e2, e3) = (sub(y1, a), sub(y2, a), sub(y3, a));
    let (r1, r2, r3) = (sub(x1, x0), sub(x2, x0), sub(x3, x0));
    let second = mul(r2, sub(x2, x1));
    let third = mul(r3, sub(x3, x1));
    let low = mul(second, r1);
    let high = mul(third, sub(x3, x2));
    let c = determinant(e2, r1, e1, r2);
    let e = determinant(e3, r1, e1, r3);
    let d = determinant(e, second, c, third);
    let over_all = N::inverse_by_nearest(mul(low, high));
    let over_low = mul(over_all, high);
    [a, mul(mul(e1, second), over_low), mul(c, over_low), mul(d, over_all)]
}

/// a b - c d.
#[inline(always)]
fn determinant<N: Number>(a: u32, b: u32, c: u32, d: u32) -> u32 {
    N::sub(N::mul(a, b), N::mul(c, d))
}
