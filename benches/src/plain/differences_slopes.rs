//! The divided differences of four points, slope by slope, each with an inverse of its own.

use super::field::Number;

pub const NAME: &str = "slope by slope";

/// The slope between residues. To the next point, one further on, nothing is divided.
#[inline(always)]
fn slope<N: Number>(x: u32, y: u32, z: u32, w: u32) -> u32 {
    let (rise, run) = (N::sub(w, y), N::sub(z, x));
    if run == 1 {
        rise
    } else {
        N::mul(rise, N::inverse_by_nearest(run))
    }
}

/// Newton's coefficients, for residues.
#[inline(always)]
pub fn differences<N: Number>([x0, x1, x2, x3]: [u32; 4], [a, y1, y2, y3]: [u32; 4]) -> [u32; 4] {
    let slope = slope::<N>;
    let b = slope(x0, a, x1, y1);
    let c = slope(x1, b, x2, slope(x0, a, x2, y2));
    let d = slope(x2, c, x3, slope(x1, b, x3, slope(x0, a, x3, y3)));
    [a, b, c, d]
}
