//! Polynomials in one variable, as lists of coefficients, constant first.

use crate::field::Width;

/// The value of the polynomial at x (Horner's rule).
pub fn value(width: Width, poly: &[u64], x: u64) -> u64 {
    poly.iter()
        .rev()
        .fold(0, |sum, &c| width.add(width.mul(sum, x), c))
}

/// A list of numbers as a polynomial. Every number must be below the prime.
pub fn from_numbers(width: Width, numbers: &[u32]) -> Vec<u64> {
    numbers
        .iter()
        .map(|&c| {
            assert!(width.is_sent(c), "a coefficient is no field element");
            u64::from(c)
        })
        .collect()
}

/// Multiplies the polynomial by (X - root), in place.
pub fn times_root(width: Width, poly: &mut Vec<u64>, root: u64) {
    poly.push(0);
    for k in (0..poly.len()).rev() {
        let from_below = if k == 0 { 0 } else { poly[k - 1] };
        poly[k] = width.sub(from_below, width.mul(root, poly[k]));
    }
}

/// Lagrange interpolation: the polynomial of degree below the number of
/// points that passes through all of them. The x must be different.
pub fn interpolate(width: Width, points: &[(u64, u64)]) -> Vec<u64> {
    let mut sum = vec![0; points.len()];
    for (a, &(xa, ya)) in points.iter().enumerate() {
        // The basis polynomial is 0 at the other points; dividing by its
        // value at xa makes it 1 there.
        let mut basis = Vec::with_capacity(points.len());
        basis.push(1);
        let mut at_xa = 1;
        for (b, &(xb, _)) in points.iter().enumerate() {
            if a != b {
                times_root(width, &mut basis, xb);
                at_xa = width.mul(at_xa, width.sub(xa, xb));
            }
        }
        let factor = width.mul(ya, width.inverse(at_xa));
        for (total, &c) in sum.iter_mut().zip(&basis) {
            *total = width.add(*total, width.mul(factor, c));
        }
    }
    sum
}
