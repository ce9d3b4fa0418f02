//! Tables: the lamps' points.

use super::field::Number;

/// Whether the points are what a table may hold, none 0, none above the residues, none twice. One that is below all behind
/// it is none of them, so a table that rises is seen in one pass; the others are looked for without a way out half way, so
/// that many comparisons go at a time.
pub fn is_table<N: Number>(xs: &[N]) -> bool {
    let mut low = N::lent(N::P);
    for (i, &x) in xs.iter().enumerate().rev() {
        if x < low {
            low = x;
        } else if !x.is_sent() || xs[i + 1..].iter().fold(false, |again, &y| again | (y == x)) {
            return false;
        }
    }
    N::from(0) < low
}

/// The refusal of a table lent for n lamps, or 0.
pub fn refusal<N: Number>(n: u8, table: &[N]) -> u8 {
    if table.len() != usize::from(n) {
        3
    } else if !is_table(table) {
        14
    } else {
        0
    }
}
