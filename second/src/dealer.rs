//! The dealing desk.

use crate::field::Width;
use crate::stations::{check_table, one_to, point};

/// Is (n, t) one of the sizes?
pub fn legal_size(n: usize, t: usize) -> bool {
    (1..=3).contains(&t) && (4 * t + 1..=16).contains(&n)
}

/// The coefficients of the row F(X,y) of the party whose point is y: that of
/// X^u is the sum over v of the coefficient of X^u Y^v times y^v.
fn row(width: Width, coefs: &[u32], t: usize, y: u64) -> Vec<u32> {
    let coef = |u: usize, v: usize| u64::from(coefs[u * (t + 1) + v]);
    let term = |u: usize, v: usize| width.mul(coef(u, v), width.pow(y, v as u64));
    (0..=t)
        .map(|u| (0..=t).fold(0, |sum, v| width.add(sum, term(u, v))) as u32)
        .collect()
}

/// The coefficients of its column F(x,Y), the other way round.
fn column(width: Width, coefs: &[u32], t: usize, x: u64) -> Vec<u32> {
    let coef = |u: usize, v: usize| u64::from(coefs[u * (t + 1) + v]);
    let term = |u: usize, v: usize| width.mul(coef(u, v), width.pow(x, u as u64));
    (0..=t)
        .map(|v| (0..=t).fold(0, |sum, u| width.add(sum, term(u, v))) as u32)
        .collect()
}

/// The desk without a table: the points are 1 to n. A size that is none may be
/// too large for a table of its own.
pub fn deal(width: Width, n: usize, t: usize, coefs: &[u32], deals: &mut [u32]) -> Result<(), u8> {
    if !legal_size(n, t) {
        return Err(1);
    }
    deal_with(width, n, t, &one_to(n), coefs, deals)
}

/// Writes every party's deal, row then column, into its stretch of the list.
/// Refusals, in this order: 1 for the size, 3 for any of the three lengths, 14
/// for the table's entries, 5 for a number too large in the dealer's list.
pub fn deal_with(
    width: Width,
    n: usize,
    t: usize,
    table: &[u32],
    coefs: &[u32],
    deals: &mut [u32],
) -> Result<(), u8> {
    if !legal_size(n, t) {
        return Err(1);
    }
    let lengths = [coefs.len(), deals.len(), table.len()];
    if lengths != [(t + 1) * (t + 1), 2 * n * (t + 1), n] {
        return Err(3);
    }
    check_table(width, table)?;
    if !coefs.iter().all(|&c| width.is_sent(c)) {
        return Err(5);
    }
    for i in 1..=n {
        let stretch = &mut deals[(i - 1) * 2 * (t + 1)..i * 2 * (t + 1)];
        stretch[..=t].copy_from_slice(&row(width, coefs, t, point(table, i)));
        stretch[t + 1..].copy_from_slice(&column(width, coefs, t, point(table, i)));
    }
    Ok(())
}
