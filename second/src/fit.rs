//! The fit: a polynomial of degree at most t that agrees with enough of the
//! given points. Found by trying every choice of t+1 sent points. What is enough
//! is one thing for a column that is repaired and another for an opening.

use crate::field::Width;
use crate::poly::{interpolate, value};
use crate::stations::one_to;

/// A point: x, and the number sent for it (perhaps "not sent").
pub type Point = (u64, u32);

/// What a polynomial must do to fit.
#[derive(Clone, Copy, PartialEq, Eq, Debug)]
pub enum Rule {
    /// A column's repair: at most t points differ, those not sent among them.
    Column,
    /// An opening: at least 2t+1 points agree, and at most t of those sent
    /// differ. Those not sent (lamps dark) are on neither side.
    Opening,
}

/// How many points were sent.
pub fn sent(width: Width, points: &[Point]) -> usize {
    points.iter().filter(|&&(_, y)| width.is_sent(y)).count()
}

/// How many points differ from the polynomial. What was not sent always does.
pub fn differing(width: Width, points: &[Point], poly: &[u64]) -> usize {
    points
        .iter()
        .filter(|&&(x, y)| !width.is_sent(y) || value(width, poly, x) != u64::from(y))
        .count()
}

impl Rule {
    /// Whether the polynomial fits the points.
    pub fn fits(self, width: Width, points: &[Point], t: usize, poly: &[u64]) -> bool {
        let differ = differing(width, points, poly);
        let agree = points.len() - differ;
        match self {
            Rule::Column => differ <= t,
            Rule::Opening => agree > 2 * t && sent(width, points) - agree <= t,
        }
    }
}

/// The points of the list that were sent, as field elements.
fn sent_points(width: Width, points: &[Point]) -> Vec<(u64, u64)> {
    points
        .iter()
        .filter(|&&(_, y)| width.is_sent(y))
        .map(|&(x, y)| (x, u64::from(y)))
        .collect()
}

/// The members of a list that a mask picks out.
fn picked(list: &[(u64, u64)], mask: u32) -> Vec<(u64, u64)> {
    (0..list.len())
        .filter(|&k| mask >> k & 1 == 1)
        .map(|k| list[k])
        .collect()
}

/// The polynomial that fits, if there is one.
///
/// By either rule a polynomial that fits passes through at least 2t+1 sent
/// points, for a list has 3t+1 or more; so the interpolations of all choices of
/// t+1 sent points include it. Two that fit are the same: one agrees with all
/// but t of the sent points and the other with 2t+1 of them, so they share t+1.
/// This is checked, not assumed, which is why the search does not stop at the
/// first.
pub fn fit(width: Width, rule: Rule, points: &[Point], t: usize) -> Option<Vec<u64>> {
    assert!(points.len() > 3 * t, "too few points for one answer");
    let sent = sent_points(width, points);
    let mut found: Option<Vec<u64>> = None;
    for mask in 0u32..1 << sent.len() {
        if mask.count_ones() as usize != t + 1 {
            continue;
        }
        let poly = interpolate(width, &picked(&sent, mask));
        if rule.fits(width, points, t, &poly) {
            if let Some(earlier) = &found {
                assert_eq!(earlier, &poly, "two polynomials fit");
            }
            found = Some(poly);
        }
    }
    found
}

/// Published numbers at the points of a table.
pub fn points_of(table: &[u32], published: &[u32]) -> Vec<Point> {
    assert_eq!(table.len(), published.len(), "a number for each point");
    let xs = table.iter().map(|&x| u64::from(x));
    xs.zip(published.iter().copied()).collect()
}

/// The opening of n published numbers at the points 1 to n.
pub fn open_all(width: Width, published: &[u32], t: usize) -> Result<u32, u8> {
    open_with(width, &one_to(published.len()), published, t)
}

/// The opening of published numbers at the points of a table: the constant of
/// what fits, or 10.
pub fn open_with(width: Width, table: &[u32], published: &[u32], t: usize) -> Result<u32, u8> {
    let points = points_of(table, published);
    match fit(width, Rule::Opening, &points, t) {
        Some(poly) => Ok(poly[0] as u32),
        None => Err(10),
    }
}
