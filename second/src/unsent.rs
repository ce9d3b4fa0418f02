//! Openings with many parties dark: which of the counted kinds one is.

use crate::field::Width;
use crate::fit::{points_of, sent, Point};
use crate::poly::{interpolate, value};

/// The kinds, each of its own side of a border.
#[derive(Clone, Copy, PartialEq, Eq, PartialOrd, Ord, Debug)]
pub enum Unsent {
    /// Opened, more than t not sent, and all that were sent on one polynomial.
    Opened,
    /// Opened, more than t not sent, and a wrong number among those sent.
    ThroughLies,
    /// Refused with 10: only 2t sent, all of them on one polynomial.
    TooFew,
    /// Refused with 10: more than t not sent, and the 2t+1 or more that were
    /// sent not on one polynomial.
    Lies,
}

/// Whether all that were sent lie on one polynomial of degree at most t.
pub fn no_lie(width: Width, points: &[Point], t: usize) -> bool {
    let sent = points.iter().filter(|&&(_, y)| width.is_sent(y));
    let sent: Vec<(u64, u64)> = sent.map(|&(x, y)| (x, y.into())).collect();
    let poly = interpolate(width, &sent[..sent.len().min(t + 1)]);
    sent.iter().all(|&(x, y)| value(width, &poly, x) == y)
}

/// The kind of an opening, from what was published (with the own share in the
/// own place, if a party opens) and what came of it.
pub fn kind_of(
    width: Width,
    table: &[u32],
    t: usize,
    published: &[u32],
    opened: Result<u32, u8>,
) -> Option<Unsent> {
    let points = points_of(table, published);
    let sent = sent(width, &points);
    let many_unsent = points.len() - sent > t;
    let no_lie = no_lie(width, &points, t);
    match opened {
        Ok(_) if many_unsent && no_lie => Some(Unsent::Opened),
        Ok(_) if many_unsent => Some(Unsent::ThroughLies),
        Err(10) if sent == 2 * t && no_lie => Some(Unsent::TooFew),
        Err(10) if sent > 2 * t && many_unsent => Some(Unsent::Lies),
        _ => None,
    }
}
