//! Self tests of the opening on random lists, most of them with many parties
//! dark: what must hold by its rule, and the rule told once more.

use crate::check::{count, expect, points, Outcome, Tally};
use crate::field::Width;
use crate::fit::{fit, open_with, points_of, Point, Rule};
use crate::poly::{interpolate, value};
use crate::published::leave_unsent;
use crate::rng::Rng;
use crate::scenario::legal_size;
use crate::unsent;

/// A true list, and the number that it opens to.
struct Shares {
    width: Width,
    t: usize,
    table: Vec<u32>,
    list: Vec<u32>,
    secret: u32,
}

fn shares(rng: &mut Rng) -> Shares {
    let (n, t) = legal_size(rng);
    let width = rng.width();
    let table = points(rng, width, n);
    let poly: Vec<u64> = (0..=t).map(|_| rng.element(width).into()).collect();
    let at = |&x: &u32| value(width, &poly, x.into()) as u32;
    Shares {
        list: table.iter().map(at).collect(),
        secret: poly[0] as u32,
        width,
        t,
        table,
    }
}

/// All of them.
pub fn openings(rng: &mut Rng, tally: &mut Tally) -> Outcome {
    few_wrong_any_unsent(rng, tally)?;
    any_opening(rng, tally)
}

/// At most t wrong numbers and any number dark: the true number if 2t+1 true
/// ones are there, else 10, and never another.
fn few_wrong_any_unsent(rng: &mut Rng, tally: &mut Tally) -> Outcome {
    let truth = shares(rng);
    let Shares { width, t, .. } = truth;
    let n = truth.list.len();
    let mut list = truth.list.clone();
    let order = rng.some_of(n, n);
    let wrong = rng.below(t + 1);
    let unsent = rng.below(n - wrong + 1);
    for &i in &order[..wrong] {
        list[i - 1] = width.add(list[i - 1].into(), rng.unit(width).into()) as u32;
    }
    for &i in &order[wrong..wrong + unsent] {
        list[i - 1] = rng.not_sent(width);
    }
    let enough = n - wrong - unsent > 2 * t;
    let wanted = if enough { Ok(truth.secret) } else { Err(10) };
    count(tally, &format!("few wrong, any dark, opens {enough}"));
    let opened = open_with(width, &truth.table, &list, t);
    expect(opened == wanted, "few wrong and some dark open otherwise")
}

/// The opening told once more: so many of the sent points lie on a polynomial of
/// degree at most t that it is 2t+1 or more, and all but t or more. Every choice
/// of just so many is tried.
pub fn open_again(width: Width, points: &[Point], t: usize) -> Result<u32, u8> {
    let sent: Vec<(u64, u64)> = points
        .iter()
        .filter(|&&(_, y)| width.is_sent(y))
        .map(|&(x, y)| (x, y.into()))
        .collect();
    let needed = (2 * t + 1).max(sent.len().saturating_sub(t));
    for mask in 0u32..1 << sent.len() {
        if mask.count_ones() as usize != needed {
            continue;
        }
        let chosen: Vec<(u64, u64)> = (0..sent.len())
            .filter(|&k| mask >> k & 1 == 1)
            .map(|k| sent[k])
            .collect();
        let poly = interpolate(width, &chosen);
        if poly[t + 1..].iter().all(|&c| c == 0) {
            return Ok(poly[0] as u32);
        }
    }
    Err(10)
}

/// Any list: the rule told once more gives the same, and what opened by the
/// rule of a column opens to the same number.
fn any_opening(rng: &mut Rng, tally: &mut Tally) -> Outcome {
    let Shares {
        width,
        t,
        table,
        mut list,
        ..
    } = shares(rng);
    leave_unsent(rng, width, &table, t, None, &mut list);
    let opened = open_with(width, &table, &list, t);
    let points = points_of(&table, &list);
    expect(
        opened == open_again(width, &points, t),
        "the rule told once more opens otherwise",
    )?;
    if let Some(poly) = fit(width, Rule::Column, &points, t) {
        expect(
            opened.map(u64::from) == Ok(poly[0]),
            "what fits all but t opens otherwise",
        )?;
    }
    match unsent::kind_of(width, &table, t, &list, opened) {
        Some(kind) => count(tally, &format!("opening {kind:?}")),
        None => count(tally, "opening of no dark kind"),
    }
    Ok(())
}
