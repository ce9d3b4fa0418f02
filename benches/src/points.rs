//! Shares and points to be decoded: a random polynomial, some lies, some values not sent.

use crate::inputs::{Points, Shares, Tabled};
use crate::plain::field::{value, Number};
use crate::rng::Rng;

/// Where the lies stand.
#[derive(Clone, Copy)]
pub enum Lies {
    /// In these places, counted from 0.
    At(&'static [usize]),
    /// In so many random places.
    Any(usize),
}

fn places(rng: &mut Rng, lies: Lies, n: usize) -> Vec<usize> {
    match lies {
        Lies::At(places) => places.to_vec(),
        Lies::Any(count) => rng.order(n).into_iter().take(count).collect(),
    }
}

/// Values of a polynomial at the points, but for the lies.
fn values_of<N: Number>(rng: &mut Rng, f: &[N], xs: &[N], lies: Lies) -> Vec<N> {
    let mut ys: Vec<N> = xs.iter().map(|&x| N::lent(value(f, x.into()))).collect();
    for place in places(rng, lies, xs.len()) {
        ys[place] = rng.wrong(ys[place]);
    }
    ys
}

/// Those of a random polynomial.
pub fn values<N: Number>(rng: &mut Rng, t: usize, xs: &[N], lies: Lies) -> Vec<N> {
    let f: Vec<N> = rng.elements(t + 1);
    values_of(rng, &f, xs, lies)
}

/// The points of lamps 1 to n.
pub fn lamps<N: Number>(n: usize) -> Vec<N> {
    N::ONE_TO[..n].to_vec()
}

pub fn shares<N: Number>(rng: &mut Rng, n: u8, t: u8, lies: Lies) -> Shares<N> {
    let shares = values(rng, usize::from(t), &lamps(usize::from(n)), lies);
    Shares { n, t, shares }
}

/// Shares of which so many, in random places, were not sent, and so many of those sent are lies.
pub fn unsent_shares<N: Number>(rng: &mut Rng, n: u8, t: u8, unsent: usize, lies: usize) -> Shares<N> {
    let mut shares = shares(rng, n, t, Lies::At(&[]));
    darken(rng, &mut shares.shares, unsent, lies);
    shares
}

/// Takes away so many values, in random places, and makes lies of so many others.
fn darken<N: Number>(rng: &mut Rng, ys: &mut [N], unsent: usize, lies: usize) {
    let order = rng.order(ys.len());
    let (unsent, sent) = order.split_at(unsent);
    unsent.iter().for_each(|&place| ys[place] = N::NOT_SENT);
    for &place in &sent[..lies] {
        ys[place] = rng.wrong(ys[place]);
    }
}

/// Shares at the points of a random table.
pub fn tabled_shares<N: Number>(rng: &mut Rng, n: u8, t: u8, lies: Lies) -> Tabled<N, Shares<N>> {
    let table = rng.table(usize::from(n));
    let shares = values(rng, usize::from(t), &table, lies);
    Tabled { table, question: Shares { n, t, shares } }
}

/// The same, some of them not sent and some lies.
pub fn tabled_unsent_shares<N: Number>(
    rng: &mut Rng,
    n: u8,
    t: u8,
    unsent: usize,
    lies: usize,
) -> Tabled<N, Shares<N>> {
    let mut tabled = tabled_shares(rng, n, t, Lies::At(&[]));
    darken(rng, &mut tabled.question.shares, unsent, lies);
    tabled
}

/// The points of `count` lamps of 16, in order, and their values.
pub fn happy_points<N: Number>(rng: &mut Rng, count: usize, t: u8, lies: Lies) -> Points<N> {
    let mut xs: Vec<N> = rng.order(16).into_iter().take(count).map(|k| N::ONE_TO[k]).collect();
    xs.sort_unstable();
    let ys = values(rng, usize::from(t), &xs, lies);
    Points { t, xs, ys }
}

/// So many points of a random table, and their values.
pub fn tabled_points<N: Number>(rng: &mut Rng, count: usize, t: u8, lies: Lies) -> Points<N> {
    let xs = rng.table(count);
    let ys = values(rng, usize::from(t), &xs, lies);
    Points { t, xs, ys }
}

/// Any table of n lamps: near points, far ones or both, rising or in any order.
pub fn any_table<N: Number>(rng: &mut Rng, n: usize) -> Vec<N> {
    let near = [0, 50, 100][rng.below(3)];
    let far = |rng: &mut Rng| rng.edge::<N>().max(N::from(1));
    let mut table = rng.distinct(n, |rng| if rng.chance(near) { N::from(1 + rng.below(20) as u16) } else { far(rng) });
    if rng.chance(30) {
        table.sort_unstable();
    }
    table
}

/// No residue: the number that is a prime above x, where it is lent as such, else any.
pub fn raised<N: Number>(rng: &mut Rng, x: N) -> N {
    let y = u64::from(x.into()) + u64::from(N::P);
    if y <= u64::from(N::NOT_SENT.into()) && rng.chance(50) {
        N::lent(y as u32)
    } else {
        rng.above()
    }
}

/// Makes one entry of a table 0, no residue, or that of another lamp.
pub fn spoil<N: Number>(rng: &mut Rng, table: &mut [N]) {
    let place = rng.below(table.len());
    table[place] = match rng.below(3) {
        0 => N::from(0),
        1 => raised(rng, table[place]),
        _ => table[(place + 1 + rng.below(table.len() - 1)) % table.len()],
    };
}

/// Mostly as it was; else with a bad entry, one entry short, one too many, or both.
pub fn sometimes_spoilt<N: Number>(rng: &mut Rng, mut table: Vec<N>) -> Vec<N> {
    let kind = rng.below(12);
    if kind < 3 {
        spoil(rng, &mut table);
    }
    match kind {
        2 | 3 => drop(table.pop()),
        4 => table.push(rng.edge()),
        _ => {}
    }
    table
}

/// Any distinct points, and values with more or fewer lies than may be, some not sent, sometimes many.
pub fn any_points<N: Number>(rng: &mut Rng) -> Points<N> {
    let t = 1 + rng.below(3);
    let count = 3 * t + 1 + rng.below(16 - 3 * t);
    let xs = any_table(rng, count);
    let ys = if rng.chance(25) { left_unsent(rng, t, &xs) } else { disturbed(rng, t, &xs) };
    Points { t: t as u8, xs, ys }
}

/// The same, with a point that is 0, no residue, or there twice.
pub fn bad_points<N: Number>(rng: &mut Rng) -> Points<N> {
    let mut points = any_points(rng);
    spoil(rng, &mut points.xs);
    points
}

/// Makes values at the points for a degree.
type Values<N> = fn(&mut Rng, usize, &[N]) -> Vec<N>;

/// Any published shares of any size, likewise.
pub fn any_shares<N: Number>(rng: &mut Rng) -> Shares<N> {
    shares_by(rng, disturbed)
}

/// The same with many not sent.
pub fn any_unsent_shares<N: Number>(rng: &mut Rng) -> Shares<N> {
    shares_by(rng, left_unsent)
}

/// Any shares at the points of any table, the table sometimes bad.
pub fn any_tabled_shares<N: Number>(rng: &mut Rng) -> Tabled<N, Shares<N>> {
    tabled_by(rng, disturbed)
}

/// The same with many not sent.
pub fn any_unsent_tabled_shares<N: Number>(rng: &mut Rng) -> Tabled<N, Shares<N>> {
    tabled_by(rng, left_unsent)
}

/// Shares of which any number was not sent, with up to t + 2 lies.
pub fn any_list<N: Number>(rng: &mut Rng) -> Shares<N> {
    shares_by(rng, any_left)
}

/// The same at the points of any table that is one.
pub fn any_tabled_list<N: Number>(rng: &mut Rng) -> Tabled<N, Shares<N>> {
    let (n, t) = any_size(rng);
    let table = any_table(rng, n);
    let shares = any_left(rng, t, &table);
    Tabled { table, question: Shares { n: n as u8, t: t as u8, shares } }
}

fn shares_by<N: Number>(rng: &mut Rng, values: Values<N>) -> Shares<N> {
    let (n, t) = any_size(rng);
    let shares = values(rng, t, &lamps(n));
    Shares { n: n as u8, t: t as u8, shares }
}

fn tabled_by<N: Number>(rng: &mut Rng, values: Values<N>) -> Tabled<N, Shares<N>> {
    let (n, t) = any_size(rng);
    let table = any_table(rng, n);
    let shares = values(rng, t, &table);
    Tabled { table: sometimes_spoilt(rng, table), question: Shares { n: n as u8, t: t as u8, shares } }
}

/// Any n and t within the sizes.
pub fn any_size(rng: &mut Rng) -> (usize, usize) {
    let t = 1 + rng.below(3);
    (4 * t + 1 + rng.below(16 - 4 * t), t)
}

/// Values of any polynomial, sometimes a constant one: some lie, some lie by little, some were not sent.
fn disturbed<N: Number>(rng: &mut Rng, t: usize, xs: &[N]) -> Vec<N> {
    let mut f: Vec<N> = (0..=t).map(|_| rng.edge()).collect();
    if rng.chance(20) {
        f[1..].fill(N::from(0));
    }
    let lies = rng.below(t + 3);
    let mut ys = values_of(rng, &f, xs, Lies::Any(lies));
    for _ in 0..rng.below(t + 2) {
        let place = rng.below(ys.len());
        ys[place] = if rng.chance(70) { raised(rng, ys[place]) } else { rng.edge() };
    }
    ys
}

/// Values of any polynomial, many of them not sent.
fn left_unsent<N: Number>(rng: &mut Rng, t: usize, xs: &[N]) -> Vec<N> {
    let f: Vec<N> = (0..=t).map(|_| rng.edge()).collect();
    let mut ys = values_of(rng, &f, xs, Lies::At(&[]));
    leave_unsent(rng, t, xs, &mut ys);
    ys
}

/// Values of any polynomial, any number of them not sent, though few more often than many. Now and then its degree is
/// above t: only then does a locator's other solution often hold at a further point.
fn any_left<N: Number>(rng: &mut Rng, t: usize, xs: &[N]) -> Vec<N> {
    let degree = if rng.chance(20) { t + 1 + rng.below(3) } else { t };
    let f: Vec<N> = (0..=degree).map(|_| rng.edge()).collect();
    let mut ys = values_of(rng, &f, xs, Lies::At(&[]));
    let count = rng.below(xs.len() + 1).max(rng.below(xs.len() + 1));
    leave(rng, t, xs, &mut ys, count);
    ys
}

/// Takes away many of the values. Mostly about 2t + 1 are left, the fewest that an opening needs, or about 3t + 1, the
/// fewest among which t may lie.
pub fn leave_unsent<N: Number>(rng: &mut Rng, t: usize, xs: &[N], ys: &mut [N]) {
    let count = match rng.below(4) {
        0 => rng.below(xs.len() + 1),
        1 => 3 * t + rng.below(3),
        _ => 2 * t + rng.below(3),
    };
    leave(rng, t, xs, ys, count);
}

/// Leaves at most `count` of the values, in random places, and makes lies of none, or of about t, at most t + 2. Half
/// of the time the liars agree with each other, on a polynomial that t of the others agree with too.
fn leave<N: Number>(rng: &mut Rng, t: usize, xs: &[N], ys: &mut [N], count: usize) {
    let order = rng.order(xs.len());
    let (sent, unsent) = order.split_at(count.min(xs.len()));
    unsent.iter().for_each(|&place| ys[place] = raised(rng, ys[place]));
    let lies = [0, t, t + 1, rng.below(t + 3)][rng.below(4)].min(sent.len());
    let (liars, others) = sent.split_at(lies);
    let kept: Vec<N> = others.iter().take(t).map(|&place| xs[place]).collect();
    let (change, as_one) = (zero_at(rng, &kept), rng.chance(50));
    for &place in liars {
        let away = value(&change, xs[place].into());
        ys[place] = if as_one { N::lent(N::mul_add(1, away, ys[place].into())) } else { rng.wrong(ys[place]) };
    }
}

/// A polynomial that is 0 at these points.
pub fn zero_at<N: Number>(rng: &mut Rng, points: &[N]) -> Vec<N> {
    let mut product: Vec<N> = vec![rng.element()];
    for &x in points {
        let minus = N::P - x.into();
        let mut raised = vec![N::from(0); product.len() + 1];
        for (k, &c) in product.iter().enumerate() {
            raised[k] = N::lent(N::mul_add(minus, c.into(), raised[k].into()));
            raised[k + 1] = c;
        }
        product = raised;
    }
    product
}
