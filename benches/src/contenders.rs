//! Who answers each question: the proved library, plain Rust of the same algorithm, a specialist, the naive way, and
//! the other versions of plain Rust.

use crate::inputs::{Bytes, Dealing, Deals, Hearing, Points, Reports, Said, Saying, Shares, Tabled, Text};
use crate::measure::{Contender, Role, Row};
use crate::plain::field::Number;
use crate::plain::lamp::Ways;
use crate::plain::tables::{is_table, refusal};
use crate::plain::{deal, differences_once, differences_slopes, text};
use crate::plain::{fit_groups, fit_newton, fit_now, fit_old, happy_new, happy_now, happy_old, locator};
use crate::proved::{self, Library};
use crate::{bitset, gao, naive};

/// Role, name and function of a contender.
type Entry<I, O> = (Role, &'static str, fn(&I, &mut O));

type Deal<N> = fn(u8, u8, &[N], &mut [N]) -> u8;

type DealWith<N> = fn(u8, u8, &[N], &[N], &mut [N]) -> u8;

type Fit<N> = fn(usize, usize, &[N], &[N]) -> Option<[N; 4]>;

type Open<N> = fn(usize, &[N], &[N]) -> Option<[N; 4]>;

/// A row with the library's function, that of the older library, if it is there, and the others.
fn row<I, O>(
    (key, title): (&str, &str),
    inputs: Vec<I>,
    blank: O,
    now: fn(&I, &mut O),
    old: Option<fn(&I, &mut O)>,
    others: &[Entry<I, O>],
) -> Row<I, O> {
    let library = [(Role::Proved, "proved", now)].into_iter().chain(old.map(|old| (Role::Old, "old", old)));
    let all = library.chain(others.iter().copied());
    let contenders = all.map(|(role, name, call)| Contender { role, name, call }).collect();
    Row { key: key.to_string(), title: title.to_string(), inputs, blank, contenders }
}

fn dealt<N: Number>(input: &Dealing<N>, out: &mut Deals<N>, deal: Deal<N>) {
    out.answer = deal(input.n, input.t, &input.f, &mut out.deals[..input.room]);
}

pub fn dealing<N: Library>(key: &str, title: &str, inputs: Vec<Dealing<N>>) -> Row<Dealing<N>, Deals<N>> {
    row(
        (key, title),
        inputs,
        Deals { answer: 0, deals: [N::from(1); 128] },
        N::NOW.deal,
        N::OLD.map(|old| old.deal),
        &[
            (Role::Plain, "plain", |input, out| dealt(input, out, deal::deal)),
            (Role::Special, "by width", |input, out| dealt(input, out, deal::deal_by_width)),
        ],
    )
}

fn dealt_with<N: Number>(input: &Tabled<N, Dealing<N>>, out: &mut Deals<N>, deal: DealWith<N>) {
    let Dealing { n, t, f, room } = &input.question;
    out.answer = deal(*n, *t, &input.table, f, &mut out.deals[..*room]);
}

type Dealings<N> = Vec<Tabled<N, Dealing<N>>>;

pub fn dealing_with<N: Library>(key: &str, title: &str, inputs: Dealings<N>) -> Row<Tabled<N, Dealing<N>>, Deals<N>> {
    row(
        (key, title),
        inputs,
        Deals { answer: 0, deals: [N::from(1); 128] },
        N::NOW.deal_with,
        N::OLD.map(|old| old.deal_with),
        &[
            (Role::Plain, "plain", |input, out| dealt_with(input, out, deal::deal_with)),
            (Role::Special, "by width", |input, out| dealt_with(input, out, deal::deal_by_width_with)),
        ],
    )
}

/// A lamp's pair for another.
pub fn pairing<N: Library>(key: &str, title: &str, inputs: Vec<Saying>) -> Row<Saying, Said> {
    row(
        (key, title),
        inputs,
        Said { answer: 0, pair: [0; 4] },
        N::PAIRS.say,
        N::OLD_PAIRS.map(|old| old.say),
        &[(Role::Plain, "plain", |input, out| {
            out.answer = input.deal.lent().say::<N>(input.j, &mut out.pair[..input.room]);
        })],
    )
}

/// A lamp's report on the pairs that it hears.
pub fn reporting<N: Library>(key: &str, title: &str, inputs: Vec<Hearing>) -> Row<Hearing, u16> {
    row(
        (key, title),
        inputs,
        0,
        N::PAIRS.report,
        N::OLD_PAIRS.map(|old| old.report),
        &[(Role::Plain, "plain", |input, out| {
            *out = input.deal.lent().report::<N>(input.n, &input.firsts, &input.seconds);
        })],
    )
}

pub fn happy(key: &str, title: &str, inputs: Vec<Reports>) -> Row<Reports, u16> {
    row(
        (key, title),
        inputs,
        0,
        proved::NOW.happy_set,
        proved::OLD.map(|old| old.happy_set),
        &[
            (Role::Plain, "plain", |input, out| *out = happy_now::happy_set(&input.0)),
            (Role::Special, "bitset", |input, out| *out = bitset::happy_set(&input.0)),
            (Role::Naive, "all sets", |input, out| *out = naive::happy_set(&input.0)),
            (Role::Version, happy_old::NAME, |input, out| *out = happy_old::happy_set(&input.0)),
            (Role::Version, happy_new::NAME, |input, out| *out = happy_new::happy_set(&input.0)),
        ],
    )
}

/// Decoding by groups with the divided differences of four points taken in other ways.
fn fit_by_slopes<N: Number>(t: usize, need: usize, xs: &[N], ys: &[N]) -> Option<[N; 4]> {
    fit_groups::fit_by(differences_slopes::differences::<N>, t, need, xs, ys)
}

fn fit_by_one_inverse<N: Number>(t: usize, need: usize, xs: &[N], ys: &[N]) -> Option<[N; 4]> {
    fit_groups::fit_by(differences_once::differences::<N>, t, need, xs, ys)
}

fn open_by_slopes<N: Number>(t: usize, xs: &[N], ys: &[N]) -> Option<[N; 4]> {
    fit_groups::open_by(differences_slopes::differences::<N>, t, xs, ys)
}

fn open_by_one_inverse<N: Number>(t: usize, xs: &[N], ys: &[N]) -> Option<[N; 4]> {
    fit_groups::open_by(differences_once::differences::<N>, t, xs, ys)
}

/// A repair by a fit of all points but t: lengths are right; points that no table may hold are refused.
#[inline(always)]
fn repaired<N: Number>(input: &Points<N>, out: &mut (u8, [N; 4]), fit: Fit<N>) {
    let t = usize::from(input.t);
    if !is_table(&input.xs) {
        out.0 = 14;
        return;
    }
    match fit(t, input.xs.len() - t, &input.xs, &input.ys) {
        Some(f) => {
            out.0 = 0;
            out.1[..=t].copy_from_slice(&f[..=t]);
        }
        None => out.0 = 9,
    }
}

pub fn repairing<N: Library>(key: &str, title: &str, inputs: Vec<Points<N>>) -> Row<Points<N>, (u8, [N; 4])> {
    row(
        (key, title),
        inputs,
        (0, [N::from(0); 4]),
        N::NOW.repair,
        N::OLD.map(|old| old.repair),
        &[
            (Role::Plain, "plain", |input, out| repaired(input, out, fit_now::fit)),
            (Role::Special, "Gao", |input, out| repaired(input, out, gao::fit)),
            (Role::Naive, "all choices", |input, out| repaired(input, out, naive::fit)),
            (Role::Version, fit_old::NAME, |input, out| repaired(input, out, fit_old::fit)),
            (Role::Version, fit_newton::NAME, |input, out| repaired(input, out, fit_newton::fit)),
            (Role::Version, fit_groups::NAME, |input, out| repaired(input, out, fit_groups::fit)),
            (Role::Version, differences_slopes::NAME, |input, out| repaired(input, out, fit_by_slopes)),
            (Role::Version, differences_once::NAME, |input, out| repaired(input, out, fit_by_one_inverse)),
        ],
    )
}

/// An opening: sizes and lengths are right.
#[inline(always)]
fn opened<N: Number>(input: &Shares<N>, out: &mut (u8, N), open: Open<N>) {
    match open(usize::from(input.t), &N::ONE_TO[..usize::from(input.n)], &input.shares) {
        Some(f) => *out = (0, f[0]),
        None => out.0 = 10,
    }
}

pub fn opening<N: Library>(key: &str, title: &str, inputs: Vec<Shares<N>>) -> Row<Shares<N>, (u8, N)> {
    row(
        (key, title),
        inputs,
        (0, N::from(0)),
        N::TRIAL.open,
        N::OLD_TRIAL.map(|old| old.open),
        &[
            (Role::Plain, "plain", |input, out| opened(input, out, fit_now::open)),
            (Role::Special, "Gao", |input, out| opened(input, out, gao::open)),
            (Role::Naive, "all choices", |input, out| opened(input, out, naive::open)),
            (Role::Version, fit_old::NAME, |input, out| opened(input, out, fit_old::open)),
            (Role::Version, fit_newton::NAME, |input, out| opened(input, out, fit_newton::open)),
            (Role::Version, fit_groups::NAME, |input, out| opened(input, out, fit_groups::open)),
            (Role::Version, differences_slopes::NAME, |input, out| opened(input, out, open_by_slopes)),
            (Role::Version, differences_once::NAME, |input, out| opened(input, out, open_by_one_inverse)),
            (Role::Version, locator::NAME, |input, out| opened(input, out, locator::open)),
            (Role::Version, "proved, by locator", N::LOCATOR.open),
        ],
    )
}

/// The same by locator, beside the library's opening by trial.
pub fn locating<N: Library>(key: &str, title: &str, inputs: Vec<Shares<N>>) -> Row<Shares<N>, (u8, N)> {
    row(
        (key, title),
        inputs,
        (0, N::from(0)),
        N::LOCATOR.open,
        N::OLD_LOCATOR.map(|old| old.open),
        &[
            (Role::Plain, "plain", |input, out| opened(input, out, locator::open)),
            (Role::Special, "Gao", |input, out| opened(input, out, gao::open)),
            (Role::Trial, "proved, by trial", N::TRIAL.open),
            (Role::Version, fit_now::NAME, |input, out| opened(input, out, fit_now::open)),
        ],
    )
}

/// The same at the points of a table, which may be refused.
#[inline(always)]
fn opened_with<N: Number>(input: &Tabled<N, Shares<N>>, out: &mut (u8, N), open: Open<N>) {
    let Shares { n, t, shares } = &input.question;
    let bad = refusal(*n, &input.table);
    if bad != 0 {
        out.0 = bad;
        return;
    }
    match open(usize::from(*t), &input.table, shares) {
        Some(f) => *out = (0, f[0]),
        None => out.0 = 10,
    }
}

type Openings<N> = Vec<Tabled<N, Shares<N>>>;

pub fn opening_with<N: Library>(key: &str, title: &str, inputs: Openings<N>) -> Row<Tabled<N, Shares<N>>, (u8, N)> {
    row(
        (key, title),
        inputs,
        (0, N::from(0)),
        N::TRIAL.open_with,
        N::OLD_TRIAL.map(|old| old.open_with),
        &[
            (Role::Plain, "plain", |input, out| opened_with(input, out, fit_now::open)),
            (Role::Special, "Gao", |input, out| opened_with(input, out, gao::open)),
            (Role::Naive, "all choices", |input, out| opened_with(input, out, naive::open)),
            (Role::Version, fit_old::NAME, |input, out| opened_with(input, out, fit_old::open)),
            (Role::Version, fit_newton::NAME, |input, out| opened_with(input, out, fit_newton::open)),
            (Role::Version, fit_groups::NAME, |input, out| opened_with(input, out, fit_groups::open)),
            (Role::Version, differences_slopes::NAME, |input, out| opened_with(input, out, open_by_slopes)),
            (Role::Version, differences_once::NAME, |input, out| opened_with(input, out, open_by_one_inverse)),
            (Role::Version, locator::NAME, |input, out| opened_with(input, out, locator::open)),
            (Role::Version, "proved, by locator", N::LOCATOR.open_with),
        ],
    )
}

/// The same by locator, beside the library's opening by trial.
pub fn locating_with<N: Library>(key: &str, title: &str, inputs: Openings<N>) -> Row<Tabled<N, Shares<N>>, (u8, N)> {
    row(
        (key, title),
        inputs,
        (0, N::from(0)),
        N::LOCATOR.open_with,
        N::OLD_LOCATOR.map(|old| old.open_with),
        &[
            (Role::Plain, "plain", |input, out| opened_with(input, out, locator::open)),
            (Role::Special, "Gao", |input, out| opened_with(input, out, gao::open)),
            (Role::Trial, "proved, by trial", N::TRIAL.open_with),
            (Role::Version, fit_now::NAME, |input, out| opened_with(input, out, fit_now::open)),
        ],
    )
}

/// The library's algorithms, each lamp for itself.
struct Plain;

impl Ways for Plain {
    const ONCE: bool = false;
    fn happy_set(reports: &[u16]) -> u16 {
        happy_now::happy_set(reports)
    }
    fn fit<N: Number>(t: usize, need: usize, xs: &[N], ys: &[N]) -> Option<[N; 4]> {
        fit_now::fit(t, need, xs, ys)
    }
    fn open<N: Number>(t: usize, xs: &[N], ys: &[N]) -> Option<[N; 4]> {
        fit_now::open(t, xs, ys)
    }
}

/// The specialists, and one happy set for all lamps.
struct Special;

impl Ways for Special {
    const ONCE: bool = true;
    fn happy_set(reports: &[u16]) -> u16 {
        bitset::happy_set(reports)
    }
    fn fit<N: Number>(t: usize, need: usize, xs: &[N], ys: &[N]) -> Option<[N; 4]> {
        gao::fit(t, need, xs, ys)
    }
    fn open<N: Number>(t: usize, xs: &[N], ys: &[N]) -> Option<[N; 4]> {
        gao::open(t, xs, ys)
    }
}

/// The naive ways, each lamp for itself.
struct Naive;

impl Ways for Naive {
    const ONCE: bool = false;
    fn happy_set(reports: &[u16]) -> u16 {
        naive::happy_set(reports)
    }
    fn fit<N: Number>(t: usize, need: usize, xs: &[N], ys: &[N]) -> Option<[N; 4]> {
        naive::fit(t, need, xs, ys)
    }
    fn open<N: Number>(t: usize, xs: &[N], ys: &[N]) -> Option<[N; 4]> {
        naive::open(t, xs, ys)
    }
}

fn written<W: Ways>(bytes: &Bytes, out: &mut Text) {
    out.length = text::text::<W>(&bytes.0, &mut out.bytes);
}

pub fn writing(key: &str, title: &str, inputs: Vec<Bytes>) -> Row<Bytes, Text> {
    row(
        (key, title),
        inputs,
        Text { length: 0, bytes: [0; 512] },
        proved::NOW.text,
        proved::OLD.map(|old| old.text),
        &[
            (Role::Plain, "plain", written::<Plain>),
            (Role::Special, "bitset, Gao, one search", written::<Special>),
            (Role::Naive, "all sets, all choices", written::<Naive>),
        ],
    )
}
