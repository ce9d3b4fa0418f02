//! The rows: which question, which inputs, who answers.

use crate::contenders::{dealing, dealing_with, happy, locating, locating_with};
use crate::contenders::{opening, opening_with, pairing, repairing, reporting, writing};
use crate::graphs::{self, Graph};
use crate::hunt::{calls, neighbours};
use crate::inputs::{Bytes, Dealing, Shares, Tabled, Text};
use crate::measure::{Bench, Row};
use crate::pairs::{hearing, saying};
use crate::plain::field::Number;
use crate::plain::happy_now;
use crate::points::{happy_points, shares, tabled_points, tabled_shares, Lies};
use crate::points::{tabled_unsent_shares, unsent_shares};
use crate::proved::Library;
use crate::records::{honest, shifted, widened, EXAMPLE, LIARS};
use crate::rng::Rng;

const SEED: u64 = 1971;

/// All rows, each with so many inputs.
pub fn all(count: usize) -> Vec<Box<dyn Bench>> {
    narrow(count).into_iter().chain(wide(count)).collect()
}

/// Those of numbers of 16 bits, and of no numbers.
pub fn narrow(count: usize) -> Vec<Box<dyn Bench>> {
    let mut rows = deal_rows::<u16>(count);
    rows.extend(pair_rows::<u16>(count));
    rows.extend(happy_rows(count));
    rows.extend(decoding_rows::<u16>(count));
    rows.extend(text_rows(count));
    rows
}

/// Those of numbers of 32 bits.
pub fn wide(count: usize) -> Vec<Box<dyn Bench>> {
    let mut rows = deal_rows::<u32>(count);
    rows.extend(pair_rows::<u32>(count));
    rows.extend(decoding_rows::<u32>(count));
    rows.extend(wide_text_rows(count));
    rows
}

/// The key of a row's wide companion.
pub fn wide_key(key: &str) -> String {
    format!("wide-{key}")
}

/// The key and the title of a row of such numbers.
fn named<N: Number>(key: &str, title: &str) -> (String, String) {
    if N::MARK == u16::MARK {
        (key.to_string(), title.to_string())
    } else {
        (wide_key(key), format!("wide {title}"))
    }
}

/// Inputs made one after the other with one source of random numbers.
fn made<I>(count: usize, mut make: impl FnMut(&mut Rng) -> I) -> Vec<I> {
    let mut rng = Rng::new(SEED);
    (0..count).map(|_| make(&mut rng)).collect()
}

fn deal_rows<N: Library>(count: usize) -> Vec<Box<dyn Bench>> {
    let question = |rng: &mut Rng| Dealing { n: 16, t: 3, f: rng.elements::<N>(16), room: 128 };
    let tabled = |rng: &mut Rng| Tabled { table: rng.table::<N>(16), question: question(rng) };
    let (key, title) = named::<N>("deal", "dealing, n = 16, t = 3");
    let (table_key, table_title) = named::<N>("deal-table", "dealing, n = 16, t = 3, points in a table");
    vec![
        Box::new(dealing(&key, &title, made(count, question))),
        Box::new(dealing_with(&table_key, &table_title, made(count, tabled))),
    ]
}

/// The sizes at which pairs are said and heard, and what is added to the key.
const PAIRED: [(&str, u8, u8); 2] = [("", 16, 3), ("5", 5, 1)];

/// A lamp's pair, and its report on n of them, all honest.
fn pair_rows<N: Library>(count: usize) -> Vec<Box<dyn Bench>> {
    let mut rows: Vec<Box<dyn Bench>> = Vec::new();
    for (word, n, t) in PAIRED {
        let (key, title) = named::<N>(&format!("pair{word}"), &format!("pair, n = {n}, t = {t}"));
        rows.push(Box::new(pairing::<N>(&key, &title, made(count, |rng| saying::<N>(rng, n, t)))));
        let (key, title) = named::<N>(&format!("hear{word}"), &format!("hearing all pairs, n = {n}, t = {t}"));
        rows.push(Box::new(reporting::<N>(&key, &title, made(count, |rng| hearing::<N>(rng, n, t)))));
    }
    rows
}

/// Whether a row of this key is one of pairs.
pub fn has_pairs(key: &str) -> bool {
    let key = key.strip_prefix("wide-").unwrap_or(key);
    PAIRED.iter().any(|(word, ..)| key.strip_suffix(word).is_some_and(|start| ["pair", "hear"].contains(&start)))
}

/// A row for one graph: what is ignored in reports varies.
fn fixed(key: &str, title: &str, count: usize, graph: Graph) -> Box<dyn Bench> {
    let inputs = made(count, |rng| graphs::reports(rng, &graph));
    Box::new(happy(key, &format!("happy set, {title}"), inputs))
}

/// A row for a graph with its lamps in any order.
fn any_order(key: &str, title: &str, count: usize, graph: Graph) -> Box<dyn Bench> {
    let inputs = made(count, |rng| {
        let other = graphs::relabelled(rng, &graph);
        graphs::reports(rng, &other)
    });
    Box::new(happy(key, &format!("happy set, {title}"), inputs))
}

fn random_row(percent: usize, count: usize) -> Box<dyn Bench> {
    let inputs = made(count, |rng| {
        let graph = graphs::random(rng, percent);
        graphs::reports(rng, &graph)
    });
    Box::new(happy(&format!("random{percent}"), &format!("happy set, {percent} % of all agree, random"), inputs))
}

fn worst_row(count: usize) -> Box<dyn Bench> {
    assert_eq!(
        calls(happy_now::counted, &happy_now::WORST),
        happy_now::MOST,
        "the worst graph is one of another search"
    );
    let graphs = neighbours(happy_now::counted, SEED, &happy_now::WORST, count);
    let mut rng = Rng::new(SEED);
    let inputs = graphs.iter().map(|graph| graphs::reports(&mut rng, graph)).collect();
    Box::new(happy("worst", "happy set, worst graphs found", inputs))
}

fn happy_rows(count: usize) -> Vec<Box<dyn Bench>> {
    let mut rows = vec![
        fixed("complete", "all agree", count, graphs::complete()),
        any_order("honest13", "13 agree, 3 with nobody", count, graphs::thirteen()),
        fixed("pairs-row", "8 disagreeing pairs in a row", count, graphs::pairs_in_a_row()),
        fixed("pairs-far", "8 disagreeing pairs, i and i + 8", count, graphs::pairs_far_apart()),
        any_order("pairs-any", "8 disagreeing pairs, any order", count, graphs::pairs_in_a_row()),
        fixed("triples-row", "5 disagreeing triples in a row", count, graphs::triples_in_a_row()),
        any_order("triples-any", "5 disagreeing triples, any order", count, graphs::triples_in_a_row()),
    ];
    rows.extend([50, 70, 80, 90, 95].map(|percent| random_row(percent, count)));
    rows.push(worst_row(count));
    rows
}

/// The sizes at which an opening is timed: n, t, lies in the first places, and one lie in each group of t + 1. The
/// former is the worst for trying all choices in order, the latter for decoding by groups.
type Size = (u8, u8, &'static [usize], &'static [usize]);
const SIZES: [Size; 4] =
    [(5, 1, &[0], &[0]), (9, 2, &[0, 1], &[0, 3]), (13, 3, &[0, 1, 2], &[0, 4, 8]), (16, 3, &[0, 1, 2], &[0, 4, 8])];

/// One lie in each of the first three pairs: the worst for decoding by pairs, where the last choice is the first right one.
const PAIRS: &[usize] = &[0, 2, 4];

/// Openings with other lamps dark in each input: the word in the key, n and t, how many are dark, how many of those sent
/// lie, and that in words. Nine dark of sixteen are the most with which a cubic opens.
type Unsent = (&'static str, (u8, u8), usize, usize, &'static str);
const UNSENT: [Unsent; 5] = [("dark2", (5, 1), 2, 0, "2 dark"), ("dark3", (16, 3), 3, 0, "3 dark"), NINE, FEWEST, TEN];

/// As many dark as can be, and one more.
const NINE: Unsent = ("dark9", (16, 3), 9, 0, "9 dark");
const TEN: Unsent = ("dark10", (16, 3), 10, 0, "10 dark, refused");

/// As few shares for three lies as can be.
const FEWEST: Unsent = ("dark6-lies", (16, 3), 6, 3, "6 dark, lies at 3 of those sent");

/// What is opened by locator too, with the inputs of the openings by trial: the word in the key, n and t, the lies.
const LOCATED: [(&str, (u8, u8), Lies); 10] = [
    ("first", (5, 1), Lies::At(&[0])),
    ("first", (9, 2), Lies::At(&[0, 1])),
    ("none", (16, 3), Lies::At(&[])),
    ("first", (16, 3), Lies::At(&[0, 1, 2])),
    ("apart", (16, 3), Lies::At(&[0, 4, 8])),
    ("second", (16, 3), Lies::At(&[4, 5, 6])),
    ("pairs", (13, 3), Lies::At(PAIRS)),
    ("random", (13, 3), Lies::Any(3)),
    ("random", (16, 3), Lies::Any(3)),
    ("refused", (16, 3), Lies::At(&[0, 4, 8, 12])),
];

/// And with lamps dark.
const LOCATED_UNSENT: [Unsent; 4] =
    [("dark2-lies", (9, 2), 2, 2, "2 dark, lies at 2 of those sent"), NINE, FEWEST, TEN];

/// Whether a row of this key has dark lamps.
pub fn has_unsent(key: &str) -> bool {
    key.contains("-dark")
}

/// Lies at `places`, in words that count from 1.
fn lies_at(places: &[usize]) -> String {
    let named: Vec<String> = places.iter().map(|place| (place + 1).to_string()).collect();
    if named.is_empty() {
        return "no lies".to_string();
    }
    format!("lies at {}", named.join(", "))
}

/// The lies among the shares of a polynomial of degree t, in words.
fn lies_named(t: u8, lies: Lies) -> String {
    match lies {
        Lies::At(places) if usize::from(t) < places.len() => format!("{} lies, refused", places.len()),
        Lies::At(places) => lies_at(places),
        Lies::Any(count) => format!("{count} lies anywhere"),
    }
}

/// Where the lies of a repair stand: how many points there are, and the places.
const REPAIRS: [(&str, usize, &[usize]); 5] = [
    ("first", 10, &[0, 1, 2]),
    ("groups", 10, &[0, 4, 5]),
    ("pairs", 10, PAIRS),
    ("first", 16, &[0, 1, 2]),
    ("groups", 16, &[0, 4, 8]),
];

fn decoding_rows<N: Library>(count: usize) -> Vec<Box<dyn Bench>> {
    let mut rows = repair_rows::<N>(count);
    rows.extend(open_rows::<N>(count));
    rows.extend(tabled_rows::<N>(count));
    rows.extend(locate_rows::<N>(count));
    rows.extend(tabled_locate_rows::<N>(count));
    rows
}

fn repair_rows<N: Library>(count: usize) -> Vec<Box<dyn Bench>> {
    let row = |(key, points, places): (&str, usize, &'static [usize])| -> Box<dyn Bench> {
        let inputs = made(count, |rng| happy_points::<N>(rng, points, 3, Lies::At(places)));
        let title = format!("repair, {points} points, t = 3, {}", lies_at(places));
        let (key, title) = named::<N>(&format!("repair{points}-{key}"), &title);
        Box::new(repairing(&key, &title, inputs))
    };
    REPAIRS.map(row).into()
}

/// A row of openings, with a word for them in the key and some in the title.
fn open_row<N: Library>(key: &str, (n, t): (u8, u8), title: &str, inputs: Vec<Shares<N>>) -> Box<dyn Bench> {
    let (key, title) = named::<N>(&format!("open{n}-{key}"), &format!("opening, n = {n}, t = {t}, {title}"));
    Box::new(opening(&key, &title, inputs))
}

/// The lies at each size, with a word for them.
fn openings() -> Vec<(&'static str, (u8, u8), &'static [usize])> {
    let mut all: Vec<(&str, (u8, u8), &[usize])> = Vec::new();
    for (n, t, first, groups) in SIZES {
        all.push(("none", (n, t), &[]));
        all.push(("first", (n, t), first));
        if groups != first {
            all.push(("groups", (n, t), groups));
        }
    }
    all.push(("pairs", (13, 3), PAIRS));
    all
}

fn open_rows<N: Library>(count: usize) -> Vec<Box<dyn Bench>> {
    let lying =
        |key, (n, t), lies, title: &str| open_row::<N>(key, (n, t), title, made(count, |rng| shares(rng, n, t, lies)));
    let at = |(key, size, places)| lying(key, size, Lies::At(places), &lies_at(places));
    let mut rows: Vec<_> = openings().into_iter().map(at).collect();
    rows.push(lying("any", (16, 3), Lies::Any(3), "3 lies anywhere"));
    rows.push(lying("refused", (16, 3), Lies::At(&[0, 4, 8, 12]), "4 lies, refused"));
    rows.extend(UNSENT.map(|(key, (n, t), unsent, lies, title)| {
        open_row::<N>(key, (n, t), title, made(count, |rng| unsent_shares(rng, n, t, unsent, lies)))
    }));
    rows
}

/// The same repairs and openings with the points in a table, each input with another.
fn tabled_rows<N: Library>(count: usize) -> Vec<Box<dyn Bench>> {
    let repair = |(key, points, places): (&str, usize, &'static [usize])| -> Box<dyn Bench> {
        let inputs = made(count, |rng| tabled_points::<N>(rng, points, 3, Lies::At(places)));
        let title = format!("repair, {points} points in a table, t = 3, {}", lies_at(places));
        let (key, title) = named::<N>(&format!("repair{points}-{key}-table"), &title);
        Box::new(repairing(&key, &title, inputs))
    };
    let open = |(key, (n, t), places): (&str, (u8, u8), &'static [usize])| -> Box<dyn Bench> {
        let inputs = made(count, |rng| tabled_shares::<N>(rng, n, t, Lies::At(places)));
        let title = format!("opening, n = {n}, t = {t}, points in a table, {}", lies_at(places));
        let (key, title) = named::<N>(&format!("open{n}-{key}-table"), &title);
        Box::new(opening_with(&key, &title, inputs))
    };
    REPAIRS.into_iter().map(repair).chain(openings().into_iter().map(open)).collect()
}

/// Openings by locator.
fn locate_rows<N: Library>(count: usize) -> Vec<Box<dyn Bench>> {
    let row = |key: &str, (n, t): (u8, u8), title: &str, inputs: Vec<Shares<N>>| -> Box<dyn Bench> {
        let title = format!("opening by locator, n = {n}, t = {t}, {title}");
        let (key, title) = named::<N>(&format!("locate{n}-{key}"), &title);
        Box::new(locating(&key, &title, inputs))
    };
    let lying =
        |(key, (n, t), lies)| row(key, (n, t), &lies_named(t, lies), made(count, |rng| shares(rng, n, t, lies)));
    let dark = |(key, (n, t), unsent, lies, title): Unsent| {
        row(key, (n, t), title, made(count, |rng| unsent_shares(rng, n, t, unsent, lies)))
    };
    LOCATED.into_iter().map(lying).chain(LOCATED_UNSENT.into_iter().map(dark)).collect()
}

/// The same with the points in a table, each input with another.
fn tabled_locate_rows<N: Library>(count: usize) -> Vec<Box<dyn Bench>> {
    let row = |key: &str, (n, t): (u8, u8), title: &str, inputs: Vec<Tabled<N, Shares<N>>>| -> Box<dyn Bench> {
        let title = format!("opening by locator, n = {n}, t = {t}, points in a table, {title}");
        let (key, title) = named::<N>(&format!("locate{n}-{key}-table"), &title);
        Box::new(locating_with(&key, &title, inputs))
    };
    let lying =
        |(key, (n, t), lies)| row(key, (n, t), &lies_named(t, lies), made(count, |rng| tabled_shares(rng, n, t, lies)));
    let dark = |(key, (n, t), unsent, lies, title): Unsent| {
        row(key, (n, t), title, made(count, |rng| tabled_unsent_shares(rng, n, t, unsent, lies)))
    };
    LOCATED.into_iter().map(lying).chain(LOCATED_UNSENT.into_iter().map(dark)).collect()
}

fn text_rows(count: usize) -> Vec<Box<dyn Bench>> {
    let others = |record: &'static [u8]| {
        let mut inputs = vec![Bytes(record.to_vec())];
        inputs.extend(made(count - 1, |rng| shifted::<u16>(rng, record)));
        inputs
    };
    let rows: [Row<Bytes, Text>; 3] = [
        writing("text-example", "text of the example, n = 5", others(EXAMPLE)),
        writing("text-honest", "text, n = 16, all honest", made(count, |rng| honest::<u16>(rng, 16, 3))),
        writing("text-liars", "text, n = 16, three liars", others(LIARS)),
    ];
    rows.into_iter().map(|row| -> Box<dyn Bench> { Box::new(row) }).collect()
}

fn wide_text_rows(count: usize) -> Vec<Box<dyn Bench>> {
    let liars = widened(LIARS);
    let all_honest = made(count, |rng| honest::<u32>(rng, 16, 3));
    let three_liars = made(count, |rng| shifted::<u32>(rng, &liars));
    let row = |key, title, inputs| -> Box<dyn Bench> {
        let (key, title) = named::<u32>(key, title);
        Box::new(writing(&key, &title, inputs))
    };
    vec![
        row("text-honest", "text, n = 16, all honest", all_honest),
        row("text-liars", "text, n = 16, three liars", three_liars),
    ]
}
