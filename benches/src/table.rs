//! The tables, in the form that docs/PERFORMANCE.md shows, and what misses its target.

use crate::measure::{quantile, ratio, Role, Times};
use crate::rows::{has_pairs, has_unsent};

/// At most so many times plain Rust of the same algorithm, and so many times the specialist, for the rows that these
/// targets are for: searching, decoding, the others.
const SEARCH: (f64, f64) = (1.0, 1.5);
const DECODING: (f64, f64) = (1.0, 1.1);
const OTHERS: (f64, f64) = (1.25, f64::INFINITY);
/// Decoding of wide numbers: for these the specialist and the naive way are shown, and no target is set.
const WIDE_DECODING: (f64, f64) = (1.0, f64::INFINITY);
/// A wide row takes at most so many times the time of its narrow companion: at the points 1 to n, and in a table.
const WIDER: f64 = 1.4;
const WIDER_TABLE: f64 = 2.0;
/// At least so many times faster than the naive way.
const FASTER: f64 = 10.0;

/// Who has a column of times in the first two tables.
const COLUMNS: [Role; 4] = [Role::Proved, Role::Plain, Role::Special, Role::Naive];

pub fn head() -> String {
    headed(&[])
}

pub fn wide_head() -> String {
    headed(&["wide / narrow"])
}

fn headed(more: &[&'static str]) -> String {
    let names = ["", "proved", "plain", "specialist", "naive"];
    let ratios = ["proved / plain", "proved / specialist", "naive / proved"];
    let head: Vec<&str> = names.into_iter().chain(ratios).chain(more.iter().copied()).collect();
    format!("| {} |\n|{}", head.join(" | "), "---|".repeat(head.len()))
}

pub fn of(times: &[Times], role: Role) -> Option<&Times> {
    times.iter().find(|t| t.role == role)
}

/// The median and, in brackets, where the middle eight tenths lie.
pub fn cell(times: Option<&Times>) -> String {
    let Some(times) = times else {
        return String::new();
    };
    let at = |part| quantile(&times.samples, part);
    let name = if times.role == Role::Special { format!("{}: ", times.name) } else { String::new() };
    format!("{name}{:.0} ({:.0} to {:.0})", at(0.5), at(0.1), at(0.9))
}

fn ratio_of(times: &[Times], one: Role, other: Role) -> Option<f64> {
    Some(ratio(of(times, one)?, of(times, other)?))
}

fn shown(ratio: Option<f64>) -> String {
    ratio.map_or(String::new(), |r| if r < 100.0 { format!("{r:.2}") } else { format!("{r:.0}") })
}

pub fn line(title: &str, times: &[Times]) -> String {
    let mut cells = vec![title.to_string()];
    cells.extend(COLUMNS.map(|role| cell(of(times, role))));
    cells.push(shown(ratio_of(times, Role::Proved, Role::Plain)));
    cells.push(shown(ratio_of(times, Role::Proved, Role::Special)));
    cells.push(shown(ratio_of(times, Role::Naive, Role::Proved)));
    format!("| {} |", cells.join(" | "))
}

/// The head of the table of both ways of opening.
pub fn ways_head() -> String {
    "|  | by locator | by trial | locator / trial |\n|---|---|---|---|".to_string()
}

/// Its line, if the row has both.
pub fn ways_line(title: &str, times: &[Times]) -> Option<String> {
    let (locator, trial) = (of(times, Role::Proved)?, of(times, Role::Trial)?);
    let cells = [title.to_string(), cell(Some(locator)), cell(Some(trial)), shown(Some(ratio(locator, trial)))];
    Some(format!("| {} |", cells.join(" | ")))
}

/// The line of a wide row, with that of its narrow companion.
pub fn wide_line(title: &str, narrow: &[Times], wide: &[Times]) -> String {
    format!("{} {} |", line(title, wide), shown(wider(narrow, wide)))
}

/// How many times longer the library takes with wide numbers: the two rows have no batches in common, so the medians
/// are compared.
fn wider(narrow: &[Times], wide: &[Times]) -> Option<f64> {
    let median = |times| Some(quantile(&of(times, Role::Proved)?.samples, 0.5));
    Some(median(wide)? / median(narrow)?)
}

/// What this wide row misses beside its narrow companion.
pub fn wide_miss(key: &str, title: &str, narrow: &[Times], wide: &[Times]) -> Option<String> {
    let target = if key.ends_with("-table") { WIDER_TABLE } else { WIDER };
    let r = wider(narrow, wide).filter(|r| target + 0.005 <= *r)?;
    Some(format!("{title}: {r:.2} times the narrow row, target {target}"))
}

/// What this row misses.
pub fn misses(key: &str, title: &str, times: &[Times]) -> Vec<String> {
    let mut misses = Vec::new();
    let (plain, special) = targets(key);
    for (role, name, target) in [(Role::Plain, "plain Rust", plain), (Role::Special, "the specialist", special)] {
        // Held to the two digits that the table shows.
        if let Some(r) = ratio_of(times, Role::Proved, role).filter(|&r| target + 0.005 <= r) {
            misses.push(format!("{title}: {r:.2} times {name}, target {target}"));
        }
    }
    let naive = ratio_of(times, Role::Naive, Role::Proved).filter(|_| has_naive_target(key));
    if let Some(r) = naive.filter(|&r| r < FASTER) {
        misses.push(format!("{title}: {r:.2} times faster than the naive way, target {FASTER}"));
    }
    misses
}

fn targets(key: &str) -> (f64, f64) {
    let is_one_of = |starts: &[&str]| starts.iter().any(|start| key.starts_with(start));
    if is_one_of(&["wide-repair", "wide-open", "wide-locate"]) {
        WIDE_DECODING
    } else if is_one_of(&["wide-deal", "wide-text"]) {
        OTHERS
    } else if is_one_of(&["repair", "open", "locate"]) {
        DECODING
    } else if has_pairs(key) || is_one_of(&["deal", "text"]) {
        OTHERS
    } else {
        SEARCH
    }
}

/// The rows at n = 16, t = 3 where the naive way has to try many: not those with dark lamps, which leave few points.
fn has_naive_target(key: &str) -> bool {
    let few = ["wide-", "open5", "open9", "open13", "open16-none", "repair10", "text-example"];
    !has_unsent(key) && !few.iter().any(|start| key.starts_with(start))
}
