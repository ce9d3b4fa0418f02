//! Times the proved library beside plain Rust of the same algorithms, beside specialists and beside the naive ways, and
//! compares all their answers: a difference ends it with 1.

mod ab;
mod bitset;
mod check;
mod contenders;
mod gao;
mod graphs;
mod hunt;
mod inputs;
mod measure;
mod naive;
mod pairs;
mod plain;
mod points;
mod proved;
mod records;
mod rng;
mod rows;
mod table;

use measure::{Bench, Pace, Role, TIMED};
use plain::{differences_now, fit_now, happy_new, happy_now, happy_old};
use std::io::Write;
use std::process::ExitCode;
use std::time::Instant;

const USAGE: &str = "usage: benches [--quick]                     compares and times all
       benches hunt [now|old|new [SEED [CLIMBS]]] hunts for the graph that costs the search most
       benches count ROW proved|plain|specialist|empty N   asks N times, for a counter of instructions
       benches rows                             names the rows
       benches ab [ROW..]                       times two libraries, where benches/ab has linked them";

/// So many random questions of each kind, random lists of shares in all, inputs to a row, and how they are timed.
struct Plan {
    questions: usize,
    lists: usize,
    inputs: usize,
    pace: Pace,
}

// Batches are short, so that on a machine with other work most of them are not interrupted.
const FULL: Plan = Plan { questions: 8000, lists: 100_000, inputs: 64, pace: Pace { samples: 501, batch: 2.0e5 } };
const QUICK: Plan = Plan { questions: 1000, lists: 8000, inputs: 16, pace: Pace { samples: 31, batch: 1.0e5 } };

fn main() -> ExitCode {
    let args: Vec<String> = std::env::args().skip(1).collect();
    let words: Vec<&str> = args.iter().map(String::as_str).collect();
    let done = match words[..] {
        [] => run(&FULL),
        ["--quick"] => run(&QUICK),
        ["hunt", ref rest @ ..] => hunt(rest),
        ["count", row, who, times] => count(row, who, times),
        ["rows"] => rows::all(1).iter().try_for_each(|row| say(&format!("{:30} {}", row.key(), row.title()))),
        ["ab", ref keys @ ..] => ab::run(keys, FULL.inputs, FULL.pace),
        _ => Err(USAGE.to_string()),
    };
    match done {
        Ok(()) => ExitCode::SUCCESS,
        Err(what) => {
            eprintln!("benches: {what}");
            ExitCode::FAILURE
        }
    }
}

fn run(plan: &Plan) -> Result<(), String> {
    let start = Instant::now();
    let asked = check::check(1, plan.questions)?;
    check::lists(2, plan.lists)?;
    let (rows, wide) = (rows::narrow(plan.inputs), rows::wide(plan.inputs));
    rows.iter().chain(&wide).try_for_each(|row| row.compare())?;
    let (lists, count, inputs) = (plan.lists, rows.len() + wide.len(), plan.inputs);
    let both = format!("{lists} random lists of shares opened by trial and by locator");
    say(&format!("All answers agree: {asked} random questions, {both}, {count} rows of {inputs} inputs."))?;
    say(&format!("Plain Rust finds the happy set by {}; fits by {};", happy_now::NAME, fit_now::NAME))?;
    say(&format!("takes the divided differences of four points by {}.\n", differences_now::NAME))?;
    let misses = measured(&rows, &wide, plan.pace)?;
    let samples = plan.pace.samples;
    say(&format!("\nNanoseconds per call: the median of {samples} samples (tenth to ninetieth percentile)."))?;
    say(if misses.is_empty() { "Misses: none" } else { "Misses:" })?;
    misses.iter().try_for_each(|miss| say(&format!("- {miss}")))?;
    say(&format!("Taken in {} s.", start.elapsed().as_secs()))
}

/// Prints the tables; answers what misses its target. A wide row is timed right after its narrow companion, so that a
/// machine that slows down for a while does so for both.
fn measured(rows: &[Box<dyn Bench>], wide: &[Box<dyn Bench>], pace: Pace) -> Result<Vec<String>, String> {
    let (mut lines, mut ways, mut misses) = (vec![table::wide_head()], vec![table::ways_head()], Vec::new());
    say(&table::head())?;
    for row in rows {
        let times = row.measure(pace, &TIMED);
        say(&table::line(row.title(), &times))?;
        ways.extend(table::ways_line(row.title(), &times));
        misses.extend(table::misses(row.key(), row.title(), &times));
        let Some(wide) = wide.iter().find(|wide| wide.key() == rows::wide_key(row.key())) else {
            continue;
        };
        let wide_times = wide.measure(pace, &TIMED);
        lines.push(table::wide_line(wide.title(), &times, &wide_times));
        ways.extend(table::ways_line(wide.title(), &wide_times));
        misses.extend(table::misses(wide.key(), wide.title(), &wide_times));
        misses.extend(table::wide_miss(wide.key(), wide.title(), &times, &wide_times));
    }
    for table in [lines, ways] {
        say("")?;
        table.iter().try_for_each(|line| say(line))?;
    }
    Ok(misses)
}

/// Prints a line; a reader that has gone away is an error, not a panic.
pub fn say(line: &str) -> Result<(), String> {
    writeln!(std::io::stdout(), "{line}").map_err(|error| error.to_string())
}

fn number(word: &str) -> Result<u64, String> {
    word.parse().map_err(|_| format!("not a number: {word}"))
}

fn hunt(words: &[&str]) -> Result<(), String> {
    let search: hunt::Counted = match words.first() {
        None | Some(&"now") => happy_now::counted,
        Some(&"old") => happy_old::counted,
        Some(&"new") => happy_new::counted,
        Some(_) => return Err(USAGE.to_string()),
    };
    let seed = words.get(1).map_or(Ok(1), |word| number(word))?;
    let climbs = words.get(2).map_or(Ok(100), |word| number(word))?;
    let (calls, graph) = hunt::hunt(search, seed, climbs as usize);
    say(&format!("{calls} calls of the search\n{graph:?}"))
}

fn count(key: &str, who: &str, times: &str) -> Result<(), String> {
    let role = match who {
        "proved" => Some(Role::Proved),
        "plain" => Some(Role::Plain),
        "specialist" => Some(Role::Special),
        "empty" => None,
        _ => return Err(USAGE.to_string()),
    };
    let rows = rows::all(FULL.inputs);
    let row = rows.iter().find(|row| row.key() == key).ok_or(format!("no row {key}: see `benches rows`"))?;
    if role.is_some_and(|role| !row.has(role)) {
        return Err(format!("row {key} has no {who}"));
    }
    row.repeat(role, number(times)? as usize);
    Ok(())
}
