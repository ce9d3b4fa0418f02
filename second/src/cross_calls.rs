//! The proved program `calls` against ours: random lists of calls, many to
//! a run, then short inputs, most of them with a call that ends them. The two
//! must print the same lines.

use crate::calls::{call_name, call_text, Call, Step};
use crate::field::Width;
use crate::lists::random_lists;
use crate::outcome::all_met;
use crate::program::{self, Ran};
use crate::short_inputs::short_inputs;
use crate::stations::one_to;
use crate::unsent::{self, Unsent};
use crate::wire;
use std::collections::BTreeMap;
use std::path::Path;

/// A run's input has at most so many bytes.
const BATCH_LIMIT: usize = 60_000;

/// Every kind of answer there is, by call; 0 stands for "ok". Saying a pair and
/// settling are counted by the width of the party. Openings with many parties
/// dark are counted once more under names of their own.
pub const ANSWERS: [(&str, &[u8]); 44] = [
    ("make", &[0, 1, 2]),
    ("deal", &[0, 1, 2, 3, 4, 14, 18]),
    ("say", &[0, 1, 2, 4, 14]),
    ("hear", &[0, 1, 2, 3, 4, 14, 18]),
    ("settle", &[0, 1, 2, 3, 4, 7, 8, 9, 14]),
    ("open", &[0, 1, 2, 3, 4, 10, 14, 18]),
    ("desk", &[0, 1, 3, 5]),
    ("make-table", &[0, 1, 2, 3, 14]),
    ("desk-table", &[0, 1, 3, 5, 14]),
    ("locate", &[0, 1, 2, 3, 4, 10, 14, 18]),
    ("wide-make", &[0, 1, 2]),
    ("wide-deal", &[0, 1, 2, 3, 4, 14, 18]),
    ("wide-say", &[0, 1, 2, 4, 14]),
    ("wide-hear", &[0, 1, 2, 3, 4, 14, 18]),
    ("wide-settle", &[0, 1, 2, 3, 4, 7, 8, 9, 14]),
    ("wide-open", &[0, 1, 2, 3, 4, 10, 14, 18]),
    ("wide-desk", &[0, 1, 3, 5]),
    ("wide-make-table", &[0, 1, 2, 3, 14]),
    ("wide-desk-table", &[0, 1, 3, 5, 14]),
    ("wide-locate", &[0, 1, 2, 3, 4, 10, 14, 18]),
    ("open-dark", &[0]),
    ("open-dark-lies", &[0, 10]),
    ("open-few", &[10]),
    ("open-dark-table", &[0]),
    ("open-dark-lies-table", &[0, 10]),
    ("open-few-table", &[10]),
    ("wide-open-dark", &[0]),
    ("wide-open-dark-lies", &[0, 10]),
    ("wide-open-few", &[10]),
    ("wide-open-dark-table", &[0]),
    ("wide-open-dark-lies-table", &[0, 10]),
    ("wide-open-few-table", &[10]),
    ("locate-dark", &[0]),
    ("locate-dark-lies", &[0, 10]),
    ("locate-few", &[10]),
    ("locate-dark-table", &[0]),
    ("locate-dark-lies-table", &[0, 10]),
    ("locate-few-table", &[10]),
    ("wide-locate-dark", &[0]),
    ("wide-locate-dark-lies", &[0, 10]),
    ("wide-locate-few", &[10]),
    ("wide-locate-dark-table", &[0]),
    ("wide-locate-dark-lies-table", &[0, 10]),
    ("wide-locate-few-table", &[10]),
];

/// How often each call had each answer.
pub type Counts = BTreeMap<(&'static str, u8), usize>;

/// Lists that go into one run of the program.
#[derive(Default)]
struct Batch {
    /// The number of the first list.
    first: usize,
    lists: Vec<Vec<Step>>,
    stream: Vec<u8>,
}

/// What came of all lists.
#[derive(Default)]
pub struct Done {
    pub lists: usize,
    pub calls: usize,
    pub runs: usize,
    pub counts: Counts,
}

/// The whole comparison: the text of success, or that of a mismatch.
pub fn cross_calls(seed: u64, count: usize, program: &Path) -> Result<String, String> {
    let seeded = |what: String| format!("seed {seed}, {what}");
    let done = cross_lists(seed, count, program).map_err(seeded)?;
    let inputs = short_inputs(seed);
    for (name, bytes) in &inputs {
        program::compare(program, bytes, &wire::answers(bytes))
            .map_err(|what| seeded(format!("short input \"{name}\": {what}")))?;
    }
    success(seed, &done, inputs.len()).map_err(seeded)
}

/// The text of success, unless some kind of answer should have come.
pub fn success(seed: u64, done: &Done, short: usize) -> Result<String, String> {
    all_met(done.lists, "lists", &never_met(&done.counts))?;
    let answers = counts_text(&done.counts);
    Ok(format!(
        "calls: {} lists of {} calls in {} runs of seed {seed}, all alike; {answers}; and {short} short inputs\n",
        done.lists, done.calls, done.runs
    ))
}

/// All lists, as many to a run as its input holds.
fn cross_lists(seed: u64, count: usize, program: &Path) -> Result<Done, String> {
    let mut done = Done::default();
    let mut batch = Batch::default();
    for (number, list) in random_lists(seed, count).enumerate() {
        count_answers(&mut done.counts, &list);
        done.calls += list.len();
        let bytes: Vec<u8> = list.iter().flat_map(|s| wire::write(&s.call)).collect();
        if batch.stream.len() + bytes.len() > BATCH_LIMIT {
            run_batch(&batch, program)?;
            done.runs += 1;
            batch = Batch {
                first: number,
                ..Batch::default()
            };
        }
        batch.stream.extend(bytes);
        batch.lists.push(list);
    }
    run_batch(&batch, program)?;
    done.runs += 1;
    done.lists = count;
    Ok(done)
}

// ---- counts ----

pub fn count_answers(counts: &mut Counts, list: &[Step]) {
    for step in list {
        let answer = step.answer.result.as_ref().err().copied().unwrap_or(0);
        *counts.entry((counted_as(step), answer)).or_default() += 1;
        if let Some(name) = unsent_name(step) {
            *counts.entry((name, answer)).or_default() += 1;
        }
    }
}

/// What an opening with many parties dark is counted as besides: by the call, by
/// what was sent, the own share among it, and by whether the points are others
/// than 1 to n.
fn unsent_name(step: &Step) -> Option<&'static str> {
    let (Call::Open(width, list) | Call::Locate(width, list)) = &step.call else {
        return None;
    };
    let opened = match &step.answer.result {
        Ok(values) => Ok(values[0]),
        Err(10) => Err(10),
        Err(_) => return None,
    };
    let party = &step.before;
    let mut published = list.clone();
    published[party.number - 1] = party.share;
    let kind = unsent::kind_of(*width, &party.table, party.t, &published, opened)?;
    let sent = match kind {
        Unsent::Opened => "dark",
        Unsent::ThroughLies | Unsent::Lies => "dark-lies",
        Unsent::TooFew => "few",
    };
    let points = ["", "-table"][usize::from(party.table != one_to(party.n))];
    let name = format!("{}-{sent}{points}", call_name(&step.call));
    let mut listed = ANSWERS.iter().map(|&(listed, _)| listed);
    listed.find(|listed| *listed == name)
}

/// The call's name, with the party's width if it has none of its own.
fn counted_as(step: &Step) -> &'static str {
    match (&step.call, step.before.width) {
        (Call::Say(_), Width::Wide) => "wide-say",
        (Call::Settle(_), Width::Wide) => "wide-settle",
        (call, _) => call_name(call),
    }
}

fn times(counts: &Counts, name: &'static str, answer: u8) -> usize {
    counts.get(&(name, answer)).copied().unwrap_or(0)
}

fn answer_word(answer: u8) -> String {
    match answer {
        0 => "ok".to_string(),
        _ => format!("refused-{answer}"),
    }
}

/// Also what never came is named, so that a reader sees it.
fn counts_text(counts: &Counts) -> String {
    let calls = ANSWERS.map(|(name, answers)| {
        let words: Vec<String> = answers
            .iter()
            .map(|&answer| format!("{} {}", answer_word(answer), times(counts, name, answer)))
            .collect();
        format!("{name}: {}", words.join(", "))
    });
    calls.join("; ")
}

/// The answers that can come, by call, and never did.
pub fn never_met(counts: &Counts) -> Vec<String> {
    ANSWERS
        .iter()
        .flat_map(|&(name, answers)| answers.iter().map(move |&answer| (name, answer)))
        .filter(|&(name, answer)| times(counts, name, answer) == 0)
        .map(|(name, answer)| format!("{name} {}", answer_word(answer)))
        .collect()
}

// ---- a run ----

/// Our lines for a list.
fn our_lines(list: &[Step]) -> Vec<String> {
    list.iter()
        .map(|step| wire::line(&step.answer, &step.after))
        .collect()
}

/// Gives the batch to the program. Lines are compared with their ends, so a
/// missing last newline is seen too.
fn run_batch(batch: &Batch, program: &Path) -> Result<(), String> {
    let ran = program::feed(program, batch.stream.clone(), program::TIME_LIMIT)
        .map_err(|e| format!("{} does not run: {e}", program.display()))?;
    let mut theirs = ran.output.split_inclusive(|&byte| byte == b'\n');
    for (k, list) in batch.lists.iter().enumerate() {
        for (at, ours) in our_lines(list).iter().enumerate() {
            let line = theirs.next().unwrap_or_default();
            if line != ours.as_bytes() {
                return Err(wrong_line(batch.first + k, &list[..=at], ours, line, &ran));
            }
        }
    }
    let last = batch.first + batch.lists.len();
    match (theirs.next(), &ran.bad_end) {
        (Some(line), _) => Err(format!(
            "after list {last}: a line too many: {}",
            shown(line)
        )),
        (None, Some(end)) => Err(format!("up to list {last}: the program {end}")),
        (None, None) => Ok(()),
    }
}

/// The list's calls up to the first with a wrong line, and both lines.
fn wrong_line(number: usize, steps: &[Step], ours: &str, theirs: &[u8], ran: &Ran) -> String {
    let calls: String = steps
        .iter()
        .map(|step| call_text(&step.call) + "\n")
        .collect();
    let end = match &ran.bad_end {
        Some(end) => format!("\nthe program {end}"),
        None => String::new(),
    };
    format!(
        "list {number}: the answers to the last of these calls differ\n{calls}second: {}\nprogram: {}{end}",
        shown(ours.as_bytes()),
        shown(theirs)
    )
}

/// A line in quotes, so that missing newlines and odd bytes are seen.
fn shown(line: &[u8]) -> String {
    format!("{:?}", String::from_utf8_lossy(line))
}
