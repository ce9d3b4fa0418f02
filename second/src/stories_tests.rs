//! All stories together, and what the tests of single ones share.

use crate::calls::{answer_text, call_name, call_text, line, Call, Step, LENT_LIMIT};
use crate::cross_calls::{count_answers, never_met, Counts};
use crate::lists::random_lists;
use crate::stories::{all, stored_stream, stream, text, told};
use crate::wire;
use std::collections::BTreeSet;
use std::sync::OnceLock;

/// The tests share one telling.
pub fn stories() -> &'static [(&'static str, Vec<Step>)] {
    static TOLD: OnceLock<Vec<(&'static str, Vec<Step>)>> = OnceLock::new();
    TOLD.get_or_init(told)
}

/// The same without the openings by the locator, which change nothing: what is
/// worked out by hand has each opening once. That the other answers the same is
/// tried for all stories together.
fn opened_once() -> &'static [(&'static str, Vec<Step>)] {
    static TOLD: OnceLock<Vec<(&'static str, Vec<Step>)>> = OnceLock::new();
    TOLD.get_or_init(|| {
        let mut stories = told();
        for (_, steps) in &mut stories {
            steps.retain(|step| !matches!(step.call, Call::Locate(..)));
        }
        stories
    })
}

pub fn story(name: &str) -> &'static [Step] {
    let found = opened_once().iter().find(|story| story.0 == name);
    &found.unwrap_or_else(|| panic!("no story {name}")).1
}

/// The number of the party that is made, with a table or without.
fn made(step: &Step) -> Option<usize> {
    match step.call {
        Call::Make(_, _, _, i) | Call::MakeWith(_, _, _, i, _) => Some(i),
        _ => None,
    }
}

pub fn is_make(step: &Step) -> bool {
    made(step).is_some()
}

/// The parties that are made, in their order.
pub fn parties(name: &str) -> Vec<usize> {
    story(name).iter().filter_map(made).collect()
}

/// The steps of party i, its making first.
pub fn party(name: &str, i: usize) -> &'static [Step] {
    let steps = story(name);
    let of_i = |step: &Step| made(step) == Some(i);
    let start = steps.iter().position(of_i).expect("made");
    let behind = &steps[start + 1..];
    let length = behind.iter().position(is_make).unwrap_or(behind.len());
    &steps[start..start + 1 + length]
}

/// The sort of a call, whatever its width.
fn sort_of(step: &Step) -> &'static str {
    let name = call_name(&step.call);
    name.strip_prefix("wide-").unwrap_or(name)
}

/// What was answered and left by one sort of call to party i.
pub fn answers(name: &str, i: usize, sort: &str) -> Vec<String> {
    party(name, i)
        .iter()
        .filter(|step| sort_of(step) == sort)
        .map(|step| answer_text(&step.answer, &step.after))
        .collect()
}

pub fn only_answer(name: &str, i: usize, sort: &str) -> String {
    let all = answers(name, i, sort);
    assert_eq!(all.len(), 1, "{name} {i} {sort}");
    all[0].clone()
}

/// The calls of one sort to party i, as text.
pub fn asked(name: &str, i: usize, sort: &str) -> Vec<String> {
    party(name, i)
        .iter()
        .filter(|step| sort_of(step) == sort)
        .map(|step| call_text(&step.call))
        .collect()
}

/// What the desk was asked and answered before any party was made.
pub fn desk_lines(name: &str) -> Vec<String> {
    let steps = story(name).iter().take_while(|step| !is_make(step));
    steps
        .map(|step| line(step).split_once(" ; ").unwrap().0.to_string())
        .collect()
}

pub const F_DEALT: &str =
    "desk 5 1 20 7 2 3 4 = ok 9 7 10 6 11 11 13 10 13 15 16 14 15 19 19 18 17 23 22 22";

// ---- all together ----

fn all_calls() -> Vec<Call> {
    all().into_iter().flat_map(|story| story.1).collect()
}

#[test]
fn names_are_those_of_the_readme() {
    let readme = include_str!("../README.md");
    let names: BTreeSet<&str> = stories().iter().map(|story| story.0).collect();
    assert_eq!((names.len(), stories().len()), (56, 56));
    for name in names {
        assert!(
            [": ", ", "]
                .iter()
                .any(|end| readme.contains(&format!("- `{name}`{end}"))),
            "{name}"
        );
    }
}

/// The stories alone have every kind of answer that can come.
#[test]
fn every_answer_comes() {
    let mut counts = Counts::new();
    for (_, steps) in stories() {
        count_answers(&mut counts, steps);
    }
    assert_eq!(never_met(&counts), Vec::<String>::new());
}

/// What is written is read again, and the text has its lines.
#[test]
fn stories_as_bytes_and_text() {
    let calls = all_calls();
    assert_eq!(wire::read(&stream()), calls);
    for call in &calls {
        assert!(wire::write(call).len() <= 3 + 4 * LENT_LIMIT);
    }
    let steps = stories().iter().flat_map(|story| &story.1);
    let lines: String = steps
        .map(|step| wire::line(&step.answer, &step.after))
        .collect();
    assert_eq!(wire::answers(&stream()), lines);
    let text = text();
    assert!(text.starts_with(&format!("# honest\n{F_DEALT} ; 0 0 0\nmake 5 1 1 = ok")));
    assert_eq!(text.lines().count(), calls.len() + stories().len());
}

/// FNV-1a over the bytes.
fn hash(bytes: &[u8]) -> String {
    let hash = bytes.iter().fold(0xcbf2_9ce4_8422_2325_u64, |hash, &byte| {
        (hash ^ u64::from(byte)).wrapping_mul(0x0100_0000_01b3)
    });
    format!("{hash:016x}")
}

/// Who changes a story sees it here. The sixteen without tables come first, and
/// the narrow ones before the wide ones.
#[test]
fn the_stories_are_fixed() {
    let stream = stream();
    assert_eq!(all()[16].0, "stations-liar");
    assert_eq!(all()[31].0, "wide-honest");
    let calls = all_calls();
    for (stories, count, length, wanted) in [
        (16, 1521, 21_441, "eb1686e717bf95d9"),
        (31, 2750, 37_504, "090b38d32dc447d6"),
        (56, 5518, 96_418, "b630d7daac37ba93"),
    ] {
        let first: usize = all()[..stories].iter().map(|story| story.1.len()).sum();
        assert_eq!(first, count);
        assert_eq!(wire::read(&stream[..length]), calls[..count]);
        assert_eq!(hash(&stream[..length]), wanted);
    }
    assert_eq!((calls.len(), stream.len()), (5518, 96_418));
}

/// Without the openings by the locator they are what they were before there
/// were any.
#[test]
fn the_stories_are_those_of_before() {
    let mut calls = all_calls();
    calls.retain(|call| !matches!(call, Call::Locate(..)));
    let stream: Vec<u8> = calls.iter().flat_map(wire::write).collect();
    assert_eq!(hash(&stream[..16_029]), "256a19c270db4dea");
    assert_eq!(hash(&stream[..29_433]), "74a640b41340350f");
    assert_eq!((calls.len(), stream.len()), (4746, 73_482));
    assert_eq!(hash(&stream), "de1858eafa9ccc27");
}

/// The stories first. The lists behind them begin with a make, so they are
/// answered as ever.
#[test]
fn the_stored_stream() {
    let stored = stored_stream(1, 150);
    assert_eq!(stored, [stream(), wire::stream(1, 150)].concat());
    let lists = random_lists(1, 150).flatten().count();
    assert_eq!(wire::read(&stored).len(), all_calls().len() + lists);
    let answers = [
        wire::answers(&stream()),
        wire::answers(&wire::stream(1, 150)),
    ];
    assert_eq!(wire::answers(&stored), answers.concat());
    assert_eq!(stored_stream(1, 0), stream());
}
