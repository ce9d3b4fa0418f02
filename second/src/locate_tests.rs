//! Openings by the error locator: their bytes, that they are answered as the
//! other opening is, and that each opening of the lists and stories is asked for
//! both ways.

use crate::calls::{
    answer_text, call_name, call_text, call_width, is_opening, line, step, Call, Step,
};
use crate::field::Width::{self, Narrow, Wide};
use crate::lists_tests::steps;
use crate::party::{Party, Stage};
use crate::short_inputs::{example_calls, station_calls, wide_calls, wide_station_calls};
use crate::stories::stored_stream;
use crate::stories_tests::stories;
use crate::wire;
use std::collections::BTreeSet;

fn stream(calls: &[Call]) -> Vec<u8> {
    calls.iter().flat_map(wire::write).collect()
}

/// The same call, but that an opening is of the given sort.
fn opened_by(call: &Call, sort: fn(Width, Vec<u32>) -> Call) -> Call {
    match call {
        Call::Open(width, list) | Call::Locate(width, list) => sort(*width, list.clone()),
        call => call.clone(),
    }
}

/// The same calls with all openings of that sort.
fn all_opened_by(calls: &[Call], sort: fn(Width, Vec<u32>) -> Call) -> Vec<Call> {
    calls.iter().map(|call| opened_by(call, sort)).collect()
}

// ---- bytes and lines ----

/// Kind 9, and 137 with numbers of 32 bits; else the bytes of 5 and 133.
#[test]
fn locating_as_bytes() {
    let narrow = Call::Locate(Narrow, vec![10, 999]);
    assert_eq!(wire::write(&narrow), [9, 0, 2, 0, 10, 3, 231]);
    let wide = Call::Locate(Wide, vec![10, 65_536]);
    let bytes = [137, 0, 2, 0, 0, 0, 10, 0, 1, 0, 0];
    assert_eq!(wire::write(&wide), bytes);
    for call in [narrow, wide] {
        let bytes = wire::write(&call);
        let opening = wire::write(&opened_by(&call, Call::Open));
        assert_eq!((bytes[0], &bytes[1..]), (opening[0] + 4, &opening[1..]));
        assert_eq!(wire::read(&bytes), [call]);
    }
    for count in [0, 1, 16, 199, 200] {
        for (kind, width) in [(9, Narrow), (137, Wide)] {
            let call = Call::Locate(width, vec![7; count]);
            assert_eq!(wire::read(&wire::raw(kind, &vec![7; count])), [call]);
        }
    }
}

#[test]
fn locating_as_text() {
    let narrow = Call::Locate(Narrow, vec![10, 13, 999]);
    assert_eq!(call_text(&narrow), "locate 10 13 999");
    let wide = Call::Locate(Wide, vec![]);
    assert_eq!(call_text(&wide), "wide-locate");
    assert_eq!(call_width(&wide), Some(Wide));
}

/// A list for the example's party 1, whose share is 10.
struct Asked {
    width: Width,
    list: Vec<u32>,
    wanted: &'static str,
}

fn asked(width: Width, list: &[u32], wanted: &'static str) -> Asked {
    let list = list.to_vec();
    Asked {
        width,
        list,
        wanted,
    }
}

/// The lines of a party that holds, worked out by hand: whole lists, lies, dark
/// ones, wrong lengths and the other prime.
#[test]
fn locating_by_hand() {
    let no = 65_535;
    let (opened, refused) = ("ok 7 ; 3 10 31 30\n", "refused 10 ; 3 10 31 30\n");
    for Asked {
        width,
        list,
        wanted,
    } in [
        asked(Narrow, &[10, 13, 16, 19, 22], opened),
        asked(Narrow, &[0, 13, 999, 19, 22], opened),
        asked(Narrow, &[10, 13, 999, 998, 22], refused),
        asked(Narrow, &[10, 13, no, no, 22], opened),
        asked(Narrow, &[no, 13, 65_521, no, 22], opened),
        asked(Narrow, &[10, 13, no, 999, 22], opened),
        asked(Narrow, &[10, 13, no, no, no], refused),
        asked(Narrow, &[no; 5], refused),
        asked(Narrow, &[10, no, 18, no, 26], "ok 6 ; 3 10 31 30\n"),
        asked(Narrow, &[10, 13, 16, 19], "refused 3 ; 3 10 31 30\n"),
        asked(Narrow, &[no; 6], "refused 3 ; 3 10 31 30\n"),
        asked(Narrow, &[], "refused 3 ; 3 10 31 30\n"),
        asked(Wide, &[10, 13, 16, 19, 22], "refused 18 ; 3 10 31 30\n"),
        asked(Wide, &[], "refused 18 ; 3 10 31 30\n"),
    ] {
        for sort in [Call::Open, Call::Locate] {
            let mut calls = example_calls()[..5].to_vec();
            calls.push(sort(width, list.clone()));
            let text = wire::answers(&stream(&calls));
            let last = text.split_inclusive('\n').next_back();
            assert_eq!(last, Some(wanted), "{list:?}");
        }
    }
}

/// At the stages before holding, when closed, and to parties badly made.
#[test]
fn locating_at_other_stages() {
    let example = example_calls();
    let closed = [&example[..4], &[Call::Settle(vec![30, 0, 0, 0, 0])]].concat();
    let table = vec![40_961, 7, 0, 3, 21_000];
    for (calls, right, short) in [
        (example[..1].to_vec(), 4, 3),
        (example[..2].to_vec(), 4, 3),
        (example[..4].to_vec(), 4, 3),
        (closed, 4, 3),
        (vec![], 1, 1),
        (vec![Call::Make(Narrow, 4, 1, 1)], 1, 1),
        (vec![Call::Make(Narrow, 5, 1, 6)], 2, 2),
        (vec![Call::MakeWith(Narrow, 5, 1, 2, table)], 14, 3),
        (vec![Call::Make(Wide, 5, 1, 2)], 18, 18),
    ] {
        for (length, refusal) in [(5, right), (4, short)] {
            let mut party = Party::make(Narrow, 0, 0, 0).0;
            for call in calls.iter().cloned() {
                step(&mut party, call);
            }
            let kept = party.clone();
            for sort in [Call::Open, Call::Locate] {
                let asked = step(&mut party, sort(Narrow, vec![10; length]));
                assert_eq!(asked.answer.result, Err(refusal), "{}", line(&asked));
            }
            assert_eq!(party, kept);
        }
    }
}

/// 10 and 138 are the first kinds that are none, whatever numbers they have; with
/// too many numbers 9 and 137 are none either.
#[test]
fn what_is_no_locating_ends_the_input() {
    for calls in [
        example_calls(),
        station_calls(),
        wide_calls(),
        wide_station_calls(),
    ] {
        let lines = wire::answers(&stream(&calls));
        assert_eq!(lines.lines().count(), calls.len());
        for (kind, count) in [
            (10, 0),
            (10, 5),
            (138, 0),
            (138, 5),
            (9, 201),
            (9, 261),
            (137, 201),
            (137, 261),
        ] {
            let no_call = wire::raw(kind, &vec![1; count]);
            let bytes = [stream(&calls), no_call, stream(&calls)].concat();
            assert_eq!(wire::answers(&bytes), lines, "{kind} {count}");
        }
        for kind in [9, 137] {
            let whole = wire::raw(kind, &[1; 5]);
            let cut = [&stream(&calls)[..], &whole[..whole.len() - 1]].concat();
            assert_eq!(wire::answers(&cut), lines, "{kind}");
        }
    }
}

/// All that is kept: with every opening of the one sort, or of the other, the
/// lines are the same.
#[test]
fn both_sorts_have_the_same_lines() {
    let stored = stored_stream(1, 150);
    let calls = wire::read(&stored);
    let lines = wire::answers(&stored);
    for sort in [Call::Open, Call::Locate] {
        let all = stream(&all_opened_by(&calls, sort));
        assert!(all != stored && all.len() == stored.len());
        assert!(wire::answers(&all) == lines);
    }
}

// ---- both ways ----

/// The openings in pairs, each of the two sorts for one list, one right after
/// the other and answered the same. There are no others.
fn pairs(steps: &[Step]) -> Vec<&[Step]> {
    let mut pairs = Vec::new();
    let mut k = 0;
    while k < steps.len() {
        if !is_opening(&steps[k].call) {
            k += 1;
            continue;
        }
        let pair = &steps[k..k + 2];
        let sorts: BTreeSet<&str> = pair.iter().map(|step| call_name(&step.call)).collect();
        assert_eq!(sorts.len(), 2, "{}", line(&pair[0]));
        let lists = pair
            .iter()
            .map(|step| opened_by(&step.call, Call::Open))
            .collect::<Vec<Call>>();
        assert_eq!(lists[0], lists[1]);
        let answers = [0, 1].map(|k| answer_text(&pair[k].answer, &pair[k].after));
        assert_eq!(answers[0], answers[1]);
        assert!(pair.iter().all(|step| step.before == step.after));
        pairs.push(pair);
        k += 2;
    }
    pairs
}

fn locator_first(pair: &&[Step]) -> bool {
    matches!(pair[0].call, Call::Locate(..))
}

/// Of the random lists about half, whatever comes of them.
#[test]
fn lists_open_both_ways() {
    let pairs = pairs(steps());
    assert!(pairs.len() > 3000, "{}", pairs.len());
    let half = |holds: &dyn Fn(&Step) -> bool, least: usize| {
        let met: Vec<&[Step]> = pairs.iter().copied().filter(|p| holds(&p[0])).collect();
        let (all, first) = (met.len(), met.iter().filter(|p| locator_first(p)).count());
        assert!(all >= least, "{all}");
        assert!(4 * first > all && 4 * first < 3 * all, "{first} of {all}");
    };
    for width in [Narrow, Wide] {
        let of = |step: &Step| call_width(&step.call) == Some(width);
        let own = |step: &Step| of(step) && step.before.width == width;
        half(&|step| own(step) && step.answer.result.is_ok(), 500);
        half(&|step| own(step) && step.answer.result == Err(10), 100);
        half(&|step| own(step) && step.answer.result == Err(3), 50);
        half(&|step| own(step) && step.answer.result == Err(4), 50);
        half(&|step| own(step) && step.answer.result == Err(14), 20);
        half(&|step| of(step) && step.answer.result == Err(18), 50);
    }
    let at = |stage: Stage| move |step: &Step| step.before.stage == stage;
    for stage in [Stage::Waiting, Stage::Dealt, Stage::Reported, Stage::Closed] {
        half(&at(stage), 30);
    }
}

/// In each story that opens; if more than once, in both orders.
#[test]
fn stories_open_both_ways() {
    let mut opening = 0;
    for (name, steps) in stories() {
        let pairs = pairs(steps);
        let first = pairs.iter().filter(|pair| locator_first(pair)).count();
        assert_eq!(first, pairs.len() / 2, "{name}");
        opening += usize::from(!pairs.is_empty());
    }
    assert_eq!(opening, 50);
}
