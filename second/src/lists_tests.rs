//! What the random lists of calls hold, and what the comparisons count.

use crate::calls::{call_name, call_width, lends_numbers, Call, Desk, Step};
use crate::cross;
use crate::cross_calls::{self, count_answers, never_met, Counts, Done, ANSWERS};
use crate::dealer::legal_size;
use crate::field::Width::{Narrow, Wide};
use crate::lists::random_lists;
use crate::outcome::{self, OUTCOMES};
use crate::stations::check_table;
use std::sync::OnceLock;

/// Enough lists for every kind of answer; the tests share them.
pub fn steps() -> &'static [Step] {
    static STEPS: OnceLock<Vec<Step>> = OnceLock::new();
    STEPS.get_or_init(|| random_lists(1, 3000).flatten().collect())
}

fn desks() -> Vec<&'static Desk> {
    let of_step = |step: &'static Step| match &step.call {
        Call::Desk(desk) | Call::DeskWith(desk, _) => Some(desk),
        _ => None,
    };
    steps().iter().filter_map(of_step).collect()
}

fn times(holds: impl Fn(&Desk) -> bool) -> usize {
    desks().into_iter().filter(|desk| holds(desk)).count()
}

fn wrong_size(desk: &Desk) -> bool {
    !legal_size(desk.n, desk.t)
}

fn wrong_list(desk: &Desk) -> bool {
    desk.coefs.len() != (desk.t + 1).saturating_mul(desk.t + 1)
}

fn wrong_room(desk: &Desk) -> bool {
    desk.room != (2 * desk.n).saturating_mul(desk.t + 1)
}

fn too_large(desk: &Desk) -> bool {
    desk.coefs.iter().any(|&c| !desk.width.is_sent(c))
}

/// An opening, which is asked for both ways, counts once.
#[test]
fn one_call_in_ten_is_the_desks() {
    let once = |step: &&Step| !matches!(step.call, Call::Locate(..));
    let (all, desks) = (steps().iter().filter(once).count(), desks().len());
    assert!((8 * all..12 * all).contains(&(100 * desks)), "{desks}");
}

/// Of the desks and of the parties that are made.
#[test]
fn a_third_is_wide() {
    for names in [["make", "wide-make"], ["desk", "wide-desk"]] {
        let [narrow, wide] = names.map(|name| {
            let named = |step: &&Step| call_name(&step.call).starts_with(name);
            steps().iter().filter(named).count()
        });
        let all = narrow + wide;
        assert!((28 * all..39 * all).contains(&(100 * wide)), "{names:?}");
    }
}

/// Calls for the other prime come to parties of both widths, at each stage, with
/// right and wrong lengths, and to parties that are badly made.
#[test]
fn the_other_prime_comes() {
    for width in [Narrow, Wide] {
        let refused = |refusal: u8, holds: &dyn Fn(&Step) -> bool| {
            let other = |step: &&Step| {
                let lends = lends_numbers(&step.call);
                lends && step.before.width == width && call_width(&step.call) != Some(width)
            };
            let so = |step: &&Step| step.answer.result == Err(refusal) && holds(step);
            steps().iter().filter(other).filter(so).count()
        };
        for stage in 0..=4 {
            let at = |step: &Step| step.before.stage as u8 == stage;
            assert!(refused(18, &at) >= 10, "{width:?} {stage}");
        }
        assert!(refused(1, &|_| true) >= 5 && refused(2, &|_| true) >= 5);
        let wrong_length = |step: &Step| match &step.call {
            Call::Deal(_, list) => list.len() != 2 * (step.before.t + 1),
            Call::Hear(_, list) => list.len() != 2 * step.before.n,
            Call::Open(_, list) | Call::Locate(_, list) => list.len() != step.before.n,
            _ => false,
        };
        assert!(refused(18, &wrong_length) >= 10);
        let bad = |step: &Step| check_table(width, &step.before.table).is_err();
        assert!(refused(18, &bad) >= 5);
    }
}

/// Most are right; each fault comes alone, and with the others.
#[test]
fn desks_of_every_sort() {
    let faults = |desk: &Desk| {
        [wrong_size, wrong_list, wrong_room, too_large]
            .iter()
            .filter(|fault| fault(desk))
            .count()
    };
    let all = desks().len();
    assert!(2 * times(|desk| faults(desk) == 0) > all);
    assert!(times(|desk| faults(desk) > 1) > 20);
    for fault in [wrong_size, wrong_list, wrong_room, too_large] {
        assert!(times(|desk| fault(desk) && faults(desk) == 1) >= 10);
        assert!(times(|desk| fault(desk) && faults(desk) > 1) >= 10);
    }
    for edge in [0, 1, 65_520, 65_521, 65_535] {
        let has = |desk: &Desk| desk.width == Narrow && desk.coefs.contains(&edge);
        assert!(times(has) >= 10, "{edge}");
    }
    let prime = 2_147_483_647;
    for edge in [
        0,
        1,
        65_520,
        65_521,
        65_536,
        prime - 1,
        prime,
        4_294_967_295,
    ] {
        let has = |desk: &Desk| desk.width == Wide && desk.coefs.contains(&edge);
        assert!(times(has) >= 10, "wide {edge}");
    }
    for t in 1..=3 {
        let least = times(|desk| desk.t == t && desk.n == 4 * t + 1);
        let most = times(|desk| desk.t == t && desk.n == 16);
        assert!(least >= 5 && most >= 5);
    }
}

/// For whom a party is made, with a table or without: n, t and i.
fn made_for() -> Vec<(usize, usize, usize)> {
    let numbers = |step: &Step| match step.call {
        Call::Make(_, n, t, i) | Call::MakeWith(_, n, t, i, _) => Some((n, t, i)),
        _ => None,
    };
    steps().iter().filter_map(numbers).collect()
}

/// Above 255 each of n, t, i and j comes, and also such as a reader of the
/// low byte alone would take for right.
#[test]
fn wide_numbers_come() {
    let count = |holds: &dyn Fn(&Call) -> bool| steps().iter().filter(|s| holds(&s.call)).count();
    let made = |holds: &dyn Fn(usize, usize, usize) -> bool| {
        let of = made_for().into_iter();
        of.filter(|&(n, t, i)| holds(n, t, i)).count()
    };
    let sly = |n: usize, t: usize| !legal_size(n, t) && legal_size(n % 256, t % 256);
    assert!(made(&|n, _, _| n > 255) >= 5);
    assert!(made(&|_, t, _| t > 255) >= 5);
    assert!(made(&|_, _, i| i > 255) >= 10);
    assert!(count(&|call| matches!(call, Call::Say(256..))) >= 10);
    assert!(count(&|call| matches!(call, Call::Say(257..=272))) >= 5);
    assert!(made(&|n, _, i| n <= 16 && (257..=272).contains(&i)) >= 5);
    assert!(made(&|n, t, _| sly(n, t)) >= 5);
    assert!(times(|desk| sly(desk.n, desk.t)) >= 5);
    // One of the two wide, the other right.
    assert!(made(&|n, t, _| (261..=272).contains(&n) && (1..=3).contains(&t)) >= 2);
    assert!(made(&|n, t, _| (5..=16).contains(&n) && (257..=259).contains(&t)) >= 2);
    // Above 65,535, and right to a reader of 16 bits.
    let sly = |n: usize, t: usize| n + t > 65_536 && legal_size(n % 65_536, t % 65_536);
    assert!(made(&|n, t, _| sly(n, t)) >= 2 && times(|desk| sly(desk.n, desk.t)) >= 2);
    assert!(made(&|n, _, i| n <= 16 && (65_537..=65_552).contains(&i)) >= 2);
    assert!(made(&|n, _, _| n == 4_294_967_295) >= 2);
}

// ---- what was never met ----

fn all_counts() -> Counts {
    let mut counts = Counts::new();
    count_answers(&mut counts, steps());
    counts
}

/// The list of answers is whole: each comes, and no other.
#[test]
fn every_answer_is_listed() {
    let counts = all_counts();
    assert_eq!(never_met(&counts), Vec::<String>::new());
    for (name, answer) in counts.keys() {
        let listed = ANSWERS.iter().find(|(call, _)| call == name).unwrap();
        assert!(listed.1.contains(answer), "{name} {answer}");
    }
    let listed: usize = ANSWERS.iter().map(|(_, answers)| answers.len()).sum();
    assert_eq!((listed, counts.len()), (154, 154));
}

/// So a list is answered the same wherever it stands in a stream.
#[test]
fn every_list_begins_with_a_making() {
    for list in random_lists(1, 1000) {
        let name = call_name(&list[0].call);
        assert!(name.starts_with("make") || name.starts_with("wide-make"));
        assert!(list.len() > 2);
    }
}

/// Each answer alone is missed from 1,000 lists on, and not below.
#[test]
fn lists_without_an_answer() {
    let done = |lists: usize, counts: Counts| Done {
        lists,
        calls: 9 * lists,
        counts,
        runs: 1,
    };
    assert!(cross_calls::success(3, &done(1000, all_counts()), 9).is_ok());
    for (name, answer) in all_counts().into_keys() {
        let mut counts = all_counts();
        counts.remove(&(name, answer));
        let text = cross_calls::success(3, &done(999, counts.clone()), 9).unwrap();
        assert!(text.starts_with("calls: 999 lists of "));
        let word = match answer {
            0 => "ok".to_string(),
            k => format!("refused-{k}"),
        };
        for lists in [1000, 5000] {
            let told = cross_calls::success(3, &done(lists, counts.clone()), 9).unwrap_err();
            let end = format!("among them never came: {name} {word}");
            assert_eq!(told, format!("{lists} lists are all alike, but {end}"));
        }
    }
}

/// The same for records. All that is missing is named.
#[test]
fn records_without_an_outcome() {
    let all = [1; OUTCOMES.len()];
    assert!(cross::success(3, 1000, 8, &all).is_ok());
    for (k, name) in OUTCOMES.iter().enumerate() {
        let mut counts = all;
        counts[k] = 0;
        assert_eq!(outcome::never_met(&counts), [name.to_string()]);
        let text = cross::success(3, 999, 8, &counts).unwrap();
        assert!(text.contains(&format!("       0 {name}\n")));
        let told = cross::success(3, 1000, 8, &counts).unwrap_err();
        let end = format!("all alike, but among them never came: {name}");
        assert_eq!(told, format!("seed 3, 1000 records are {end}"));
    }
    let mut counts = all;
    (counts[6], counts[8]) = (0, 0);
    let told = cross::success(3, 2000, 8, &counts).unwrap_err();
    assert!(told.ends_with("came: lamp refused 7; lamp refused 9"));
}
