//! What must come of the stories of wide parties and of the other prime by the
//! protocol. F(x,y) = -1 + 65536x + 65521y + 1000000007xy.

use crate::calls::{call_width, lends_numbers, line, Step};
use crate::field::Width::{Narrow, Wide};
use crate::field::{WIDE_NOT_SENT, WIDE_P};
use crate::scenario::value_of_f;
use crate::stories_tests::{answers, asked, desk_lines, is_make, only_answer, parties, story};
use crate::story_refusals_tests::refusals;
use crate::story_runs_tests::{hear_each_other, pairs_heard};
use crate::story_wide::{SIXTEEN_WIDE_STATIONS, WIDE_F, WIDE_SIXTEEN, WIDE_STATIONS};

const PRIME: u32 = WIDE_P as u32;

/// F(i,0) = -1 + 65536i.
const SHARES: [u32; 5] = [65_535, 131_071, 196_607, 262_143, 327_679];

fn f(x: u64, y: u64) -> u32 {
    ((WIDE_P - 1 + 65_536 * x + 65_521 * y + 1_000_000_007 * x % WIDE_P * y) % WIDE_P) as u32
}

#[test]
fn wide_parties_hear_each_other() {
    for name in [
        "wide-honest",
        "wide-liar",
        "wide-repair",
        "wide-two-liars",
        "wide-rejected",
        "wide-sixteen",
        "wide-trap",
        "wide-stations",
        "wide-stations-sixteen",
    ] {
        hear_each_other(name);
        let wide = |step: &Step| call_width(&step.call) != Some(Narrow);
        assert!(story(name).iter().all(wide), "{name}");
    }
}

/// The lines are those of the narrow story, but for what is not sent and for
/// the calls' names.
fn same_as(name: &str, narrow: &str) {
    let lines = |name: &str| -> String { story(name).iter().map(line).collect() };
    let told = lines(name)
        .replace("wide-", "")
        .replace("4294967295", "65535");
    // The first lines show the party that the story before left.
    let from_make = |text: String| text[text.find("make").unwrap()..].to_string();
    assert_eq!(from_make(told), from_make(lines(narrow)), "{name}");
}

#[test]
fn small_numbers_are_as_ever() {
    same_as("wide-honest", "honest");
}

/// At the stages only the numbers of the other run differ.
#[test]
fn refusals_are_as_ever() {
    for name in ["refused-stages", "refused-closed"] {
        let wide = story(&format!("wide-{name}"));
        assert_eq!(refusals(wide), refusals(story(name)), "{name}");
    }
    let made = refusals(story("refused-made"));
    let wide = refusals(story("wide-refused-made"));
    assert_eq!(wide[..made.len()], made);
    let more = [1, 1, 1, 1, 2, 2, 1, 1, 2, 2, 0, 4];
    assert_eq!(wide[made.len()..], more);
}

/// Party 3's numbers for 4 are the right ones modulo the prime, and not sent.
#[test]
fn wide_liar() {
    let name = "wide-liar";
    assert_eq!(parties(name), [1, 2, 4, 5]);
    assert_eq!(pairs_heard(name, 1)[4..6], [1001, f(3, 1)]);
    assert_eq!(pairs_heard(name, 2)[4..6], [f(2, 3), 2002]);
    let added = [f(4, 3) + PRIME, f(3, 4) + PRIME];
    assert_eq!(pairs_heard(name, 4)[4..6], added);
    assert_eq!(pairs_heard(name, 5)[4..6], [PRIME, WIDE_NOT_SENT]);
    for i in [1, 2, 4, 5] {
        assert_eq!(asked(name, i, "settle"), ["settle 26 25 54321 19 11"]);
        let state = format!("3 {} 27", SHARES[i - 1]);
        assert_eq!(only_answer(name, i, "settle"), format!("ok ; {state}"));
        let opened = format!("ok 2147483646 ; {state}");
        assert_eq!(only_answer(name, i, "open"), opened);
    }
}

/// Party 5 repairs, with the points 1 to 5 and with the stations.
#[test]
fn wide_repairs() {
    let of_stations = WIDE_STATIONS.map(|x| f(x.into(), 0));
    assert_eq!(of_stations[0], PRIME - 65_537);
    for (name, shares) in [("wide-repair", SHARES), ("wide-stations", of_stations)] {
        assert_eq!(parties(name), [1, 2, 4, 5]);
        for i in [1, 2, 4, 5] {
            assert_eq!(asked(name, i, "settle"), ["settle 14 13 11 7 0"]);
            let state = format!("3 {} 15", shares[i - 1]);
            assert_eq!(only_answer(name, i, "settle"), format!("ok ; {state}"));
            let opened = format!("ok 2147483646 ; {state}");
            assert_eq!(only_answer(name, i, "open"), opened);
        }
        let said = answers(name, 5, "say");
        let nothing = "ok 4294967295 4294967295 ; 1 0 0";
        assert_eq!(said[..5], [nothing; 5]);
    }
    let table = "wide-desk-table 5 1 20 5 2147483646 65521 65536 1000000007 3 2147483646 65521";
    assert!(desk_lines("wide-stations")[0].starts_with(table));
}

#[test]
fn wide_two_liars() {
    let name = "wide-two-liars";
    assert_eq!(only_answer(name, 5, "settle"), "refused 9 ; 4 0 15");
    for i in [1, 4] {
        let state = format!("3 {} 15", SHARES[i - 1]);
        let opened = ["refused 10", "ok 2147483646", "ok 2147483646"];
        let wanted = opened.map(|answer| format!("{answer} ; {state}"));
        assert_eq!(answers(name, i, "open"), wanted);
    }
}

#[test]
fn wide_rejected_and_trap() {
    for name in ["wide-rejected", "wide-trap"] {
        assert_eq!(parties(name), [1, 2, 3, 4, 5]);
        for i in 1..=5 {
            assert_eq!(only_answer(name, i, "settle"), "refused 8 ; 4 0 0");
            assert_eq!(only_answer(name, i, "open"), "refused 4 ; 4 0 0");
        }
    }
    for i in [2, 3] {
        assert_eq!(only_answer("wide-trap", i, "hear"), "ok 0 ; 2 0 0");
    }
}

#[test]
fn wide_sixteen() {
    let one_to_n: Vec<u32> = (1..=16).collect();
    let honest = [1, 2, 3, 5, 6, 7, 8, 10, 11, 12, 13, 14, 15];
    for (name, table) in [
        ("wide-sixteen", &one_to_n[..]),
        ("wide-stations-sixteen", &SIXTEEN_WIDE_STATIONS),
    ] {
        assert_eq!(parties(name), honest);
        for i in honest {
            let share = value_of_f(Wide, &WIDE_SIXTEEN, 3, table[i - 1].into(), 0);
            let state = format!("3 {share} 32503");
            assert_eq!(only_answer(name, i, "settle"), format!("ok ; {state}"));
            let opened = format!("ok 1234567890 ; {state}");
            assert_eq!(only_answer(name, i, "open"), opened);
        }
    }
    let mut sorted = SIXTEEN_WIDE_STATIONS;
    sorted.sort_unstable();
    assert!(sorted.windows(2).all(|pair| pair[0] < pair[1]));
}

/// Numbers below the wide prime are said as they are; from it up not sent.
#[test]
fn wide_edges() {
    let steps = story("wide-edges");
    let said = [1, 2, 3, 4, 5, 6, 7, 8].map(|k| steps[3 * k - 1].answer.result.clone());
    let numbers = [65_520, 65_521, 65_535, 65_536, PRIME - 1];
    for (answer, number) in said.iter().zip(numbers) {
        assert_eq!(*answer, Ok(vec![number; 2]));
    }
    for answer in &said[5..] {
        assert_eq!(*answer, Ok(vec![WIDE_NOT_SENT; 2]));
    }
    let opened = refusals(&steps[steps.len() - 12..]);
    assert_eq!(opened, [0, 10, 0, 0, 10, 0, 0, 0, 10, 0, 0, 10]);
}

#[test]
fn wide_desk_and_tables() {
    let steps = story("wide-refused-desk");
    let wanted = [1, 1, 1, 1, 1, 3, 3, 3, 3, 5, 5, 5, 5, 0, 0];
    assert_eq!(refusals(steps), wanted);
    for step in &steps[..13] {
        let written = &step.answer.written;
        assert!(written.iter().all(|&number| number == WIDE_NOT_SENT));
    }
    let bad = [14, 14, 14, 14].repeat(7);
    let lengths = [3, 14, 3, 3].repeat(3);
    let rest = [1, 1, 1, 1, 2, 2, 1, 0, 4, 5, 0, 0, 4, 5, 0];
    let wanted = [&bad[..], &lengths, &rest].concat();
    assert_eq!(refusals(story("wide-refused-tables")), wanted);
    let narrow = refusals(story("refused-tables-calls"));
    assert_eq!(refusals(story("wide-refused-tables-calls")), narrow);
}

// ---- the other prime ----

/// At each stage nine calls of the other prime, all refused with 18, and then
/// the party goes on as if nothing had been between.
#[test]
fn the_other_prime_at_each_stage() {
    for (name, width) in [("widths-wide-party", Wide), ("widths-narrow-party", Narrow)] {
        let steps = story(name);
        let other =
            |step: &&Step| lends_numbers(&step.call) && call_width(&step.call) != Some(width);
        let (others, own): (Vec<&Step>, Vec<&Step>) = steps.iter().partition(other);
        assert_eq!(others.len(), 45);
        for step in others {
            assert_eq!(step.answer.result, Err(18), "{}", line(step));
            assert!(step.before == step.after);
        }
        let answers: Vec<u8> = own
            .iter()
            .map(|step| step.answer.result.as_ref().err().copied().unwrap_or(0))
            .collect();
        assert_eq!(answers, [0, 0, 0, 0, 0, 0, 0, 0, 8, 4, 0, 0, 0, 0, 0]);
        assert_eq!(own[4].answer.result, Ok(vec![7]));
    }
}

/// What each of the five parties answers to every call of the other prime, and
/// then to those of its own. Saying and settling are for both.
#[test]
fn order_of_the_other_prime() {
    let steps = story("widths-order");
    let makes: Vec<usize> = (0..steps.len()).filter(|&k| is_make(&steps[k])).collect();
    assert_eq!(makes.len(), 10);
    for (k, &start) in makes.iter().enumerate() {
        let end = makes.get(k + 1).copied().unwrap_or(steps.len());
        let calls = &steps[start + 1..end];
        let (other, own) = calls.split_at(calls.len() / 2);
        let lends = |step: &&Step| lends_numbers(&step.call);
        let refusal = |step: &Step| step.answer.result.as_ref().err().copied().unwrap_or(0);
        let wanted = [1, 2, 18, 18, 18][k % 5];
        assert!(other
            .iter()
            .filter(lends)
            .all(|step| refusal(step) == wanted));
        assert_eq!(other.iter().filter(lends).count(), 6);
        let first = refusal(&own[0]);
        assert_eq!(first, [1, 2, 14, 14, 0][k % 5]);
        let short = refusal(own.iter().rev().find(lends).unwrap());
        assert_eq!(short, [1, 2, 3, 3, 3][k % 5]);
    }
}

/// The desk does not ask for the party's width.
#[test]
fn desks_of_both_widths() {
    let steps = story("widths-desks");
    let of_party = [0, 0, 5, 14, 0, 0, 0];
    assert_eq!(refusals(steps), [of_party, of_party].concat());
    assert_eq!(WIDE_F[0], PRIME - 1);
}
