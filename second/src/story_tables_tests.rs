//! What must come of the stories of refused tables, and of the table 1 to n.

use crate::calls::{answer_text, call_text, line, Call, Step};
use crate::field::NOT_SENT;
use crate::stories_tests::{is_make, story};
use crate::story_refusals_tests::refusals;

/// Eleven tables with a bad entry, six of another length, then those with other
/// things wrong besides, and two that are taken. Behind each making comes a
/// call.
#[test]
fn tables_refused_at_a_making() {
    let steps = story("refused-tables");
    let (makings, calls): (Vec<&Step>, Vec<&Step>) = steps.iter().partition(|s| is_make(s));
    let number = |step: &&Step| step.answer.result.as_ref().err().copied().unwrap_or(0);
    let made: Vec<u8> = makings.iter().map(number).collect();
    let later: Vec<u8> = calls.iter().map(number).collect();
    let others = [1, 1, 1, 2, 2, 2];
    let wanted = [&[14; 11][..], &[3; 6], &others, &[0, 0]];
    assert_eq!(made, wanted.concat());
    assert_eq!(later, [&[14; 17][..], &others, &[4, 4]].concat());
    assert!(steps.iter().all(|step| step.after.stage as u8 == 0));
    assert_eq!(
        call_text(&steps[0].call),
        "make-table 5 1 2 0 7 65520 3 21000"
    );
    assert_eq!(call_text(&steps[22].call), "make-table 5 1 2");
}

#[test]
fn tables_refused_at_the_desk() {
    let steps = story("refused-tables-desk");
    let wanted = [&[14; 11][..], &[3; 6], &[1, 1, 3, 3, 3, 3, 14, 5, 3, 0]];
    assert_eq!(refusals(steps), wanted.concat());
    let (last, refused) = steps.split_last().unwrap();
    for step in refused {
        assert!(step.answer.written.iter().all(|&number| number == NOT_SENT));
    }
    let dealt = "desk-table 5 1 20 5 40961 7 65520 3 21000 7 2 3 4 = ok 16408 32805 ";
    assert!(line(last).starts_with(dealt));
    assert!(steps.iter().all(|step| step.before == step.after));
}

/// 2, then 3, then 14, then 4: the three parties are asked for the same.
#[test]
fn a_bad_table_at_every_call() {
    let steps = story("refused-tables-calls");
    let says = |refusal: u8| [&[2], &[refusal; 5][..], &[2]].concat();
    let bad = [&says(14)[..], &[3; 12], &[14; 4]].concat();
    let good = [&says(4)[..], &[3; 12], &[4, 4, 4, 0]].concat();
    let parties: Vec<&[Step]> = steps.chunks(24).collect();
    assert_eq!(parties.len(), 3);
    for (steps, made, later) in [
        (parties[0], 14, &bad),
        (parties[1], 3, &bad),
        (parties[2], 0, &good),
    ] {
        assert!(is_make(&steps[0]));
        assert_eq!(refusals(steps), [&[made], &later[..]].concat());
    }
    assert_eq!(parties[0][1].after.table, [40_961, 7, 0, 3, 21_000]);
    assert_eq!(parties[1][1].after.table, [0; 5]);
    assert_eq!(call_text(&parties[0][23].call), "deal 0 0 0 0");
}

/// The answers and what is left are those of the same calls without a table.
fn same_as(name: &str, without: &str) {
    let (steps, plain) = (story(name), story(without));
    assert_eq!(steps.len(), plain.len());
    let first = steps.iter().position(is_make).unwrap();
    for (k, (with, plain)) in steps.iter().zip(plain).enumerate() {
        assert_eq!(with.answer, plain.answer, "{name} {k}");
        if k >= first {
            let text = answer_text(&with.answer, &with.after);
            assert_eq!(text, answer_text(&plain.answer, &plain.after));
            assert_eq!(with.after, plain.after);
        }
        match (&with.call, &plain.call) {
            (Call::MakeWith(width, n, t, i, table), Call::Make(..)) => {
                assert_eq!(plain.call, Call::Make(*width, *n, *t, *i));
                assert_eq!(table, &[1, 2, 3, 4, 5]);
            }
            (Call::DeskWith(desk, table), Call::Desk(_)) => {
                assert_eq!(plain.call, Call::Desk(desk.clone()));
                assert_eq!(table, &[1, 2, 3, 4, 5]);
            }
            (call, other) => assert_eq!(call, other),
        }
    }
}

#[test]
fn one_to_n_is_the_same_as_none() {
    same_as("one-to-n-unsound", "unsound");
    same_as("one-to-n-stages", "refused-stages");
}
