//! What must come of the stories of refusals by the protocol.

use crate::calls::{call_name, call_text, line, Call, Step};
use crate::field::NOT_SENT;
use crate::stories_tests::{is_make, party, stories, story};
use std::collections::BTreeSet;

/// The refusals in turn, 0 for none.
pub fn refusals(steps: &[Step]) -> Vec<u8> {
    let number = |step: &Step| step.answer.result.as_ref().err().copied().unwrap_or(0);
    steps.iter().map(number).collect()
}

#[test]
fn refused_desk() {
    let steps = story("refused-desk");
    let wanted = [1, 1, 3, 3, 3, 3, 3, 3, 3, 3, 5, 5, 5, 0];
    assert_eq!(refusals(steps), wanted);
    let (last, refused) = steps.split_last().unwrap();
    for step in refused {
        assert!(step.answer.written.iter().all(|&number| number == NOT_SENT));
    }
    // The secret is -1.
    let deals = [
        1, 7, 2, 6, 3, 11, 5, 10, 5, 15, 8, 14, 7, 19, 11, 18, 9, 23, 14, 22,
    ];
    assert_eq!(last.answer.written, deals);
    let Call::Desk(desk) = &steps[1].call else {
        panic!("no desk");
    };
    assert_eq!((desk.n, desk.coefs[0]), (4, 65_521));
    assert!(steps.iter().all(|step| step.before == step.after));
}

/// Every call, and the making, has the same refusal.
#[test]
fn refused_badly_made() {
    for (i, refusal, make) in [(0, 1, "make 4 1 0"), (6, 2, "make 5 1 6")] {
        let steps = party("refused-made", i);
        assert_eq!(call_text(&steps[0].call), make);
        let sorts: BTreeSet<&str> = steps.iter().map(|step| call_name(&step.call)).collect();
        assert_eq!(sorts.len(), 6);
        assert_eq!(refusals(steps), vec![refusal; 16]);
        assert!(steps.iter().all(|step| step.after.stage as u8 == 0));
    }
}

/// Of what is asked at each stage: pairs for 0 to 6, lists too short, lists
/// of other stages.
#[test]
fn refused_at_each_stage() {
    let steps = party("refused-stages", 2);
    let waiting = [2, 4, 4, 4, 4, 4, 2, 3, 3, 3, 3, 4, 4, 4];
    let later = [2, 0, 0, 0, 0, 0, 2, 3, 3, 3, 3, 4, 4, 4];
    let parts = [
        ("make 5 1 2 = ok ; 0 0 0\n", [&[0], &waiting[..]].concat()),
        (
            "deal 11 11 13 10 = ok ; 1 0 0\n",
            [&[0], &later[..]].concat(),
        ),
        (
            "hear 23 22 65535 65535 43 44 53 55 63 66 = ok 29 ; 2 0 0\n",
            [&[0], &later[..], &[7]].concat(),
        ),
        (
            "settle 30 29 27 23 15 = ok ; 3 13 31\n",
            [&[0], &later[..], &[10, 0, 0]].concat(),
        ),
    ];
    let mut rest = steps;
    for (stage, (first, wanted)) in parts.into_iter().enumerate() {
        let (part, behind) = rest.split_at(wanted.len());
        assert_eq!(line(&part[0]), first);
        assert_eq!(refusals(part), wanted, "{stage}");
        assert!(part.iter().all(|step| step.after.stage as usize == stage));
        if stage > 0 {
            assert_eq!(values(&part[2..7]), SAID_BY_2);
        }
        rest = behind;
    }
    assert!(rest.is_empty());
    let altered = "settle 30 28 27 23 15 = refused 7 ; 2 0 0\n";
    assert!(steps.iter().any(|step| line(step) == altered));
    let opened: String = steps[steps.len() - 3..].iter().map(line).collect();
    let wanted = "open 65535 65535 65535 65535 65535 = refused 10 ; 3 13 31
open 10 13 16 19 22 = ok 7 ; 3 13 31
open 10 999 998 19 22 = ok 7 ; 3 13 31
";
    assert_eq!(opened, wanted);
}

/// The values that were answered, none refused.
fn values(steps: &[Step]) -> Vec<Vec<u32>> {
    let results = steps.iter().map(|step| step.answer.result.clone());
    results.map(Result::unwrap).collect()
}

/// F(j,2) and F(2,j), but for itself.
const SAID_BY_2: [[u32; 2]; 5] = [[22, 23], [NOT_SENT; 2], [44, 43], [55, 53], [66, 63]];

#[test]
fn refused_when_closed() {
    let steps = party("refused-closed", 2);
    let begun = [0, 0, 0, 7, 8];
    let closed = [2, 0, 0, 0, 0, 0, 2, 3, 3, 3, 3, 4, 4, 4, 4];
    assert_eq!(refusals(steps), [&begun[..], &closed].concat());
    assert_eq!(line(&steps[3]), "settle 0 31 0 0 0 = refused 7 ; 2 0 0\n");
    assert_eq!(line(&steps[4]), "settle 0 29 0 0 0 = refused 8 ; 4 0 0\n");
    assert_eq!(values(&steps[6..11]), SAID_BY_2);
    assert!(steps[4..].iter().all(|step| step.after == steps[4].after));
}

/// A refused call changes nothing, but 8 and 9 close.
#[test]
fn refusals_leave_all_as_it_was() {
    for step in stories().iter().flat_map(|story| &story.1) {
        match step.answer.result {
            Ok(_) | Err(8 | 9) => {}
            Err(_) if is_make(step) => {}
            Err(_) => assert!(step.before == step.after, "{}", line(step)),
        }
    }
}
