//! What must come of the stories of runs by the protocol, in numbers worked out
//! by hand.

use crate::calls::{line, Call};
use crate::field::Width::Narrow;
use crate::scenario::value_of_f;
use crate::stories_tests::{answers, asked, desk_lines, only_answer, parties, party, F_DEALT};
use crate::story_runs::SIXTEEN;
use std::collections::BTreeSet;

/// The stories of runs, in which a party hears what the others say.
const RUNS: [&str; 8] = [
    "honest",
    "liar",
    "unsound",
    "unsound-two-liars",
    "sixteen",
    "rejected",
    "trap",
    "trap-liar",
];

/// F(i,0) = 7 + 3i.
const SHARES: [u32; 5] = [10, 13, 16, 19, 22];

pub fn pairs_heard(name: &str, i: usize) -> Vec<u32> {
    let heard = party(name, i).iter().find_map(|step| match &step.call {
        Call::Hear(_, list) => Some(list.clone()),
        _ => None,
    });
    heard.expect("a hearing")
}

#[test]
fn honest_party_1_call_by_call() {
    let lines: String = party("honest", 1).iter().map(line).collect();
    let wanted = "make 5 1 1 = ok ; 0 0 0
deal 9 7 10 6 = ok ; 1 0 0
say 1 = ok 65535 65535 ; 1 0 0
say 2 = ok 23 22 ; 1 0 0
say 3 = ok 30 28 ; 1 0 0
say 4 = ok 37 34 ; 1 0 0
say 5 = ok 44 40 ; 1 0 0
hear 65535 65535 22 23 28 30 34 37 40 44 = ok 30 ; 2 0 0
settle 30 29 27 23 15 = ok ; 3 10 31
open 10 13 16 19 22 = ok 7 ; 3 10 31
open 10 13 999 19 22 = ok 7 ; 3 10 31
open 10 13 999 998 22 = refused 10 ; 3 10 31
";
    assert_eq!(lines, wanted);
}

#[test]
fn honest_all_hold_and_open() {
    assert_eq!(desk_lines("honest"), [F_DEALT]);
    assert_eq!(parties("honest"), [1, 2, 3, 4, 5]);
    for i in 1..=5 {
        let state = format!("3 {} 31", SHARES[i - 1]);
        assert_eq!(only_answer("honest", i, "settle"), format!("ok ; {state}"));
        let opened = answers("honest", i, "open");
        assert_eq!(opened[0], format!("ok 7 ; {state}"));
        assert_eq!(opened.len(), if i == 1 { 3 } else { 1 });
    }
}

/// Happy are 1, 2, 4 and 5; party 3's claims and its share do nothing.
#[test]
fn liar_is_done_without() {
    assert_eq!(desk_lines("liar"), [F_DEALT]);
    assert_eq!(parties("liar"), [1, 2, 4, 5]);
    let mut heard = BTreeSet::new();
    for (i, report) in [(1, 26), (2, 25), (4, 19), (5, 11)] {
        let hear = format!("ok {report} ; 2 0 0");
        assert_eq!(only_answer("liar", i, "hear"), hear);
        assert_eq!(asked("liar", i, "settle"), ["settle 26 25 54321 19 11"]);
        let state = format!("3 {} 27", SHARES[i - 1]);
        assert_eq!(only_answer("liar", i, "settle"), format!("ok ; {state}"));
        assert_eq!(asked("liar", i, "open"), ["open 10 13 999 19 22"]);
        assert_eq!(only_answer("liar", i, "open"), format!("ok 7 ; {state}"));
        heard.extend(pairs_heard("liar", i)[4..6].to_vec());
    }
    assert_eq!(heard.len(), 8, "each listener is told other numbers");
    // One of the two is right for 1 and for 2: F(3,1) and F(2,3).
    assert_eq!(pairs_heard("liar", 1)[4..6], [1001, 30]);
    assert_eq!(pairs_heard("liar", 2)[4..6], [43, 2002]);
}

/// 17 + 24*5 is not 22 + 22*5.
#[test]
fn unsound_party_5_repairs() {
    let name = "unsound";
    assert_eq!(desk_lines(name), [F_DEALT]);
    assert_eq!(parties(name), [1, 2, 4, 5]);
    assert_eq!(asked(name, 5, "deal"), ["deal 17 24 22 22"]);
    let said = answers(name, 5, "say");
    assert_eq!(said[..5], ["ok 65535 65535 ; 1 0 0"; 5]);
    assert_eq!(said[5..], ["ok 65535 65535 ; 3 22 15"; 5]);
    let heard = "hear 44 40 66 63 1234 5678 110 109 65535 65535";
    assert_eq!(asked(name, 5, "hear"), [heard]);
    assert_eq!(only_answer(name, 5, "hear"), "ok 0 ; 2 0 0");
    for i in [1, 2, 4, 5] {
        assert_eq!(asked(name, i, "settle"), ["settle 14 13 11 7 0"]);
        let state = format!("3 {} 15", SHARES[i - 1]);
        assert_eq!(only_answer(name, i, "settle"), format!("ok ; {state}"));
        assert_eq!(asked(name, i, "open"), ["open 10 13 999 19 22"]);
        assert_eq!(only_answer(name, i, "open"), format!("ok 7 ; {state}"));
    }
}

/// Of 44, 4321, 1234, 110 no three lie on a line.
#[test]
fn unsound_with_two_liars_fits_no_column() {
    let name = "unsound-two-liars";
    assert_eq!(parties(name), [1, 4, 5]);
    let heard = "hear 44 40 4321 5678 1234 5678 110 109 65535 65535";
    assert_eq!(asked(name, 5, "hear"), [heard]);
    assert_eq!(asked(name, 5, "settle"), ["settle 14 15 15 7 0"]);
    assert_eq!(only_answer(name, 5, "settle"), "refused 9 ; 4 0 15");
    assert_eq!(only_answer(name, 5, "open"), "refused 4 ; 4 0 15");
    let said = answers(name, 5, "say");
    assert_eq!(said[5..], ["ok 65535 65535 ; 4 0 15"; 5]);
    for i in [1, 4] {
        let state = format!("3 {} 15", SHARES[i - 1]);
        assert_eq!(only_answer(name, i, "settle"), format!("ok ; {state}"));
        let lists = [
            "open 10 998 999 19 65535",
            "open 10 998 999 19 22",
            "open 10 13 999 19 65535",
            "open 10 13 16 19 65535",
        ];
        assert_eq!(asked(name, i, "open"), lists);
        let opened = ["refused 10", "refused 10", "ok 7", "ok 7"];
        let wanted = opened.map(|answer| format!("{answer} ; {state}"));
        assert_eq!(answers(name, i, "open"), wanted);
    }
}

/// 32503 has a zero for 4, 9 and 16 alone.
#[test]
fn sixteen_with_three_liars() {
    let honest = [1, 2, 3, 5, 6, 7, 8, 10, 11, 12, 13, 14, 15];
    assert_eq!(parties("sixteen"), honest);
    for i in honest {
        let report = 32_503 & !(1u16 << (i - 1));
        let hear = format!("ok {report} ; 2 0 0");
        assert_eq!(only_answer("sixteen", i, "hear"), hear);
        let share = value_of_f(Narrow, &SIXTEEN, 3, i as u64, 0);
        let state = format!("3 {share} 32503");
        assert_eq!(only_answer("sixteen", i, "settle"), format!("ok ; {state}"));
        let opened = format!("ok 31337 ; {state}");
        assert_eq!(only_answer("sixteen", i, "open"), opened);
        let Call::Settle(reports) = &party("sixteen", i)[19].call else {
            panic!("no settling");
        };
        assert_eq!([reports[3], reports[8], reports[15]], [65_535; 3]);
    }
    // 31337 + 65519i + 777i² + 9i³ for i = 1, 2 and 15.
    for (i, share) in [(1, 32_121), (2, 34_513), (15, 39_944)] {
        let settled = format!("ok ; 3 {share} 32503");
        assert_eq!(only_answer("sixteen", i, "settle"), settled);
    }
}

/// The liars' numbers are many and not those of F, published ones included.
#[test]
fn sixteen_numbers_are_drawn() {
    let mut drawn: BTreeSet<u32> = BTreeSet::new();
    let mut published = BTreeSet::new();
    for i in parties("sixteen") {
        let pairs = pairs_heard("sixteen", i);
        for j in [4, 9, 16] {
            let (x, y) = (i as u64, j as u64);
            assert_ne!(
                u64::from(pairs[2 * j - 2]),
                value_of_f(Narrow, &SIXTEEN, 3, x, y)
            );
            assert_ne!(
                u64::from(pairs[2 * j - 1]),
                value_of_f(Narrow, &SIXTEEN, 3, y, x)
            );
            drawn.extend(&pairs[2 * j - 2..2 * j]);
        }
        published.extend(asked("sixteen", i, "open"));
    }
    assert!(drawn.len() > 70, "{}", drawn.len());
    assert_eq!(published.len(), 1, "one list is published for all");
    let list = published.into_iter().next().unwrap();
    let words: Vec<&str> = list.split(' ').collect();
    for j in [4, 9, 16] {
        let share = value_of_f(Narrow, &SIXTEEN, 3, j as u64, 0);
        assert_ne!(words[j], share.to_string());
    }
}

#[test]
fn rejected_dealer() {
    let other = "desk 5 1 20 1000 20 300 65520 = ok 1020 299 1300 19 1040 298 1600 18 \
                 1060 297 1900 17 1080 296 2200 16 1100 295 2500 15";
    assert_eq!(desk_lines("rejected"), [F_DEALT, other]);
    assert_eq!(parties("rejected"), [1, 2, 3, 4, 5]);
    assert_eq!(asked("rejected", 2, "deal"), ["deal 11 11 13 10"]);
    assert_eq!(asked("rejected", 3, "deal"), ["deal 1060 297 1900 17"]);
    for (i, report) in [(1, 2), (2, 1), (3, 24), (4, 20), (5, 12)] {
        let hear = format!("ok {report} ; 2 0 0");
        assert_eq!(only_answer("rejected", i, "hear"), hear);
        assert_eq!(asked("rejected", i, "settle"), ["settle 2 1 24 20 12"]);
        assert_eq!(only_answer("rejected", i, "settle"), "refused 8 ; 4 0 0");
        assert_eq!(only_answer("rejected", i, "open"), "refused 4 ; 4 0 0");
        // What a closed party says is what it said when dealt.
        let said = answers("rejected", i, "say");
        let before: Vec<String> = said[..5]
            .iter()
            .map(|answer| answer.replace("; 1 0 0", "; 4 0 0"))
            .collect();
        assert_eq!(said[5..], before);
    }
    assert_eq!(answers("rejected", 1, "say")[6], "ok 23 22 ; 4 0 0");
    assert_eq!(answers("rejected", 3, "say")[5], "ok 1357 1917 ; 4 0 0");
}

// ---- the trap ----

/// Parties 2 and 3 find their deals unsound: they say and report nothing.
fn two_and_three_are_unsound(name: &str) {
    assert_eq!(desk_lines(name), Vec::<String>::new());
    assert_eq!(asked(name, 1, "deal"), ["deal 0 0 0 0"]);
    assert_eq!(asked(name, 2, "deal"), ["deal 0 0 65520 1"]);
    assert_eq!(asked(name, 3, "deal"), ["deal 65519 2 0 0"]);
    for i in [2, 3] {
        assert_eq!(answers(name, i, "say"), ["ok 65535 65535 ; 1 0 0"; 5]);
        assert_eq!(only_answer(name, i, "hear"), "ok 0 ; 2 0 0");
    }
    assert_eq!(answers(name, 1, "say")[1], "ok 0 0 ; 1 0 0");
    for i in parties(name) {
        assert_eq!(only_answer(name, i, "settle"), "refused 8 ; 4 0 0");
        assert_eq!(only_answer(name, i, "open"), "refused 4 ; 4 0 0");
    }
}

#[test]
fn trap_of_the_own_crossing() {
    two_and_three_are_unsound("trap");
    assert_eq!(parties("trap"), [1, 2, 3, 4, 5]);
    assert_eq!(asked("trap", 1, "settle"), ["settle 24 0 0 17 9"]);
}

/// Party 4 confirms to each what it holds: 65520+4 and 65519+8 are 3 and 6.
#[test]
fn trap_with_a_liar() {
    two_and_three_are_unsound("trap-liar");
    assert_eq!(parties("trap-liar"), [1, 2, 3, 5]);
    assert_eq!(asked("trap-liar", 1, "settle"), ["settle 24 0 0 65535 9"]);
    for (i, pair) in [(1, [0, 0]), (2, [3, 0]), (3, [0, 6]), (5, [0, 0])] {
        assert_eq!(pairs_heard("trap-liar", i)[6..8], pair);
    }
}

// ---- what is said is what is heard ----

/// Each pair that a party says is the one that the other hears, and its own
/// report stands in the list that all settle by.
pub fn hear_each_other(name: &str) {
    let mut lists = BTreeSet::new();
    for j in parties(name) {
        lists.extend(asked(name, j, "settle"));
        let mut said = BTreeSet::new();
        for step in party(name, j) {
            let Call::Say(i) = step.call else { continue };
            said.insert(i);
            let pair = step.answer.result.clone().unwrap();
            if parties(name).contains(&i) {
                let heard = pairs_heard(name, i);
                assert_eq!(heard[2 * j - 2..2 * j], pair, "{name} {j} {i}");
            }
            if i == j {
                assert_eq!(pair, [step.before.width.not_sent(); 2]);
            }
        }
        let n = pairs_heard(name, j).len() / 2;
        assert_eq!(said.len(), n, "{name} {j}");
        let settle = asked(name, j, "settle");
        let own = settle[0].split(' ').nth(j).unwrap();
        let report = format!("ok {own} ; 2 0 0");
        assert_eq!(only_answer(name, j, "hear"), report);
    }
    assert_eq!(lists.len(), 1, "{name}");
}

#[test]
fn honest_parties_hear_each_other() {
    RUNS.into_iter().for_each(hear_each_other);
}
