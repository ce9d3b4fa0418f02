//! What must come of the stories with station numbers by the protocol, in
//! numbers worked out by hand. F(x,y) = 7 + 3x + 2y + 4xy at the stations
//! 40961, 7, 65520 (which is -1), 3 and 21000.

use crate::calls::line;
use crate::field::Width::Narrow;
use crate::field::P;
use crate::scenario::value_of_f;
use crate::stations::STATIONS;
use crate::stories_tests::{answers, asked, desk_lines, only_answer, parties, party};
use crate::story_runs::SIXTEEN;
use crate::story_runs_tests::{hear_each_other, pairs_heard};
use crate::story_stations::{LAST_ENTRY_OFF, REORDERED, SIXTEEN_STATIONS};
use std::collections::BTreeSet;

const DEALT: &str = "desk-table 5 1 20 5 40961 7 65520 3 21000 7 2 3 4 = ok \
                     16408 32805 57369 32804 21 31 28 30 5 65520 4 65519 13 15 16 14 \
                     42007 18482 63007 18481";

/// F(x,0) = 7 + 3x.
const SHARES: [u32; 5] = [57_369, 28, 4, 16, 63_007];

/// F, once more and by the formula.
fn f(x: u32, y: u32) -> u32 {
    let (x, y) = (u64::from(x), u64::from(y));
    ((7 + 3 * x + 2 * y + 4 * x * y) % P) as u32
}

/// Every pair that is heard from a party other than these is F at the stations.
fn pairs_are_those_of_f(name: &str, table: &[u32], liars: &[usize]) {
    for i in parties(name) {
        let heard = pairs_heard(name, i);
        for j in (1..=5).filter(|j| *j != i && !liars.contains(j)) {
            let (x, y) = (table[i - 1], table[j - 1]);
            assert_eq!(
                heard[2 * j - 2..2 * j],
                [f(x, y), f(y, x)],
                "{name} {i} {j}"
            );
        }
    }
}

#[test]
fn parties_with_tables_hear_each_other() {
    for name in [
        "stations-liar",
        "stations-repair",
        "stations-two-liars",
        "stations-order",
        "stations-sixteen",
        "stations-trap",
        "stations-other-table",
        "stations-one-entry",
    ] {
        hear_each_other(name);
    }
}

#[test]
fn stations_party_2_call_by_call() {
    let lines: String = party("stations-liar", 2).iter().map(line).collect();
    let wanted = "make-table 5 1 2 40961 7 65520 3 21000 = ok ; 0 0 0
deal 21 31 28 30 = ok ; 1 0 0
say 1 = ok 24913 49480 ; 1 0 0
say 2 = ok 65535 65535 ; 1 0 0
say 3 = ok 65511 65519 ; 1 0 0
say 4 = ok 114 118 ; 1 0 0
say 5 = ok 61332 40339 ; 1 0 0
hear 49480 24913 65535 65535 65519 2002 118 114 40339 61332 = ok 25 ; 2 0 0
settle 26 25 54321 19 11 = ok ; 3 28 27
open 57369 28 999 16 63007 = ok 7 ; 3 28 27
";
    assert_eq!(lines, wanted);
}

#[test]
fn stations_do_without_the_liar() {
    let name = "stations-liar";
    assert_eq!(desk_lines(name), [DEALT]);
    assert_eq!(parties(name), [1, 2, 4, 5]);
    pairs_are_those_of_f(name, &STATIONS, &[3]);
    for i in [1, 2, 4, 5] {
        let state = format!("3 {} 27", SHARES[i - 1]);
        assert_eq!(only_answer(name, i, "settle"), format!("ok ; {state}"));
        assert_eq!(only_answer(name, i, "open"), format!("ok 7 ; {state}"));
    }
    // One of the two is right for 1 and for 2.
    assert_eq!(f(65_520, 40_961), 49_124);
    assert_eq!(f(7, 65_520), 65_519);
    assert_eq!(pairs_heard(name, 1)[4..6], [1001, 49_124]);
    assert_eq!(pairs_heard(name, 2)[4..6], [65_519, 2002]);
}

/// The row 42007, 18483 misses the column 63007, 18481 at 21000.
#[test]
fn stations_party_5_repairs() {
    let name = "stations-repair";
    assert_eq!(desk_lines(name), [DEALT]);
    assert_eq!(parties(name), [1, 2, 4, 5]);
    pairs_are_those_of_f(name, &STATIONS, &[3, 5]);
    assert_eq!(asked(name, 5, "deal"), ["deal 42007 18483 63007 18481"]);
    let said = answers(name, 5, "say");
    assert_eq!(said[..5], ["ok 65535 65535 ; 1 0 0"; 5]);
    assert_eq!(said[5..], ["ok 65535 65535 ; 3 63007 15"; 5]);
    let heard = "hear 33614 53575 61332 40339 1234 5678 52929 31932 65535 65535";
    assert_eq!(asked(name, 5, "hear"), [heard]);
    for i in [1, 2, 4, 5] {
        assert_eq!(asked(name, i, "settle"), ["settle 14 13 11 7 0"]);
        let state = format!("3 {} 15", SHARES[i - 1]);
        assert_eq!(only_answer(name, i, "settle"), format!("ok ; {state}"));
        assert_eq!(asked(name, i, "open"), ["open 57369 28 999 16 63007"]);
        assert_eq!(only_answer(name, i, "open"), format!("ok 7 ; {state}"));
    }
}

/// Two of the four first numbers that party 5 may repair from are wrong.
#[test]
fn stations_two_liars_fit_no_column() {
    let name = "stations-two-liars";
    assert_eq!(parties(name), [1, 4, 5]);
    assert_eq!(pairs_heard(name, 5)[2..6], [4321, 5678, 1234, 5678]);
    assert_eq!(only_answer(name, 5, "settle"), "refused 9 ; 4 0 15");
    assert_eq!(only_answer(name, 5, "open"), "refused 4 ; 4 0 15");
    for i in [1, 4] {
        let state = format!("3 {} 15", SHARES[i - 1]);
        let opened = ["refused 10", "ok 7", "ok 7"];
        let wanted = opened.map(|answer| format!("{answer} ; {state}"));
        assert_eq!(answers(name, i, "open"), wanted);
    }
}

/// Each station keeps its deal and its share, which stand in other places.
#[test]
fn another_order_opens_the_same() {
    let name = "stations-order";
    let mut sorted = [STATIONS, REORDERED];
    sorted.iter_mut().for_each(|table| table.sort_unstable());
    assert_eq!(sorted[0], sorted[1]);
    let dealt = "desk-table 5 1 20 5 3 65520 40961 21000 7 7 2 3 4 = ok 13 15 16 14 \
                 5 65520 4 65519 16408 32805 57369 32804 42007 18482 63007 18481 21 31 28 30";
    assert_eq!(desk_lines(name), [dealt]);
    assert_ne!(desk_lines(name), desk_lines("stations-liar"));
    assert_eq!(parties(name), [1, 2, 3, 4, 5]);
    pairs_are_those_of_f(name, &REORDERED, &[]);
    let shares = [16, 4, 57_369, 63_007, 28];
    for i in 1..=5 {
        let state = format!("3 {} 31", shares[i - 1]);
        assert_eq!(answers(name, i, "open")[0], format!("ok 7 ; {state}"));
    }
    // The shares in the order of the other table.
    assert_eq!(asked(name, 1, "open")[1], "open 57369 28 4 16 63007");
    assert_eq!(answers(name, 1, "open")[1], "refused 10 ; 3 16 31");
}

/// 32503 has a zero for 4, 9 and 16 alone.
#[test]
fn sixteen_stations_with_three_liars() {
    let name = "stations-sixteen";
    let honest = [1, 2, 3, 5, 6, 7, 8, 10, 11, 12, 13, 14, 15];
    assert_eq!(parties(name), honest);
    for i in honest {
        let x = u64::from(SIXTEEN_STATIONS[i - 1]);
        let state = format!("3 {} 32503", value_of_f(Narrow, &SIXTEEN, 3, x, 0));
        assert_eq!(only_answer(name, i, "settle"), format!("ok ; {state}"));
        assert_eq!(only_answer(name, i, "open"), format!("ok 31337 ; {state}"));
        let heard = pairs_heard(name, i);
        for j in honest.into_iter().filter(|&j| j != i) {
            let y = u64::from(SIXTEEN_STATIONS[j - 1]);
            let pair = [(x, y), (y, x)].map(|(x, y)| value_of_f(Narrow, &SIXTEEN, 3, x, y) as u32);
            assert_eq!(heard[2 * j - 2..2 * j], pair);
        }
    }
    // 31337 + 65519x + 777x² + 9x³ for x = -1, 2 and 1.
    for (i, share) in [(1, 32_107), (2, 34_513), (5, 32_121)] {
        let settled = format!("ok ; 3 {share} 32503");
        assert_eq!(only_answer(name, i, "settle"), settled);
    }
}

/// Of parties 1, 2 and 3 all six cross values agree: party 3's row at station 7
/// and party 2's column at station 65520 are the same, and all others are 0.
#[test]
fn trap_at_the_stations() {
    let name = "stations-trap";
    assert_eq!(asked(name, 2, "deal"), ["deal 0 0 48152 24567"]);
    assert_eq!(asked(name, 3, "deal"), ["deal 48235 24559 0 0"]);
    let at = |constant: u64, slope: u64, x: u64| (constant + slope * x) % P;
    assert_eq!(at(48_152, 24_567, 65_520), at(48_235, 24_559, 7));
    assert_eq!(at(48_152, 24_567, 40_961), 0);
    assert_eq!(at(48_235, 24_559, 40_961), 0);
    for i in [2, 3] {
        assert_eq!(answers(name, i, "say"), ["ok 65535 65535 ; 1 0 0"; 5]);
        assert_eq!(only_answer(name, i, "hear"), "ok 0 ; 2 0 0");
    }
    for i in 1..=5 {
        assert_eq!(asked(name, i, "settle"), ["settle 24 0 0 17 9"]);
        assert_eq!(only_answer(name, i, "settle"), "refused 8 ; 4 0 0");
    }
}

/// 21 + 31*65520 is not 28 + 30*65520: party 2 finds its deal unsound, and no
/// column fits what it hears at the wrong points. The others do without it.
#[test]
fn another_table_than_the_others() {
    let name = "stations-other-table";
    assert_eq!(parties(name), [1, 3, 4, 5, 2]);
    let make = "make-table 5 1 2 3 65520 40961 21000 7";
    assert_eq!(asked(name, 2, "make-table"), [make]);
    assert_eq!(asked(name, 2, "deal"), ["deal 21 31 28 30"]);
    assert_eq!(answers(name, 2, "say"), ["ok 65535 65535 ; 1 0 0"; 5]);
    assert_eq!(only_answer(name, 2, "settle"), "refused 9 ; 4 0 29");
    pairs_are_those_of_f(name, &STATIONS, &[2]);
    for i in [1, 3, 4, 5] {
        assert_eq!(asked(name, i, "settle"), ["settle 28 0 25 21 13"]);
        let opened = format!("ok 7 ; 3 {} 29", SHARES[i - 1]);
        assert_eq!(only_answer(name, i, "open"), opened);
    }
}

/// Party 2 takes 20999 for party 5's station: they do not agree, 2 is happy by
/// the tie rule and 5 repairs. Party 2's pair for 5 is F at 20999, one lie.
#[test]
fn one_entry_is_as_one_lie() {
    let name = "stations-one-entry";
    assert_eq!(parties(name), [1, 3, 4, 5, 2]);
    assert_eq!(asked(name, 1, "settle"), ["settle 30 13 27 23 13"]);
    assert_eq!(LAST_ENTRY_OFF[4], 20_999);
    assert_eq!(pairs_heard(name, 5)[2..4], [f(20_999, 7), f(7, 20_999)]);
    assert_eq!(only_answer(name, 2, "hear"), "ok 13 ; 2 0 0");
    let mut makes = BTreeSet::new();
    for i in 1..=5 {
        let state = format!("3 {} 15", SHARES[i - 1]);
        assert_eq!(only_answer(name, i, "settle"), format!("ok ; {state}"));
        assert_eq!(only_answer(name, i, "open"), format!("ok 7 ; {state}"));
        makes.extend(asked(name, i, "make-table"));
    }
    assert_eq!(
        makes.iter().filter(|make| make.ends_with(" 20999")).count(),
        1
    );
}
