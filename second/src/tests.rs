//! The example, the cases M1 to M12 and the traps, by their numbers.

use crate::bench::run;
use crate::calls::{apply, line, step, Call, Desk};
use crate::clique::{agreements, happy_set, members, verdict};
use crate::dealer::{deal, legal_size};
use crate::field::Width::{Narrow, Wide};
use crate::field::{NOT_SENT, P};
use crate::fit::open_all;
use crate::named::{example, honest, F};
use crate::party::{Party, Stage};
use crate::record::{read, write, Record, HEAD};
use crate::scenario::honest_deals;
use crate::short_inputs::example_calls;

fn honest_record() -> Record {
    honest(5, 1, &F)
}

const EXAMPLE: &str = "size 5 1
dealer accepted
happy 1 2 3 4 5
lamp 1 share 10
lamp 2 share 13
lamp 3 share 16
lamp 4 share 19
lamp 5 share 22
opened 7
";

fn example_bytes() -> Vec<u8> {
    write(&example())
}

/// The reports of five parties of which only the given pairs disagree.
fn reports_without(edges: &[(usize, usize)]) -> Vec<u16> {
    let mut reports: Vec<u16> = (0..5).map(|i| 0b11111 & !(1 << i)).collect();
    for &(a, b) in edges {
        reports[a - 1] &= !(1 << (b - 1));
        reports[b - 1] &= !(1 << (a - 1));
    }
    reports
}

fn stretch(i: usize) -> Vec<u32> {
    honest_deals(Narrow, 5, 1, &F)[(i - 1) * 4..i * 4].to_vec()
}

/// Party 5, dealt by F, hearing the given first numbers from parties 1 to 4
/// and right second ones except a wrong one from party 4.
fn party_5_hearing(firsts: [u32; 4]) -> Party {
    let (mut party, _) = Party::make(Narrow, 5, 1, 5);
    party.take_deal(&stretch(5)).unwrap();
    let mut pairs = vec![NOT_SENT; 10];
    for (k, first) in firsts.into_iter().enumerate() {
        pairs[2 * k] = first;
        pairs[2 * k + 1] = 17 + 23 * (k as u32 + 1);
    }
    pairs[7] += 1;
    party.hear(&pairs).unwrap();
    party
}

#[test]
fn example_prints_nine_lines() {
    assert_eq!(run(&example_bytes()), EXAMPLE);
}

#[test]
fn example_bytes_are_as_described() {
    let bytes = example_bytes();
    let head = [
        5, 1, 0, 18, 0, 40, 0, 58, 0, 100, 0, 158, 0, 10, 0, 168, 0, 10,
    ];
    assert_eq!(bytes[..HEAD], head);
    assert_eq!(bytes.len(), 178);
    assert_eq!(bytes[18..26], [0, 9, 0, 7, 0, 10, 0, 6]);
    // Receiver 1, sender 2: row of 2 at 1 is F(1,2), column of 2 at 1 F(2,1).
    assert_eq!(bytes[62..66], [0, 22, 0, 23]);
    assert_eq!(bytes[172..174], [3, 231]);
}

#[test]
fn m1_and_m2_deals() {
    assert_eq!(stretch(1), [9, 7, 10, 6]);
    assert_eq!(stretch(5), [17, 23, 22, 22]);
}

#[test]
fn m3_to_m6_openings() {
    assert_eq!(open_all(Narrow, &[10, 13, 999, 19, 22], 1), Ok(7));
    assert_eq!(open_all(Narrow, &[10, 13, 999, 998, 22], 1), Err(10));
    assert_eq!(open_all(Narrow, &[NOT_SENT; 5], 1), Err(10));
    assert_eq!(open_all(Narrow, &[0; 5], 1), Ok(0));
}

#[test]
fn m7_repair() {
    let reports = reports_without(&[(4, 5)]);
    assert_eq!(members(verdict(&reports, 1).0), [1, 2, 3, 4]);
    let mut party = party_5_hearing([44, 66, 88, 110]);
    assert_eq!(party.report, reports[4]);
    assert_eq!(party.settle(&reports), Ok(()));
    assert_eq!((party.share, party.happy), (22, 0b01111));
    assert_eq!(party.stage, Stage::Holding);
}

#[test]
fn m8_repair_through_a_lie() {
    let mut party = party_5_hearing([44, 66, 0, 110]);
    let mut reports = reports_without(&[(4, 5)]);
    reports[4] = party.report;
    assert_eq!(party.settle(&reports), Ok(()));
    assert_eq!((party.share, party.happy), (22, 0b01111));
}

#[test]
fn two_lies_give_9_and_keep_the_set() {
    let mut party = party_5_hearing([44, 65, 0, 110]);
    let mut reports = reports_without(&[(4, 5)]);
    reports[4] = party.report;
    assert_eq!(party.settle(&reports), Err(9));
    assert_eq!(party.stage, Stage::Closed);
    assert_eq!((party.share, party.happy), (0, 0b01111));
    // Closed still says its pair, and takes nothing more.
    assert_eq!(party.say(1), Ok((40, 44)));
    assert_eq!(party.settle(&reports), Err(4));
    assert_eq!(party.open(&[0; 5]), Err(4));
}

#[test]
fn m9_and_m10_verdicts() {
    assert!(!verdict(&reports_without(&[(1, 2), (3, 4)]), 1).1);
    let (happy, accepted) = verdict(&reports_without(&[(1, 2), (1, 3)]), 1);
    assert!(accepted);
    assert_eq!(members(happy), [2, 3, 4, 5]);
}

#[test]
fn m11_sizes() {
    for (n, t) in [(5, 1), (9, 2), (13, 3), (16, 3)] {
        assert!(legal_size(n, t));
    }
    for (n, t) in [(4, 1), (8, 2), (12, 3), (17, 3), (17, 4), (5, 0)] {
        assert!(!legal_size(n, t));
        assert_eq!(Party::make(Narrow, n, t, 1).1, Err(1));
        assert_eq!(run(&[n as u8, t as u8]), "record refused 1\n");
    }
}

#[test]
fn m12_the_desk_and_large_numbers() {
    let mut deals = vec![1; 20];
    assert_eq!(deal(Narrow, 5, 1, &[65_520, 0, 0, 0], &mut deals), Ok(()));
    let kept = deals.clone();
    assert_eq!(deal(Narrow, 5, 1, &[65_521, 0, 0, 0], &mut deals), Err(5));
    assert_eq!(deal(Narrow, 5, 1, &[65_521, 0, 0], &mut deals), Err(3));
    assert_eq!(deal(Narrow, 5, 1, &[0; 4], &mut deals[1..]), Err(3));
    assert_eq!(deal(Narrow, 4, 1, &[0; 4], &mut deals), Err(1));
    assert_eq!(deals, kept);
}

#[test]
fn own_crossing_trap() {
    let deals = [[0, 0, 0, 0], [0, 0, 65_520, 1], [65_519, 2, 0, 0]];
    let parties: Vec<Party> = (1..=3)
        .map(|i| {
            let mut party = Party::make(Narrow, 5, 1, i).0;
            party.take_deal(&deals[i - 1]).unwrap();
            party
        })
        .collect();
    // All six cross values agree: row of j at i is column of i at j.
    for i in 1..=3u64 {
        for j in 1..=3u64 {
            let row = deals[j as usize - 1];
            let column = deals[i as usize - 1];
            let row_at_i = (u64::from(row[0]) + u64::from(row[1]) * i) % P;
            let column_at_j = (u64::from(column[2]) + u64::from(column[3]) * j) % P;
            assert!(i == j || row_at_i == column_at_j);
        }
    }
    let sound: Vec<bool> = parties.iter().map(Party::sound).collect();
    assert_eq!(sound, [true, false, false]);
    for mut party in parties {
        let other = if party.number == 1 { 2 } else { 1 };
        let said = party.say(other).unwrap();
        if party.number == 1 {
            assert_eq!(said, (0, 0));
        } else {
            assert_eq!(said, (NOT_SENT, NOT_SENT));
            assert_eq!(party.hear(&[0; 10]), Ok(0));
        }
    }
}

#[test]
fn nine_parties_two_wrong_is_10() {
    let mut shares: Vec<u32> = (1..=9).map(|i| 7 + 3 * i).collect();
    shares[8] = 1;
    assert_eq!(open_all(Narrow, &shares, 1), Ok(7));
    shares[1] = 1;
    assert_eq!(open_all(Narrow, &shares, 1), Err(10));
}

#[test]
fn one_sided_and_foreign_bits_do_not_count() {
    let mut reports = reports_without(&[]);
    reports[0] &= !0b00010;
    assert_eq!(members(verdict(&reports, 1).0), [1, 3, 4, 5]);
    let full = agreements(&reports_without(&[]));
    assert_eq!(agreements(&[65_535; 5]), full);
    assert_eq!(full[0], 0b11110);
    assert_eq!(full[5..], [0; 11]);
}

#[test]
fn largest_is_not_greedy() {
    // Party 1 agrees with 2 and 3 only; 2, 4, 5, 6, 7 are a larger clique.
    let mut reports = vec![0; 9];
    for set in [&[1, 2, 3][..], &[2, 4, 5, 6, 7]] {
        for &a in set {
            for &b in set {
                reports[a - 1] |= 1 << (b - 1);
            }
        }
    }
    assert_eq!(
        members(happy_set(&agreements(&reports), 9)),
        [2, 4, 5, 6, 7]
    );
}

#[test]
fn refusals_take_the_lowest_number() {
    let (mut party, made) = Party::make(Narrow, 5, 1, 3);
    assert_eq!(made, Ok(()));
    assert_eq!(party.say(0), Err(2));
    assert_eq!(party.say(6), Err(2));
    assert_eq!(party.say(1), Err(4));
    assert_eq!(party.hear(&[0; 9]), Err(3));
    assert_eq!(party.hear(&[0; 10]), Err(4));
    assert_eq!(party.settle(&[0; 4]), Err(3));
    assert_eq!(party.open(&[0; 6]), Err(3));
    assert_eq!(party.open(&[0; 5]), Err(4));
    let (mut bad, made) = Party::make(Narrow, 5, 1, 6);
    assert_eq!(made, Err(2));
    assert_eq!(bad.take_deal(&[]), Err(2));
    assert_eq!(bad.say(0), Err(2));
    let (bad, made) = Party::make(Narrow, 4, 1, 9);
    assert_eq!(made, Err(1));
    assert_eq!(bad.say(0), Err(1));
    assert_eq!(bad.open(&[]), Err(1));
}

#[test]
fn seven_before_eight_leaves_the_party() {
    let (mut party, _) = Party::make(Narrow, 5, 1, 1);
    party.take_deal(&stretch(1)).unwrap();
    party.hear(&honest_record().pairs[..10]).unwrap();
    let before = party.clone();
    // The own bit makes it another report, and nobody agrees anyway.
    assert_eq!(party.settle(&[0b11111, 0, 0, 0, 0]), Err(7));
    assert_eq!(party, before);
    assert_eq!(party.settle(&[0b11110, 0, 0, 0, 0]), Err(8));
    assert_eq!(party.stage, Stage::Closed);
    assert_eq!((party.share, party.happy), (0, 0));
}

#[test]
fn opening_uses_the_own_share() {
    let record = honest_record();
    let mut party = Party::make(Narrow, 5, 1, 3).0;
    party.take_deal(&stretch(3)).unwrap();
    party.hear(&record.pairs[20..30]).unwrap();
    party.settle(&record.reports).unwrap();
    assert_eq!(party.open(&[10, 13, 999, 998, 22]), Ok(7));
    assert_eq!(open_all(Narrow, &[10, 13, 999, 998, 22], 1), Err(10));
    assert_eq!(party.open(&[10, 999, 16, 998, 22]), Err(10));
    assert_eq!(party.stage, Stage::Holding);
}

#[test]
fn the_calls_of_the_readme() {
    let mut party = Party::make(Narrow, 5, 1, 1).0;
    let calls = [
        (Call::Deal(Narrow, vec![9, 7, 10, 6]), vec![], (1, 0, 0)),
        (Call::Say(2), vec![23, 22], (1, 0, 0)),
        (
            Call::Hear(Narrow, vec![0, 0, 22, 23, 28, 30, 34, 37, 40, 44]),
            vec![30],
            (2, 0, 0),
        ),
        (Call::Settle(vec![30, 29, 27, 23, 15]), vec![], (3, 10, 31)),
        (
            Call::Open(Narrow, vec![0, 13, 999, 19, 22]),
            vec![7],
            (3, 10, 31),
        ),
        (
            Call::Locate(Narrow, vec![0, 13, 999, 19, 22]),
            vec![7],
            (3, 10, 31),
        ),
    ];
    for (call, values, state) in calls {
        assert_eq!(apply(&mut party, &call).result, Ok(values));
        assert_eq!((party.stage as u8, party.share, party.happy), state);
    }
}

/// The example of the README, line by line as it stands there.
#[test]
fn the_lines_of_the_readme() {
    let mut calls = example_calls();
    calls.push(Call::Desk(Desk {
        width: Narrow,
        n: 5,
        t: 1,
        room: 2,
        coefs: vec![65_521],
    }));
    let mut party = Party::make(Narrow, 0, 0, 0).0;
    let mut text = String::new();
    for call in calls {
        text += &format!("    {}", line(&step(&mut party, call)));
    }
    assert!(include_str!("../README.md").contains(&format!("\n\n{text}\n")));
}

#[test]
fn rejected_record_keeps_the_lamp_lines() {
    let mut record = honest_record();
    record.reports = vec![0b11110, 0, 0b11011, 0, 0];
    let wanted = "size 5 1
dealer rejected
lamp 1 refused 8
lamp 2 refused 7
lamp 3 refused 8
lamp 4 refused 7
lamp 5 refused 7
opened refused 8
";
    assert_eq!(run(&write(&record)), wanted);
}

#[test]
fn failing_opening_and_altered_report() {
    let mut record = honest_record();
    record.shares = vec![10, 13, 999, 998, 22];
    record.reports[1] |= 1 << 5;
    let output = run(&write(&record));
    assert!(output.contains("happy 1 2 3 4 5\n"));
    assert!(output.contains("lamp 2 refused 7\nlamp 3 share 16\n"));
    assert!(output.ends_with("opened refused 10\n"));
}

#[test]
fn damaged_records_are_refused() {
    let bytes = example_bytes();
    for kept in 0..bytes.len() {
        assert_eq!(run(&bytes[..kept]), "record refused 6\n");
    }
    for k in 2..HEAD {
        for by in [1, 255] {
            let mut damaged = bytes.clone();
            damaged[k] = damaged[k].wrapping_add(by);
            assert_eq!(read(&damaged), Err(6));
        }
    }
    let mut longer = bytes.clone();
    longer.push(0);
    assert_eq!(run(&longer), "record refused 6\n");
    let mut smaller = bytes;
    smaller[0] = 4;
    assert_eq!(run(&smaller), "record refused 1\n");
}

#[test]
fn inverses() {
    for width in [Narrow, Wide] {
        for a in [1, 2, 3, 1000, 65_520, width.prime() - 1] {
            assert_eq!(width.mul(a, width.inverse(a)), 1);
        }
    }
}

#[test]
fn random_rounds() {
    crate::check::check(1, 20).unwrap();
}
