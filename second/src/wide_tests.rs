//! Wide numbers: the field, the record, and where refusal 18 stands.

use crate::bench::run;
use crate::calls::{apply, line, step, Call};
use crate::clique::members;
use crate::dealer::{deal, deal_with, legal_size};
use crate::field::Width::{Narrow, Wide};
use crate::field::{P, WIDE_NOT_SENT, WIDE_P};
use crate::fit::open_all;
use crate::named::{honest, honest_of, F};
use crate::named_wide::example;
use crate::party::{Party, Stage};
use crate::record::{lengths, read, write, HEAD};
use crate::rng::Rng;
use crate::short_inputs::wide_calls;
use crate::stations::{check_table, one_to};
use crate::story_runs::deal_by_desk;
use crate::story_wide::{WIDE_F, WIDE_STATIONS};

const PRIME: u32 = WIDE_P as u32;

// ---- the field ----

#[test]
fn both_are_primes() {
    for p in [P, WIDE_P] {
        assert!((2..p).take_while(|d| d * d <= p).all(|d| p % d != 0));
    }
}

/// The arithmetic once more on i128.
#[test]
fn arithmetic_of_both() {
    let mut rng = Rng::new(12);
    for width in [Narrow, Wide] {
        let p = i128::from(width.prime());
        for _ in 0..1000 {
            let (a, b) = (rng.element(width), rng.unit(width));
            let (x, y) = (i128::from(a), i128::from(b));
            let (a, b) = (u64::from(a), u64::from(b));
            assert_eq!(i128::from(width.add(a, b)), (x + y).rem_euclid(p));
            assert_eq!(i128::from(width.sub(a, b)), (x - y).rem_euclid(p));
            assert_eq!(i128::from(width.mul(a, b)), (x * y).rem_euclid(p));
            assert_eq!(width.mul(b, width.inverse(b)), 1);
            assert_eq!(width.pow(b, width.prime() - 1), 1);
        }
    }
}

#[test]
fn which_numbers_are_sent() {
    for number in [0, 65_520] {
        assert!(Narrow.is_sent(number) && Wide.is_sent(number));
    }
    for number in [65_521, 65_535, 65_536, PRIME - 1] {
        assert!(!Narrow.is_sent(number) && Wide.is_sent(number));
    }
    for number in [PRIME, PRIME + 1, WIDE_NOT_SENT] {
        assert!(!Wide.is_sent(number));
    }
}

// ---- the record ----

#[test]
fn wide_bytes_are_as_described() {
    let bytes = write(&example());
    let head = [
        133, 1, 0, 18, 0, 80, 0, 98, 0, 200, 1, 42, 0, 10, 1, 52, 0, 20,
    ];
    assert_eq!(bytes[..HEAD], head);
    assert_eq!(bytes.len(), 328);
    assert_eq!(bytes[18..26], [0, 0, 0, 9, 0, 0, 0, 7]);
    // Receiver 1, sender 1 and 2.
    assert_eq!(bytes[98..106], [255; 8]);
    assert_eq!(bytes[106..114], [0, 0, 0, 22, 0, 0, 0, 23]);
    // Reports have two bytes.
    assert_eq!(bytes[298..308], [0, 30, 0, 29, 0, 27, 0, 23, 0, 15]);
    assert_eq!(bytes[308..312], [0, 0, 0, 10]);
    assert_eq!(bytes[316..320], [0, 0, 3, 231]);
    assert_eq!(read(&bytes), Ok(example()));
    let longest: usize = lengths(Wide, 16, 3).iter().sum();
    assert_eq!(HEAD + longest, 2674);
    assert_eq!(write(&honest_of(Wide, 16, 3, &[1; 16])).len(), 2674);
}

/// The text of the wide example is that of the narrow one: `size` is without
/// the 128.
#[test]
fn wide_text() {
    let mut narrow = honest(5, 1, &F);
    narrow.shares[2] = 999;
    assert_eq!(run(&write(&example())), run(&write(&narrow)));
    let text = run(&write(&honest_of(Wide, 5, 1, &WIDE_F)));
    let wanted = "size 5 1
dealer accepted
happy 1 2 3 4 5
lamp 1 share 65535
lamp 2 share 131071
lamp 3 share 196607
lamp 4 share 262143
lamp 5 share 327679
opened 2147483646
";
    assert_eq!(text, wanted);
}

/// Every first byte and every t: the size is tested before the directory.
#[test]
fn every_first_byte() {
    for first in 0..=255 {
        for t in 0..=255 {
            let n = usize::from(first % 128);
            let refusal = if legal_size(n, t.into()) { 6 } else { 1 };
            assert_eq!(read(&[first, t]), Err(refusal), "{first} {t}");
        }
    }
    assert_eq!(read(&[133]), Err(6));
}

/// Each byte of the directory counts, and the length must be that of the width.
#[test]
fn damaged_wide_records_are_refused() {
    let bytes = write(&example());
    for kept in 0..bytes.len() {
        assert_eq!(read(&bytes[..kept]), Err(6));
    }
    for k in 2..HEAD {
        for by in [1, 255] {
            let mut damaged = bytes.clone();
            damaged[k] = damaged[k].wrapping_add(by);
            assert_eq!(read(&damaged), Err(6));
        }
    }
    let mut unmarked = bytes.clone();
    unmarked[0] = 5;
    assert_eq!(read(&unmarked), Err(6));
    let mut marked = write(&honest(5, 1, &F));
    marked[0] = 133;
    assert_eq!(read(&marked), Err(6));
}

// ---- desk, tables and opening ----

#[test]
fn the_wide_desk() {
    let mut deals = vec![1; 20];
    for (refusal, list) in [
        (Ok(()), [PRIME - 1, 65_521, 65_535, 65_536]),
        (Err(5), [PRIME, 0, 0, 0]),
        (Err(5), [0, 0, 0, WIDE_NOT_SENT]),
    ] {
        assert_eq!(deal(Wide, 5, 1, &list, &mut deals), refusal);
    }
    // The last of each deal is that of XY times i, and that of Y.
    assert_eq!(deals[2..4], [65_534, 65_521 + 65_536]);
    let wrong = deal(Wide, 4_294_967_295, 1, &[PRIME; 4], &mut deals);
    assert_eq!(wrong, Err(1));
    let bad = [PRIME, 1, 2, 3, 4];
    let refused = deal_with(Wide, 5, 1, &bad, &[PRIME; 4], &mut deals);
    assert_eq!(refused, Err(14));
}

#[test]
fn wide_tables() {
    for table in [&WIDE_STATIONS[..], &one_to(16), &[65_537, 1, 131_073]] {
        assert_eq!(check_table(Wide, table), Ok(()));
    }
    assert_eq!(check_table(Narrow, &WIDE_STATIONS), Err(14));
    for bad in [0, PRIME, PRIME + 1, WIDE_NOT_SENT, 65_521] {
        for place in [0, 2, 3, 4] {
            let mut table = WIDE_STATIONS;
            table[place] = bad;
            assert_eq!(check_table(Wide, &table), Err(14));
        }
    }
}

#[test]
fn wide_openings() {
    for (shares, opened) in [
        ([10, 13, 999, 19, 22], Ok(7)),
        ([10, 13, PRIME, 19, 22], Ok(7)),
        ([10, 13, PRIME, WIDE_NOT_SENT, 22], Ok(7)),
        ([10, 13, PRIME, WIDE_NOT_SENT, PRIME + 1], Err(10)),
        ([10 + PRIME, 13 + PRIME, 16, 19, 22], Ok(7)),
        ([10 + PRIME, 13 + PRIME, 16 + PRIME, 19, 22], Err(10)),
        ([65_535; 5], Ok(65_535)),
        ([PRIME - 1; 5], Ok(PRIME - 1)),
        ([PRIME; 5], Err(10)),
        // 1 to n times 10^9, with two wraps.
        (
            [1_000_000_000, 2_000_000_000, 852_516_353, 1_852_516_353, 0],
            Ok(0),
        ),
    ] {
        assert_eq!(open_all(Wide, &shares, 1), opened, "{shares:?}");
    }
}

// ---- a party ----

/// What an unsound party says, and that the happy set does not depend on the
/// width.
#[test]
fn a_wide_party() {
    let record = honest_of(Wide, 5, 1, &WIDE_F);
    let mut party = Party::make(Wide, 5, 1, 2).0;
    assert_eq!(party.take_deal(&record.deals[4..8]), Ok(()));
    assert_eq!(party.say(2), Ok((WIDE_NOT_SENT, WIDE_NOT_SENT)));
    assert_eq!(party.hear(&record.pairs[10..20]), Ok(0b11101));
    assert_eq!(party.settle(&record.reports), Ok(()));
    assert_eq!((party.stage, party.share), (Stage::Holding, 131_071));
    assert_eq!(members(party.happy), [1, 2, 3, 4, 5]);
    let mut unsound = Party::make(Wide, 5, 1, 2).0;
    unsound.take_deal(&[PRIME, 0, 0, 0]).unwrap();
    assert_eq!(unsound.say(1), Ok((WIDE_NOT_SENT, WIDE_NOT_SENT)));
    assert_eq!(unsound.hear(&[0; 10]), Ok(0));
}

/// 1 and 2 come before 18, and 3, 14 and 4 after it.
#[test]
fn where_18_stands() {
    for width in [Narrow, Wide] {
        let other = width.other();
        let bad = [0, 1, 2, 3, 4];
        for (party, refusal, own) in [
            (Party::make(width, 4, 1, 9), 1, [1, 1]),
            (Party::make(width, 5, 1, 6), 2, [2, 2]),
            (Party::make_with(width, 5, 1, 2, &bad), 18, [3, 14]),
            (Party::make_with(width, 5, 1, 2, &bad[1..]), 18, [3, 14]),
            (Party::make(width, 5, 1, 2), 18, [3, 4]),
        ] {
            let mut party = party.0;
            let kept = party.clone();
            for (length, own) in [(9, own[0]), (10, own[1])] {
                let call = |width| Call::Hear(width, vec![0; length]);
                let mut answer = |width| apply(&mut party, &call(width)).result;
                assert_eq!(answer(other), Err(refusal));
                assert_eq!(answer(width), Err(own));
            }
            for length in [0, 4, 5] {
                for call in [
                    Call::Deal(other, vec![0; length]),
                    Call::Open(other, vec![0; length]),
                    Call::Locate(other, vec![0; length]),
                ] {
                    assert_eq!(apply(&mut party, &call).result, Err(refusal));
                }
            }
            assert_eq!(party, kept);
        }
    }
}

// ---- the README ----

/// The example of the README, line by line as it stands there.
#[test]
fn the_wide_lines_of_the_readme() {
    let mut calls = wide_calls();
    calls.extend([
        Call::Open(Narrow, vec![0, 13, 16, 19, 22]),
        Call::Hear(Narrow, vec![]),
        Call::Make(Narrow, 5, 1, 1),
        Call::Deal(Wide, vec![9, 7, 10, 6]),
        Call::Make(Wide, 65_541, 1, 1),
        Call::Deal(Narrow, vec![9, 7, 10, 6]),
        deal_by_desk(Wide, 5, 1, &[PRIME; 2]),
    ]);
    let mut party = Party::make(Narrow, 0, 0, 0).0;
    let mut text = String::new();
    for call in calls {
        text += &format!("    {}", line(&step(&mut party, call)));
    }
    let readme = include_str!("../README.md");
    assert!(readme.contains(&format!("\n\n{text}\n")), "{text}");
}
