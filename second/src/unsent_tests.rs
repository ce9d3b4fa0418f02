//! Openings with parties dark: the rule, in numbers worked out by hand and by
//! counting, and the kinds that are counted.

use crate::check_open::open_again;
use crate::field::Width::{self, Narrow, Wide};
use crate::fit::{fit, open_all, open_with, points_of, Rule};
use crate::named::{honest, honest_of, F};
use crate::party::Party;
use crate::rng::Rng;
use crate::stations::{one_to, STATIONS};
use crate::unsent::{kind_of, no_lie, Unsent};

const WIDTHS: [Width; 2] = [Narrow, Wide];

/// What the rule of a column would open.
fn by_column(width: Width, table: &[u32], list: &[u32], t: usize) -> Option<u64> {
    fit(width, Rule::Column, &points_of(table, list), t).map(|poly| poly[0])
}

// ---- the rule ----

#[test]
fn the_three_lists() {
    for width in WIDTHS {
        for no in [width.prime() as u32, width.not_sent()] {
            for (list, opened) in [
                ([10, 13, no, no, 22], Ok(7)),
                ([10, 13, no, 999, 22], Ok(7)),
                ([10, 13, no, no, no], Err(10)),
            ] {
                assert_eq!(open_all(width, &list, 1), opened);
                assert_eq!(by_column(width, &one_to(5), &list, 1), None);
            }
        }
    }
}

/// M3 to M6 are as before by either rule.
#[test]
fn the_marked_cases_stay() {
    for width in WIDTHS {
        for (list, opened) in [
            ([10, 13, 999, 19, 22], Ok(7)),
            ([10, 13, 999, 998, 22], Err(10)),
            ([width.not_sent(); 5], Err(10)),
            ([0; 5], Ok(0)),
        ] {
            assert_eq!(open_all(width, &list, 1), opened);
            let before = by_column(width, &one_to(5), &list, 1);
            assert_eq!(before, opened.ok().map(u64::from));
        }
    }
}

/// Every list of five out of few numbers, at the points 1 to 5 and at stations:
/// the rule told once more opens the same, and so did the rule before if it
/// opened at all.
#[test]
fn every_list_of_few_numbers() {
    for (table, truth) in [
        (one_to(5), [10, 13, 16, 19, 22]),
        (STATIONS.to_vec(), [57_369, 28, 4, 16, 63_007]),
    ] {
        let mut opened_now = 0;
        for code in 0..4u32.pow(5) {
            let list: Vec<u32> = (0..5)
                .map(|k| match code / 4u32.pow(k) % 4 {
                    0 => truth[k as usize],
                    1 => 65_521,
                    2 => 999,
                    _ => truth[k as usize] + 4,
                })
                .collect();
            let opened = open_with(Narrow, &table, &list, 1);
            assert_eq!(opened, open_again(Narrow, &points_of(&table, &list), 1));
            match by_column(Narrow, &table, &list, 1) {
                Some(number) => assert_eq!(opened.map(u64::from), Ok(number)),
                None => opened_now += usize::from(opened.is_ok()),
            }
        }
        assert!(opened_now > 50, "{opened_now}");
    }
}

/// For every size, with any number of liars up to t and any number of dark ones:
/// the true number exactly where 2t+1 true shares are there.
#[test]
fn every_size_with_every_count() {
    let mut rng = Rng::new(4);
    for (n, t) in (1..=3).flat_map(|t| (4 * t + 1..=16).map(move |n| (n, t))) {
        let width = rng.width();
        let coefs: Vec<u32> = (0..(t + 1) * (t + 1)).map(|_| rng.element(width)).collect();
        let shares = honest_of(width, n, t, &coefs).shares;
        for lies in 0..=t {
            for unsent in 0..=n - lies {
                let mut list = shares.clone();
                for (k, i) in rng.some_of(n, lies + unsent).into_iter().enumerate() {
                    list[i - 1] = match k < lies {
                        true => width.add(list[i - 1].into(), rng.unit(width).into()) as u32,
                        false => rng.not_sent(width),
                    };
                }
                let enough = n - lies - unsent > 2 * t;
                let wanted = if enough { Ok(coefs[0]) } else { Err(10) };
                assert_eq!(open_all(width, &list, t), wanted, "{n} {t} {lies} {unsent}");
            }
        }
    }
}

/// The own share stands in the own place, whatever is there, and is sent.
#[test]
fn the_own_share_is_sent() {
    let record = honest(5, 1, &F);
    for i in 1..=5 {
        let mut party = Party::make(Narrow, 5, 1, i).0;
        party.take_deal(&record.deals[4 * i - 4..4 * i]).unwrap();
        party.hear(&record.pairs[10 * i - 10..10 * i]).unwrap();
        party.settle(&record.reports).unwrap();
        let third = if i < 3 { Err(10) } else { Ok(7) };
        for own in [65_521, 65_535, 999, 0] {
            for (list, opened) in [
                ([10, 13, 65_535, 65_535, 65_535], third),
                ([65_535; 5], Err(10)),
            ] {
                let mut list = list;
                list[i - 1] = own;
                assert_eq!(party.open(&list), opened, "{i} {own}");
            }
        }
    }
}

// ---- the counted kinds ----

#[test]
fn kinds_of_openings() {
    let no = 65_535;
    for (list, kind) in [
        (vec![10, 13, no, no, 22], Some(Unsent::Opened)),
        (vec![10, 13, no, 999, 22], None),
        (vec![10, 13, no, no, no], Some(Unsent::TooFew)),
        (vec![10, no, no, no, no], None),
        (vec![10, 13, no, no, 999], Some(Unsent::Lies)),
        (vec![10, 13, 999, 998, 22], None),
        (vec![10, 13, no, 19, 999, no], Some(Unsent::ThroughLies)),
        (vec![10, 13, 998, 19, 999, no], None),
        (vec![10, 13, 998, 19, 999, no, no], Some(Unsent::Lies)),
    ] {
        let (table, opened) = (one_to(list.len()), open_all(Narrow, &list, 1));
        assert_eq!(kind_of(Narrow, &table, 1, &list, opened), kind, "{list:?}");
    }
    assert!(no_lie(Narrow, &[], 1) && no_lie(Narrow, &[(1, 5), (2, no), (3, 9)], 1));
    assert!(!no_lie(Narrow, &[(1, 5), (2, 8), (3, 9)], 1));
}
