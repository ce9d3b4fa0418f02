//! Tables of station numbers: which are taken, what they change, and where
//! refusal 14 stands among the others. The numbers are worked out by hand:
//! with F = 7 + 3X + 2Y + 4XY the row of point x is 7+2x, 3+4x and its column
//! 7+3x, 2+4x.

use crate::calls::{line, step, Call, Desk};
use crate::dealer::{deal, deal_with};
use crate::field::Width::Narrow;
use crate::field::NOT_SENT;
use crate::fit::{open_all, open_with};
use crate::follow;
use crate::named::F;
use crate::party::{Party, Stage};
use crate::record::{pair_place, Record};
use crate::rng::Rng;
use crate::scenario::{build_on, polynomial, value_of_f, HONEST};
use crate::short_inputs::station_calls;
use crate::stations::{check_table, one_to, STATIONS};
use crate::tables::good_table;

/// 65520 is -1, and 40961 and 21000 are reduced once or twice.
const DEALS: [u32; 20] = [
    16_408, 32_805, 57_369, 32_804, 21, 31, 28, 30, 5, 65_520, 4, 65_519, 13, 15, 16, 14, 42_007,
    18_482, 63_007, 18_481,
];

const SHARES: [u32; 5] = [57_369, 28, 4, 16, 63_007];

/// Tables of five numbers that are refused.
const BAD: [[u32; 5]; 8] = [
    [0, 7, 65_520, 3, 21_000],
    [40_961, 7, 65_520, 3, 0],
    [65_521, 7, 65_520, 3, 21_000],
    [40_961, 7, 65_520, 3, 65_535],
    [7, 7, 65_520, 3, 21_000],
    [40_961, 7, 65_520, 3, 3],
    [40_961, 7, 65_520, 3, 40_961],
    [0; 5],
];

// ---- which tables are taken ----

#[test]
fn tables_that_are_taken() {
    for table in [&STATIONS[..], &[1], &[65_520, 1], &one_to(16), &[2, 1, 3]] {
        assert_eq!(check_table(Narrow, table), Ok(()), "{table:?}");
    }
    for table in BAD {
        assert_eq!(check_table(Narrow, &table), Err(14), "{table:?}");
    }
    assert_eq!(one_to(5), [1, 2, 3, 4, 5]);
}

/// Every two places of sixteen, and every place with a bad number.
#[test]
fn every_place_is_looked_at() {
    for n in 5..=16 {
        for a in 0..n {
            for bad in [0, 65_521, 65_522, 65_535] {
                let mut table = one_to(n);
                table[a] = bad;
                assert_eq!(check_table(Narrow, &table), Err(14));
            }
            for b in (0..n).filter(|&b| b != a) {
                let mut table = one_to(n);
                table[a] = table[b];
                assert_eq!(check_table(Narrow, &table), Err(14));
            }
        }
    }
}

/// What the random lists take for good tables are good: different numbers from
/// 1 to 65,520, counted in another way.
#[test]
fn random_good_tables() {
    let mut rng = Rng::new(6);
    for n in 0..=60 {
        for _ in 0..20 {
            let table = good_table(&mut rng, Narrow, n);
            let mut sorted = table.clone();
            sorted.sort_unstable();
            sorted.dedup();
            assert_eq!((table.len(), sorted.len()), (n, n));
            assert!(table.iter().all(|&x| (1..=65_520).contains(&x)));
            assert_eq!(check_table(Narrow, &table), Ok(()));
        }
    }
}

// ---- making and desk ----

#[test]
fn refusals_of_a_making() {
    let made = |n, t, i, table: &[u32]| Party::make_with(Narrow, n, t, i, table).1;
    assert_eq!(made(5, 1, 2, &STATIONS), Ok(()));
    assert_eq!(made(4, 1, 9, &[0]), Err(1));
    assert_eq!(made(5, 2, 2, &STATIONS), Err(1));
    assert_eq!(made(5, 1, 6, &[0]), Err(2));
    assert_eq!(made(5, 1, 0, &BAD[0]), Err(2));
    for table in [&STATIONS[..4], &[0, 7, 7], &[], &[0; 6], &one_to(6)] {
        assert_eq!(made(5, 1, 2, table), Err(3), "{table:?}");
    }
    for table in BAD {
        assert_eq!(made(5, 1, 2, &table), Err(14), "{table:?}");
    }
}

/// A table as loaded is held, bad entries included; one of another length
/// leaves zeros.
#[test]
fn what_a_refused_making_holds() {
    assert_eq!(Party::make_with(Narrow, 5, 1, 2, &BAD[1]).0.table, BAD[1]);
    for table in [&STATIONS[..4], &one_to(6), &[]] {
        let party = Party::make_with(Narrow, 5, 1, 2, table).0;
        assert_eq!(party.table, [0; 5]);
        assert_eq!(party.stage, Stage::Waiting);
    }
    assert_eq!(
        Party::make_with(Narrow, 5, 1, 2, &one_to(5)),
        Party::make(Narrow, 5, 1, 2),
        "1 to n is the same as none"
    );
}

#[test]
fn refusals_of_the_desk() {
    let large = [7, 2, 3, 65_521];
    for (refusal, n, room, table, coefs) in [
        (1, 4, 16, &STATIONS[..4], &F[..]),
        (1, 4, 20, &BAD[0], &large),
        (3, 5, 20, &STATIONS[..4], &F),
        (3, 5, 20, &one_to(6), &F),
        (3, 5, 20, &[], &large),
        (3, 5, 19, &BAD[0], &F),
        (3, 5, 20, &BAD[0], &F[..3]),
        (3, 5, 20, &[0, 0], &F),
        (14, 5, 20, &BAD[0], &F),
        (14, 5, 20, &BAD[5], &large),
        (5, 5, 20, &STATIONS, &large),
    ] {
        let mut room = vec![9; room];
        let kept = room.clone();
        assert_eq!(
            deal_with(Narrow, n, 1, table, coefs, &mut room),
            Err(refusal)
        );
        assert_eq!(room, kept);
    }
}

#[test]
fn deals_of_a_table() {
    let mut room = [0; 20];
    assert_eq!(deal_with(Narrow, 5, 1, &STATIONS, &F, &mut room), Ok(()));
    assert_eq!(room, DEALS);
    let mut without = [0; 20];
    assert_eq!(deal(Narrow, 5, 1, &F, &mut without), Ok(()));
    assert_eq!(deal_with(Narrow, 5, 1, &one_to(5), &F, &mut room), Ok(()));
    assert_eq!(room, without);
}

// ---- a party's calls ----

/// Party 2 at each stage, made with a good table.
fn at_each_stage() -> Vec<Party> {
    let calls = station_calls();
    let mut party = Party::make(Narrow, 0, 0, 0).0;
    let mut parties = Vec::new();
    for call in [0, 1, 3, 4] {
        step(&mut party, calls[call].clone());
        parties.push(party.clone());
    }
    let mut closed = parties[2].clone();
    assert_eq!(closed.settle(&[0, 29, 0, 0, 0]), Err(8));
    parties.push(closed);
    let stages: Vec<u8> = parties.iter().map(|party| party.stage as u8).collect();
    assert_eq!(stages, [0, 1, 2, 3, 4]);
    parties
}

/// With a bad table in its state a party refuses so at every stage: behind 1, 2
/// and 3, and before 4 and all that comes after it.
#[test]
fn a_bad_table_at_each_stage() {
    for (party, bad) in at_each_stage().into_iter().zip(BAD) {
        let mut party = party;
        party.table = bad.to_vec();
        let kept = party.clone();
        assert_eq!(party.say(0), Err(2));
        assert_eq!(party.say(6), Err(2));
        for j in 1..=5 {
            assert_eq!(party.say(j), Err(14));
        }
        for wrong in [0, 3, 6, 9, 11] {
            let list = vec![0; wrong];
            assert_eq!(party.take_deal(&list), Err(3));
            assert_eq!(party.hear(&list), Err(3));
            assert_eq!(party.settle(&vec![0; wrong]), Err(3));
            assert_eq!(party.open(&list), Err(3));
        }
        assert_eq!(party.take_deal(&[0; 4]), Err(14));
        assert_eq!(party.hear(&[0; 10]), Err(14));
        assert_eq!(party.settle(&[0; 5]), Err(14));
        assert_eq!(party.open(&[NOT_SENT; 5]), Err(14));
        assert_eq!(party, kept);
        party.number = 6;
        assert_eq!((party.say(1), party.open(&[0; 5])), (Err(2), Err(2)));
        party.n = 4;
        assert_eq!((party.say(1), party.open(&[0; 5])), (Err(1), Err(1)));
    }
}

/// The own crossing is at the own point: 21 + 31*7 is 28 + 30*7. Party 2 with 1
/// to 5 takes the same deal for unsound, for 21 + 31*2 is not 28 + 30*2; and of
/// the deal 11, 11, 13, 10 the reverse holds.
#[test]
fn soundness_by_the_table() {
    for (table, deal, sound) in [
        (&STATIONS[..], [21, 31, 28, 30], true),
        (&one_to(5), [21, 31, 28, 30], false),
        (&STATIONS, [11, 11, 13, 10], false),
        (&one_to(5), [11, 11, 13, 10], true),
    ] {
        let mut party = Party::make_with(Narrow, 5, 1, 2, table).0;
        party.take_deal(&deal).unwrap();
        assert_eq!(party.sound(), sound, "{table:?}");
    }
}

/// Party 5's column is 63007 + 18481Y: at 40961, 7, -1 and 3 it is 33614, 61332,
/// 44526 and 52929. One of them may be wrong, not two.
#[test]
fn repair_by_the_table() {
    for (firsts, settled, share) in [
        ([33_614, 61_332, 44_526, 52_929], Ok(()), 63_007),
        ([33_614, 61_332, 0, 52_929], Ok(()), 63_007),
        ([NOT_SENT, 61_332, 44_526, 52_929], Ok(()), 63_007),
        ([33_614, 1, 0, 52_929], Err(9), 0),
    ] {
        let mut party = Party::make_with(Narrow, 5, 1, 5, &STATIONS).0;
        party.take_deal(&[0, 0, 1, 0]).unwrap();
        let mut pairs = vec![NOT_SENT; 10];
        for (j, first) in firsts.into_iter().enumerate() {
            pairs[2 * j] = first;
        }
        assert_eq!(party.hear(&pairs), Ok(0));
        assert_eq!(party.settle(&[14, 13, 11, 7, 0]), settled);
        assert_eq!((party.share, party.happy), (share, 15));
    }
}

/// Shares on 7 + 3x; the same numbers in another order are on no line.
#[test]
fn opening_by_the_table() {
    assert_eq!(open_with(Narrow, &STATIONS, &SHARES, 1), Ok(7));
    assert_eq!(open_all(Narrow, &SHARES, 1), Err(10));
    for j in 0..5 {
        let mut one_wrong = SHARES;
        one_wrong[j] = 999;
        assert_eq!(open_with(Narrow, &STATIONS, &one_wrong, 1), Ok(7));
        one_wrong[(j + 1) % 5] = NOT_SENT;
        assert_eq!(open_with(Narrow, &STATIONS, &one_wrong, 1), Ok(7));
        one_wrong[(j + 2) % 5] = NOT_SENT;
        assert_eq!(open_with(Narrow, &STATIONS, &one_wrong, 1), Err(10));
    }
    let reversed: Vec<u32> = SHARES.iter().rev().copied().collect();
    assert_eq!(open_with(Narrow, &STATIONS, &reversed, 1), Err(10));
    let table: Vec<u32> = STATIONS.iter().rev().copied().collect();
    assert_eq!(open_with(Narrow, &table, &reversed, 1), Ok(7));
}

// ---- every size ----

/// On any table of any size, what honest parties hear, report, hold and open is
/// what the values of F at the table's points say.
#[test]
fn honest_runs_of_every_size() {
    let mut rng = Rng::new(14);
    for (n, t) in (1..=3).flat_map(|t| (4 * t + 1..=16).map(move |n| (n, t))) {
        let table = good_table(&mut rng, Narrow, n);
        let world = build_on(&mut rng, Narrow, &table, t, HONEST);
        let f = |i: usize, j: usize| {
            value_of_f(
                Narrow,
                &world.coefs,
                t,
                table[i - 1].into(),
                table[j - 1].into(),
            ) as u32
        };
        let Record {
            pairs,
            reports,
            shares,
            ..
        } = &world.record;
        for i in 1..=n {
            for j in (1..=n).filter(|&j| j != i) {
                let place = pair_place(n, i, j);
                assert_eq!(pairs[place..place + 2], [f(i, j), f(j, i)]);
            }
            assert_eq!(u32::from(reports[i - 1]), (1 << n) - 1 - (1 << (i - 1)));
            let share = value_of_f(Narrow, &world.coefs, t, table[i - 1].into(), 0);
            assert_eq!(u64::from(shares[i - 1]), share);
            let party = follow::settled_party(&world.record, &table, i).0;
            assert_eq!(party.open(shares), Ok(world.coefs[0]));
        }
    }
}

/// The same lists on another table give other deals and the same secret.
#[test]
fn another_order_is_another_deal() {
    let mut rng = Rng::new(15);
    let coefs = polynomial(&mut rng, Narrow, 2);
    let table = good_table(&mut rng, Narrow, 9);
    let mut turned = table.clone();
    turned.rotate_left(1);
    let deals = follow::deals(Narrow, &table, 2, &coefs);
    let mut other = follow::deals(Narrow, &turned, 2, &coefs);
    assert_ne!(deals, other);
    other.rotate_right(6);
    assert_eq!(deals, other, "each point keeps its deal");
}

// ---- the README ----

/// The example of the README with a table, line by line as it stands there.
#[test]
fn the_lines_of_the_readme_with_a_table() {
    let mut calls = station_calls();
    let desk = |coefs: &[u32]| Desk {
        width: Narrow,
        n: 5,
        t: 1,
        room: 2,
        coefs: coefs.to_vec(),
    };
    calls.push(Call::DeskWith(desk(&[65_521]), vec![0, 7]));
    calls.push(Call::MakeWith(Narrow, 5, 1, 2, BAD[1].to_vec()));
    calls.push(Call::Deal(Narrow, vec![21, 31, 28]));
    calls.push(Call::Open(Narrow, vec![0; 5]));
    let mut party = Party::make(Narrow, 0, 0, 0).0;
    let mut text = String::new();
    for call in calls {
        text += &format!("    {}", line(&step(&mut party, call)));
    }
    assert!(include_str!("../README.md").contains(&format!("\n\n{text}\n")));
}
