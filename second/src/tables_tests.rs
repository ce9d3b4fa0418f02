//! The tables that come in the random lists, and what comes of them.

use crate::calls::{call_width, Call, Step};
use crate::dealer::legal_size;
use crate::field::Width::{self, Narrow, Wide};
use crate::lists_tests::steps;
use crate::party::Party;
use std::collections::BTreeSet;

/// A table, its width and the n it is for. Only legal sizes.
type Loaded = (Width, usize, &'static [u32]);

fn of_makings() -> Vec<Loaded> {
    let table = |step: &'static Step| match &step.call {
        Call::MakeWith(width, n, t, _, table) if legal_size(*n, *t) => {
            Some((*width, *n, &table[..]))
        }
        _ => None,
    };
    steps().iter().filter_map(table).collect()
}

fn of_desks() -> Vec<Loaded> {
    let table = |step: &'static Step| match &step.call {
        Call::DeskWith(desk, table) if legal_size(desk.n, desk.t) => {
            Some((desk.width, desk.n, &table[..]))
        }
        _ => None,
    };
    steps().iter().filter_map(table).collect()
}

/// Bad by the first rule that a reader thinks of: sorted, it has no equal
/// neighbours, no 0 and nothing too large.
fn bad_entry(width: Width, table: &[u32]) -> bool {
    let mut sorted = table.to_vec();
    sorted.sort_unstable();
    let twice = sorted.windows(2).any(|pair| pair[0] == pair[1]);
    twice || table.contains(&0) || table.iter().any(|&x| u64::from(x) >= width.prime())
}

fn is_one_to_n(n: usize, table: &[u32]) -> bool {
    table.len() == n && (1..=n).all(|i| table[i - 1] as usize == i)
}

// ---- which tables come ----

/// Of the parties and of the desks about half.
#[test]
fn half_have_tables() {
    let count = |holds: fn(&Call) -> bool| steps().iter().filter(|s| holds(&s.call)).count();
    let makes = count(|call| matches!(call, Call::Make(..)));
    let makes_with = count(|call| matches!(call, Call::MakeWith(..)));
    let desks = count(|call| matches!(call, Call::Desk(_)));
    let desks_with = count(|call| matches!(call, Call::DeskWith(..)));
    for (with, without) in [(makes_with, makes), (desks_with, desks)] {
        let all = with + without;
        assert!((40 * all..60 * all).contains(&(100 * with)), "{with} {all}");
    }
}

type Sort = (&'static str, fn(Width, usize, &[u32]) -> bool);

/// Sorts of tables of the right length that are taken.
const GOOD: [Sort; 6] = [
    ("1 to n", |_, n, table| is_one_to_n(n, table)),
    ("1 to n in another order", |_, n, table| {
        !is_one_to_n(n, table) && table.iter().all(|&x| x as usize <= n)
    }),
    ("small", |_, n, table| {
        table.iter().all(|&x| x < 20) && table.iter().any(|&x| x as usize > n)
    }),
    ("large", |width, _, table| {
        let large = width.prime() as u32 - 21;
        table.iter().all(|&x| x > large)
    }),
    ("with the largest", |width, _, table| {
        table.contains(&(width.prime() as u32 - 1))
    }),
    ("any", |width, _, table| {
        let any = 100..width.prime() as u32 - 100;
        table.iter().any(|x| any.contains(x))
    }),
];

/// Sorts that are refused.
const BAD: [Sort; 11] = [
    ("empty", |_, _, table| table.is_empty()),
    ("one short", |_, n, table| table.len() + 1 == n),
    ("one long", |_, n, table| table.len() == n + 1),
    ("long and else good", |width, n, table| {
        table.len() > n && !bad_entry(width, table)
    }),
    ("0 first", |_, n, table| table.len() == n && table[0] == 0),
    ("0 last", |_, n, table| {
        table.len() == n && table[n - 1] == 0
    }),
    ("the prime", |width, _, table| {
        table.contains(&(width.prime() as u32))
    }),
    ("not sent", |width, _, table| {
        table.contains(&width.not_sent())
    }),
    ("first is last", |width, n, table| {
        only_twice(width, n, table, [0, n - 1])
    }),
    ("last two", |width, n, table| {
        only_twice(width, n, table, [n - 2, n - 1])
    }),
    ("first two", |width, n, table| {
        only_twice(width, n, table, [0, 1])
    }),
];

/// These two places are the same, and it is the only fault.
fn only_twice(width: Width, n: usize, table: &[u32], [a, b]: [usize; 2]) -> bool {
    let mut without = table.to_vec();
    if table.len() == n {
        without.remove(b);
    }
    table.len() == n && table[a] == table[b] && !bad_entry(width, &without)
}

#[test]
fn tables_of_every_sort() {
    for width in [Narrow, Wide] {
        for (of, mut tables) in [("make", of_makings()), ("desk", of_desks())] {
            tables.retain(|table| table.0 == width);
            for (name, is_so) in GOOD {
                let good = |n: usize, table: &[u32]| table.len() == n && !bad_entry(width, table);
                let so = |(w, n, t): &&Loaded| good(*n, t) && is_so(*w, *n, t);
                let times = tables.iter().filter(so).count();
                assert!(times >= 10, "{width:?} {of} {name} {times}");
            }
            for (name, is_so) in BAD {
                let so = |(w, n, table): &&Loaded| is_so(*w, *n, table);
                let times = tables.iter().filter(so).count();
                assert!(times >= 2, "{width:?} {of} {name} {times}");
            }
        }
    }
}

/// Good wide tables that a narrow party would refuse, and such as a reader of 16
/// bits would take for others.
#[test]
fn wide_tables_come() {
    let times = |holds: fn(&[u32]) -> bool| {
        let tables = of_makings().into_iter().chain(of_desks());
        let wide = tables.filter(|(width, n, table)| {
            *width == Wide && table.len() == *n && !bad_entry(Wide, table)
        });
        wide.filter(|(_, _, table)| holds(table)).count()
    };
    assert!(times(|table| table.contains(&65_521)) >= 5);
    assert!(times(|table| table.contains(&65_536)) >= 5);
    assert!(times(|table| table.iter().all(|&x| x > 65_520)) >= 50);
    assert!(times(|table| table.iter().all(|x| (65_500..65_600).contains(x))) >= 10);
}

// ---- what comes of them ----

/// On tables other than 1 to n: every size opens, and every t repairs and opens
/// after it, often.
#[test]
fn runs_with_tables_succeed() {
    let mut opened = BTreeSet::new();
    let mut repaired = [0; 4];
    let mut opened_after = [0; 4];
    for step in steps() {
        let Party {
            n,
            t,
            number,
            table,
            happy,
            ..
        } = &step.after;
        if is_one_to_n(*n, table) || step.answer.result.is_err() {
            continue;
        }
        let unhappy = *happy != 0 && happy >> (number - 1) & 1 == 0;
        match step.call {
            Call::Settle(_) if unhappy => repaired[*t] += 1,
            Call::Open(..) => {
                opened.insert((*n, *t));
                opened_after[*t] += usize::from(unhappy);
            }
            _ => {}
        }
    }
    let sizes = (1..=3).flat_map(|t| (4 * t + 1..=16).map(move |n| (n, t)));
    assert_eq!(opened, sizes.collect());
    assert!(
        repaired[1..].iter().all(|&times| times >= 15),
        "{repaired:?}"
    );
    assert!(opened_after[1..].iter().all(|&times| times >= 15));
}

/// The refusal, 0 for none, and how often.
fn answered(holds: impl Fn(&Step) -> bool) -> (BTreeSet<u8>, usize) {
    let met: Vec<&Step> = steps().iter().filter(|step| holds(step)).collect();
    let refusal = |step: &&Step| step.answer.result.as_ref().err().copied().unwrap_or(0);
    (met.iter().map(refusal).collect(), met.len())
}

/// Parties whose table is refused, and nothing else of them.
fn only_table_is_bad(party: &Party) -> bool {
    party.check_made().is_ok() && bad_entry(party.width, &party.table)
}

/// A list of the right length for the party.
fn right_length(step: &Step) -> bool {
    let (n, t) = (step.before.n, step.before.t);
    match &step.call {
        Call::Deal(_, list) => list.len() == 2 * (t + 1),
        Call::Hear(_, list) => list.len() == 2 * n,
        Call::Settle(list) => list.len() == n,
        Call::Open(_, list) | Call::Locate(_, list) => list.len() == n,
        _ => panic!("no list"),
    }
}

/// A call that lends a list, of the party's own prime.
fn has_list(step: &Step, waiting: bool) -> bool {
    if call_width(&step.call).is_some_and(|width| width != step.before.width) {
        return false;
    }
    match step.call {
        Call::Deal(..) => waiting,
        Call::Hear(..) | Call::Settle(_) => true,
        Call::Open(..) | Call::Locate(..) => true,
        _ => false,
    }
}

/// 2 before 14, 3 before 14, 14 before 4, and 14 alone: each often.
#[test]
fn order_at_a_party() {
    let named = |step: &Step, right: bool| match step.call {
        Call::Say(j) => (1..=step.before.n).contains(&j) == right,
        _ => false,
    };
    let bad = |step: &Step| only_table_is_bad(&step.before);
    let (met, times) = answered(|step| bad(step) && named(step, false));
    assert!(met == BTreeSet::from([2]) && times >= 10, "{met:?} {times}");
    let (met, times) = answered(|step| bad(step) && named(step, true));
    assert!(
        met == BTreeSet::from([14]) && times >= 50,
        "{met:?} {times}"
    );
    let (met, times) = answered(|s| bad(s) && has_list(s, true) && !right_length(s));
    assert!(met == BTreeSet::from([3]) && times >= 50, "{met:?} {times}");
    // At the wrong stage, for such a party is waiting for ever.
    let (met, times) = answered(|s| bad(s) && has_list(s, false) && right_length(s));
    assert!(
        met == BTreeSet::from([14]) && times >= 50,
        "{met:?} {times}"
    );
    let takes = |step: &Step| {
        matches!(step.call, Call::Deal(..)) && has_list(step, true) && right_length(step)
    };
    let (met, times) = answered(|step| bad(step) && takes(step));
    assert!(
        met == BTreeSet::from([14]) && times >= 50,
        "{met:?} {times}"
    );
}

/// 1, 2, 3, 14 at a making.
#[test]
fn order_at_a_making() {
    let made = |holds: fn(bool, bool, bool, bool) -> bool| {
        answered(|step| match &step.call {
            Call::MakeWith(width, n, t, i, table) => holds(
                !legal_size(*n, *t),
                !(1..=*n).contains(i),
                table.len() != *n,
                bad_entry(*width, table),
            ),
            _ => false,
        })
    };
    let (met, times) = made(|size, _, length, bad| size && (length || bad));
    assert!(met == BTreeSet::from([1]) && times >= 5, "{met:?} {times}");
    let (met, times) = made(|size, number, length, bad| !size && number && (length || bad));
    assert!(met == BTreeSet::from([2]) && times >= 2, "{met:?} {times}");
    let (met, times) = made(|size, number, length, bad| !size && !number && length && bad);
    assert!(met == BTreeSet::from([3]) && times >= 10, "{met:?} {times}");
    let (met, times) = made(|size, number, length, bad| !size && !number && !length && bad);
    assert!(
        met == BTreeSet::from([14]) && times >= 10,
        "{met:?} {times}"
    );
}

/// What is wrong with a desk's call with a table: size, the lengths of list,
/// room and table, the table's entries, the list's numbers.
type Faults = (bool, [bool; 3], bool, bool);

fn desk_faults(step: &Step) -> Option<Faults> {
    let Call::DeskWith(desk, table) = &step.call else {
        return None;
    };
    let (n, t) = (desk.n, desk.t);
    let lengths = [
        desk.coefs.len() != (t + 1).saturating_mul(t + 1),
        desk.room != (2 * n).saturating_mul(t + 1),
        table.len() != n,
    ];
    let large = desk.coefs.iter().any(|&c| !desk.width.is_sent(c));
    let bad = bad_entry(desk.width, table);
    Some((!legal_size(n, t), lengths, bad, large))
}

/// 1, 3, 14, 5 at the desk.
#[test]
fn order_at_the_desk() {
    let with = |holds: fn(Faults) -> bool| answered(|step| desk_faults(step).is_some_and(holds));
    let none = [false; 3];
    let (met, times) = with(|(size, _, bad, _)| size && bad);
    assert!(met == BTreeSet::from([1]) && times >= 5, "{met:?} {times}");
    for k in 0..3 {
        let mut one = none;
        one[k] = true;
        let alone = |(size, lengths, bad, _): Faults| !size && lengths == one && bad;
        let (met, times) = answered(|step| desk_faults(step).is_some_and(alone));
        assert!(met == BTreeSet::from([3]) && times >= 5, "{k} {times}");
    }
    for (large, refusal, least) in [(true, 14, 5), (false, 14, 20)] {
        let faults = Some((false, none, true, large));
        let (met, times) = answered(|step| desk_faults(step) == faults);
        assert!(
            met == BTreeSet::from([refusal]) && times >= least,
            "{times}"
        );
    }
    let (met, times) = answered(|step| desk_faults(step) == Some((false, none, false, true)));
    assert!(met == BTreeSet::from([5]) && times >= 10, "{met:?} {times}");
}
