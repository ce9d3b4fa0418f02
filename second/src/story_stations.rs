//! Stories of whole runs with a table of station numbers. If not said otherwise
//! it is that of the examples, n = 5, t = 1, and the dealer's list is F.

use crate::calls::Call;
use crate::field::Width::Narrow;
use crate::field::NOT_SENT;
use crate::follow;
use crate::named::F;
use crate::record::Record;
use crate::stations::{point, STATIONS};
use crate::story_runs::{
    drawing_liars, nothing, open_with, party_calls, run_on, says, tell, Liar, SIXTEEN,
};

/// The same station numbers in another order.
pub const REORDERED: [u32; 5] = [3, 65_520, 40_961, 21_000, 7];

/// The same but for the last.
pub const LAST_ENTRY_OFF: [u32; 5] = [40_961, 7, 65_520, 3, 20_999];

/// Sixteen station numbers, small and large ones among them.
pub const SIXTEEN_STATIONS: [u32; 16] = [
    65_520, 2, 30_011, 16, 1, 65_519, 777, 40_000, 5, 12_345, 61_007, 9, 32_768, 255, 256, 54_321,
];

/// What the liars among sixteen send is drawn with this seed.
const SEED: u64 = 1606;

// ---- pieces ----

/// The same calls, each making and each desk with a table.
pub fn with_table(calls: Vec<Call>, table: &[u32]) -> Vec<Call> {
    let add_table = |call| match call {
        Call::Make(width, n, t, i) => Call::MakeWith(width, n, t, i, table.to_vec()),
        Call::Desk(desk) => Call::DeskWith(desk, table.to_vec()),
        other => other,
    };
    calls.into_iter().map(add_table).collect()
}

/// A run of honest parties and liars on the examples' table, told.
fn told(deals: Vec<u32>, liars: &[Liar], more: impl Fn(&Record, usize) -> Vec<Call>) -> Vec<Call> {
    let record = run_on(Narrow, &STATIONS, 1, deals, liars);
    let calls = tell(&[&F], &record, liars, |i| more(&record, i));
    with_table(calls, &STATIONS)
}

fn honest_deals() -> Vec<u32> {
    follow::deals(Narrow, &STATIONS, 1, &F)
}

// ---- liars and repair ----

/// Party 3 tells each listener other numbers. Party 1 hears a right second one
/// and party 2 a right first one.
pub fn liar() -> Vec<Call> {
    let liars = [Liar {
        number: 3,
        pairs: vec![
            (1, 1001, 49_124),
            (2, 65_519, 2002),
            (4, 4001, 4002),
            (5, 5001, 5002),
        ],
        report: 54_321,
        share: 999,
    }];
    told(honest_deals(), &liars, |_, i| nothing(i))
}

/// Party 5's row is one off in its second number: it misses the column.
fn unsound_deals() -> Vec<u32> {
    let mut deals = honest_deals();
    deals[17] += 1;
    deals
}

/// Party 3 lies to party 5 alone, which repairs its column all the same.
pub fn repair() -> Vec<Call> {
    let liars = [Liar {
        number: 3,
        pairs: vec![(5, 1234, 5678)],
        report: 11,
        share: 999,
    }];
    told(unsound_deals(), &liars, |_, i| match i {
        5 => says(5),
        _ => nothing(i),
    })
}

/// Two lie to party 5, one more than may be: it is closed. The others open if
/// its number is missing, also with a lie as well, not with two.
pub fn two_liars() -> Vec<Call> {
    let liars = [(2, 4321, 998), (3, 1234, 999)].map(|(number, first, share)| Liar {
        number,
        pairs: vec![(5, first, 5678)],
        report: 15,
        share,
    });
    told(unsound_deals(), &liars, |record, i| match i {
        5 => says(5),
        _ => vec![
            open_with(record, &[(2, 28)]),
            open_with(record, &[(2, 28), (3, 4)]),
        ],
    })
}

/// n = 16, t = 3: as many liars as may be, who draw what they send.
pub fn sixteen() -> Vec<Call> {
    let liars = drawing_liars(Narrow, SEED);
    let deals = follow::deals(Narrow, &SIXTEEN_STATIONS, 3, &SIXTEEN);
    let record = run_on(Narrow, &SIXTEEN_STATIONS, 3, deals, &liars);
    let calls = tell(&[&SIXTEEN], &record, &liars, nothing);
    with_table(calls, &SIXTEEN_STATIONS)
}

// ---- other tables ----

/// All honest on the reordered table. The shares of the examples' table stand
/// at the wrong points here: party 1 is shown them too.
pub fn order() -> Vec<Call> {
    let record = run_on(
        Narrow,
        &REORDERED,
        1,
        follow::deals(Narrow, &REORDERED, 1, &F),
        &[],
    );
    let first = run_on(Narrow, &STATIONS, 1, honest_deals(), &[]);
    let calls = tell(&[&F], &record, &[], |i| match i {
        1 => vec![Call::Open(Narrow, first.shares.clone())],
        _ => nothing(i),
    });
    with_table(calls, &REORDERED)
}

/// Party 2 has loaded another table than the dealer and all others. It follows
/// the protocol by its own.
fn party_2_with(table: &[u32]) -> Vec<Call> {
    let others = run_on(Narrow, &STATIONS, 1, honest_deals(), &[]);
    let dealt = follow::dealt_party(&others, table, 2);
    let said = |listener: usize| {
        let (first, second) = dealt.say(listener).expect("dealt");
        (listener, first, second)
    };
    let mut odd = [Liar {
        number: 2,
        pairs: (1..=5).map(said).collect(),
        report: follow::reported_party(&others, table, 2).report,
        share: NOT_SENT,
    }];
    let record = run_on(Narrow, &STATIONS, 1, honest_deals(), &odd);
    if let (party, Ok(())) = follow::settled_party(&record, table, 2) {
        odd[0].share = party.share;
    }
    let record = run_on(Narrow, &STATIONS, 1, honest_deals(), &odd);
    let mut calls = with_table(tell(&[&F], &record, &odd, nothing), &STATIONS);
    calls.extend(with_table(party_calls(&record, 2), table));
    calls
}

/// The same numbers in another order: its deal does not cross for it.
pub fn other_table() -> Vec<Call> {
    party_2_with(&REORDERED)
}

/// One entry differs, that of party 5: party 2 and party 5 do not agree.
pub fn one_entry() -> Vec<Call> {
    party_2_with(&LAST_ENTRY_OFF)
}

// ---- the own-crossing trap ----

/// The trap on the points of the table: party 3's row and party 2's column are
/// 0 at party 1's point and cross each other rightly; all else is 0.
pub fn trap() -> Vec<Call> {
    let [one, two, three] = [1, 2, 3].map(|i| point(&STATIONS, i));
    // c(X - one), as two numbers.
    let line = |c: u64| [Narrow.sub(0, Narrow.mul(c, one)) as u32, c as u32];
    let mut deals = vec![0; 20];
    deals[6..8].copy_from_slice(&line(Narrow.sub(two, one)));
    deals[8..10].copy_from_slice(&line(Narrow.sub(three, one)));
    let record = run_on(Narrow, &STATIONS, 1, deals, &[]);
    with_table(tell(&[], &record, &[], nothing), &STATIONS)
}
