//! Stories of refusals of wide parties and desks, and of parties that are called
//! for the other prime. n = 5, t = 1.

use crate::calls::{of_other_width, Call, Desk};
use crate::field::Width::{self, Narrow, Wide};
use crate::field::{WIDE_NOT_SENT, WIDE_P};
use crate::named::F;
use crate::stations::STATIONS;
use crate::story_refusals::{badly_made, closed, every_call, lists, stages, too_short};
use crate::story_runs::{deal_by_desk, says};
use crate::story_stations::with_table;
use crate::story_tables;
use crate::story_wide::{WIDE_F, WIDE_STATIONS};

/// The prime, which is the first number that is not sent.
const PRIME: u32 = WIDE_P as u32;

// ---- refusals ----

/// The lowest refusal comes, whatever else is wrong too. 65,541 and 65,537 are
/// 5 and 1 to a reader of 16 bits.
pub fn desk() -> Vec<Call> {
    let large = [PRIME, 2, 3, 4];
    let refused: [(usize, usize, usize, &[u32]); 13] = [
        (4, 1, 16, &F),
        (4, 1, 16, &large),
        (65_541, 1, 20, &F),
        (5, 65_537, 20, &F),
        (4_294_967_295, 4_294_967_295, 20, &F),
        (5, 1, 20, &F[..3]),
        (5, 1, 19, &F),
        (5, 1, 0, &large),
        (5, 1, 20, &large[..3]),
        (5, 1, 20, &large),
        (5, 1, 20, &[7, 2, 3, PRIME]),
        (5, 1, 20, &[7, 2, PRIME + 1, 4]),
        (5, 1, 20, &[7, WIDE_NOT_SENT, 3, 4]),
    ];
    let mut calls: Vec<Call> = refused
        .into_iter()
        .map(|(n, t, room, coefs)| {
            Call::Desk(Desk {
                width: Wide,
                n,
                t,
                room,
                coefs: coefs.to_vec(),
            })
        })
        .collect();
    calls.push(deal_by_desk(Wide, 5, 1, &[65_521, 65_535, 65_536, 4]));
    calls.push(deal_by_desk(Wide, 5, 1, &[PRIME - 1; 4]));
    calls
}

/// Parties badly made, and such as are rightly made to a reader of 16 bits.
pub fn made() -> Vec<Call> {
    let mut calls = badly_made(Wide);
    for (n, t, i) in [
        (65_541, 1, 2),
        (5, 65_537, 2),
        (5, 1, 65_538),
        (4_294_967_295, 1, 4_294_967_295),
        (5, 1, 2_147_483_650),
        (5, 1, 2),
    ] {
        calls.push(Call::Make(Wide, n, t, i));
        calls.push(Call::Say(1));
    }
    calls
}

/// A wide party at each stage, as a narrow one was.
pub fn at_stages() -> Vec<Call> {
    stages(Wide)
}

pub fn when_closed() -> Vec<Call> {
    closed(Wide)
}

/// Tables with a bad entry, and some of another length.
const BAD_TABLES: [&[u32]; 10] = [
    &[0, 65_521, 65_536, 1_000_000_007, 3],
    &[2_147_483_646, 65_521, 65_536, 1_000_000_007, 0],
    &[PRIME, 65_521, 65_536, 1_000_000_007, 3],
    &[2_147_483_646, 65_521, PRIME + 1, 1_000_000_007, 3],
    &[2_147_483_646, 65_521, 65_536, 1_000_000_007, WIDE_NOT_SENT],
    &[65_521, 65_521, 65_536, 1_000_000_007, 3],
    &[2_147_483_646, 3, 65_536, 1_000_000_007, 3],
    &[],
    &[2_147_483_646, 65_521, 65_536, 1_000_000_007],
    &[2_147_483_646, 65_521, 65_536, 1_000_000_007, 3, 0],
];

/// Each at a making with a call behind it, and at the desk, there also with a
/// number too large; then tables with a wrong size or number besides, and such
/// as are taken. Numbers that a reader of 16 bits takes for 0, or for the same,
/// are good ones.
pub fn tables() -> Vec<Call> {
    let make =
        |n, t, i, table: &[u32]| [Call::MakeWith(Wide, n, t, i, table.to_vec()), Call::Say(1)];
    let desk =
        |coefs: &[u32], table: &[u32]| with_table(vec![deal_by_desk(Wide, 5, 1, coefs)], table);
    let mut calls = Vec::new();
    for table in BAD_TABLES {
        calls.extend(make(5, 1, 2, table));
        calls.extend(desk(&WIDE_F, table));
        calls.extend(desk(&[PRIME; 4], table));
    }
    calls.extend(make(4, 1, 2, BAD_TABLES[0]));
    calls.extend(make(65_541, 1, 2, &WIDE_STATIONS));
    calls.extend(make(5, 1, 65_538, BAD_TABLES[0]));
    calls.extend(with_table(
        vec![deal_by_desk(Wide, 4, 1, &F)],
        &WIDE_STATIONS,
    ));
    for table in [[65_536, 131_072, 1, 65_537, 131_073], STATIONS] {
        calls.extend(make(5, 1, 2, &table));
        calls.extend(desk(&[PRIME; 4], &table));
        calls.extend(desk(&WIDE_F, &table));
    }
    calls
}

/// A wide party with a bad table, one whose table was too short and one with a
/// good one are asked for the same.
pub fn tables_calls() -> Vec<Call> {
    [BAD_TABLES[2], BAD_TABLES[8], &WIDE_STATIONS]
        .into_iter()
        .flat_map(|table| {
            let make = Call::MakeWith(Wide, 5, 1, 2, table.to_vec());
            [vec![make], story_tables::every_call(Wide)].concat()
        })
        .collect()
}

// ---- the other prime ----

/// The lists of an honest run of the other prime, of the right lengths, too
/// short and empty. Settling is for both, so it is not among them.
fn of_other_prime(width: Width) -> Vec<Call> {
    let [deal, hear, _, open] = lists(width.other(), &F);
    let right = [deal, hear, open];
    let mut calls = right.to_vec();
    calls.extend(right.map(too_short));
    let other = width.other();
    calls.extend([
        Call::Deal(other, vec![]),
        Call::Hear(other, vec![]),
        Call::Open(other, vec![]),
    ]);
    calls
}

/// Party 2 from waiting to holding, called for the other prime at each stage;
/// then another one that is closed.
fn party_of(width: Width) -> Vec<Call> {
    let mut calls = vec![Call::Make(width, 5, 1, 2)];
    for call in lists(width, &F) {
        calls.extend(of_other_prime(width));
        calls.push(call);
    }
    let [deal, hear, _, open] = lists(width, &F);
    calls.extend([Call::Make(width, 5, 1, 2), deal, hear]);
    calls.push(Call::Settle(vec![0, 29, 0, 0, 0]));
    calls.extend(of_other_prime(width));
    calls.push(open);
    calls.extend(says(5));
    calls
}

/// A wide party, called for narrow numbers.
pub fn wide_party() -> Vec<Call> {
    party_of(Wide)
}

/// A narrow party, called for wide numbers.
pub fn narrow_party() -> Vec<Call> {
    party_of(Narrow)
}

/// A wrong size or number comes before the other prime; a wrong length, a bad
/// table and the wrong stage come after it.
pub fn order() -> Vec<Call> {
    let bad = [0, 7, 65_520, 3, 21_000];
    let mut calls = Vec::new();
    for width in [Wide, Narrow] {
        let table = |table: &[u32]| Call::MakeWith(width, 5, 1, 2, table.to_vec());
        for make in [
            Call::Make(width, 4, 1, 0),
            Call::Make(width, 5, 1, 6),
            table(&bad),
            table(&bad[1..]),
            table(&STATIONS),
        ] {
            calls.push(make);
            calls.extend(every_call(width, 5).into_iter().map(of_other_width));
            calls.extend(every_call(width, 5));
        }
    }
    calls
}

/// Narrow and wide desks and makings one after the other: each is of its own
/// prime, whatever party there is.
pub fn desks() -> Vec<Call> {
    let mut calls = Vec::new();
    for width in [Wide, Narrow] {
        calls.push(Call::Make(width, 5, 1, 1));
        for desk in [Narrow, Wide] {
            calls.push(deal_by_desk(desk, 5, 1, &F));
            calls.push(deal_by_desk(desk, 5, 1, &[65_521, 2, 3, 4]));
            let with_stations = deal_by_desk(desk, 5, 1, &F);
            calls.extend(with_table(vec![with_stations], &[65_521, 1, 2, 3, 4]));
        }
    }
    calls
}
