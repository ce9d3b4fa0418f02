//! Stories of tables that are refused, at a making, at the desk and at every
//! later call; and of the table 1 to n, which is as good as none.

use crate::calls::{Call, Desk};
use crate::field::Width::{self, Narrow};
use crate::named::F;
use crate::stations::{one_to, STATIONS};
use crate::story_refusals::stages;
use crate::story_runs::unsound;
use crate::story_stations::with_table;

/// Tables with a bad entry: 0, too large, or there twice, at both ends.
const BAD_ENTRIES: [[u32; 5]; 11] = [
    [0, 7, 65_520, 3, 21_000],
    [40_961, 7, 0, 3, 21_000],
    [40_961, 7, 65_520, 3, 0],
    [65_521, 7, 65_520, 3, 21_000],
    [40_961, 7, 65_520, 3, 65_521],
    [40_961, 65_535, 65_520, 3, 21_000],
    [40_961, 7, 65_520, 3, 40_961],
    [40_961, 7, 65_520, 21_000, 21_000],
    [7, 7, 65_520, 3, 21_000],
    [40_961, 3, 65_520, 3, 21_000],
    [0; 5],
];

/// Tables of another length, good ones and bad ones.
const BAD_LENGTHS: [&[u32]; 6] = [
    &[],
    &[40_961, 7, 65_520, 3],
    &[40_961, 7, 65_520, 3, 21_000, 1],
    &[0, 7, 65_520, 3],
    &[40_961, 7, 65_520, 3, 21_000, 0],
    &[7, 7, 7, 7, 7, 7, 7, 7, 7, 7],
];

/// Both sorts, one after the other.
fn bad_tables() -> Vec<Vec<u32>> {
    let entries = BAD_ENTRIES.iter().map(|table| table.to_vec());
    let lengths = BAD_LENGTHS.iter().map(|table| table.to_vec());
    entries.chain(lengths).collect()
}

/// Each bad table at a making, and a call to the party that was made. Then
/// those with a wrong size or number besides; last tables that are taken.
pub fn makings() -> Vec<Call> {
    let mut calls = Vec::new();
    for table in bad_tables() {
        calls.push(Call::MakeWith(Narrow, 5, 1, 2, table));
        calls.push(Call::Say(1));
    }
    let zero = BAD_ENTRIES[0].to_vec();
    let short = BAD_LENGTHS[1].to_vec();
    for (n, t, i, table) in [
        (4, 1, 2, short.clone()),
        (5, 2, 2, zero.clone()),
        (4, 1, 9, zero.clone()),
        (5, 1, 6, zero),
        (5, 1, 0, short),
        (5, 1, 6, STATIONS.to_vec()),
        (5, 1, 2, vec![65_520, 1, 65_519, 2, 65_518]),
        (5, 1, 2, STATIONS.to_vec()),
    ] {
        calls.push(Call::MakeWith(Narrow, n, t, i, table));
        calls.push(Call::Say(1));
    }
    calls
}

/// Each bad table at the desk; then with other things wrong, of which the first
/// is told; last a table that is taken.
pub fn desks() -> Vec<Call> {
    let desk = |n: usize, room: usize, coefs: &[u32], table: &[u32]| {
        let coefs = coefs.to_vec();
        let desk = Desk {
            width: Narrow,
            n,
            t: 1,
            room,
            coefs,
        };
        Call::DeskWith(desk, table.to_vec())
    };
    let large = [7, 2, 3, 65_521];
    let zero = BAD_ENTRIES[0];
    let short = BAD_LENGTHS[1];
    let tables = bad_tables();
    let mut calls: Vec<Call> = tables.iter().map(|table| desk(5, 20, &F, table)).collect();
    calls.extend([
        desk(4, 16, &F, short),
        desk(4, 16, &F, &zero[..4]),
        desk(5, 20, &F[..3], &zero),
        desk(5, 19, &F, &zero),
        desk(5, 20, &large, short),
        desk(5, 20, &F[..3], short),
        desk(5, 20, &large, &zero),
        desk(5, 20, &large, &STATIONS),
        desk(5, 19, &F, &STATIONS),
        desk(5, 20, &F, &STATIONS),
    ]);
    calls
}

/// Every call: pairs for 0 to 6; lists of each sort that are too short, too
/// long or empty; then lists of the right length, all but the last of which
/// come at the wrong stage too.
pub fn every_call(width: Width) -> Vec<Call> {
    let not_sent = width.not_sent();
    let lengths = [10, 5, 5, 4];
    let mut calls: Vec<Call> = (0..=6).map(Call::Say).collect();
    for (sort, length) in lengths.into_iter().enumerate() {
        for wrong in [length - 1, length + 1, 0] {
            calls.push(lending(width, sort, wrong, not_sent));
        }
    }
    for (sort, length) in lengths.into_iter().enumerate() {
        calls.push(lending(width, sort, length, 0));
    }
    calls
}

/// A call that lends a list of so many equal numbers: pairs, reports, shares or
/// a deal.
fn lending(width: Width, sort: usize, length: usize, number: u32) -> Call {
    let list = vec![number; length];
    match sort {
        0 => Call::Hear(width, list),
        1 => Call::Settle(vec![number as u16; length]),
        2 => Call::Open(width, list),
        _ => Call::Deal(width, list),
    }
}

/// A party with a 0 in its table, one whose table was too short, and one with a
/// good table are asked for the same.
pub fn calls() -> Vec<Call> {
    let tables = [&BAD_ENTRIES[1][..], BAD_LENGTHS[1], &STATIONS];
    tables
        .into_iter()
        .flat_map(|table| {
            let make = Call::MakeWith(Narrow, 5, 1, 2, table.to_vec());
            [vec![make], every_call(Narrow)].concat()
        })
        .collect()
}

/// The story of a repair, with the table 1 to 5.
pub fn one_to_n_unsound() -> Vec<Call> {
    with_table(unsound(), &one_to(5))
}

/// The story of a party at each stage, with the table 1 to 5.
pub fn one_to_n_stages() -> Vec<Call> {
    with_table(stages(Narrow), &one_to(5))
}
