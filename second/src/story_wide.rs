//! Stories of whole runs of wide parties. If not said otherwise n = 5, t = 1, and
//! the dealer's list is the wide one.

use crate::calls::Call;
use crate::field::Width::Wide;
use crate::field::{WIDE_NOT_SENT, WIDE_P};
use crate::follow;
use crate::named::F;
use crate::record::Record;
use crate::stations::one_to;
use crate::story_runs::{drawing_liars, nothing, open_with, run_on, says, tell, Liar, OTHER};
use crate::story_stations::with_table;

/// -1 + 65536X + 65521Y + 1000000007XY.
pub const WIDE_F: [u32; 4] = [2_147_483_646, 65_521, 65_536, 1_000_000_007];

/// Five station numbers, of which only the last is one to a narrow party.
pub const WIDE_STATIONS: [u32; 5] = [2_147_483_646, 65_521, 65_536, 1_000_000_007, 3];

/// A list for sixteen parties and t = 3.
pub const WIDE_SIXTEEN: [u32; 16] = [
    1_234_567_890,
    2_147_483_646,
    2,
    65_521,
    65_520,
    1,
    0,
    2_000_000_011,
    777,
    65_536,
    1_073_741_824,
    3,
    9,
    1_999_999_999,
    65_535,
    2_147_483_645,
];

/// Sixteen station numbers, around the narrow prime, small and large.
pub const SIXTEEN_WIDE_STATIONS: [u32; 16] = [
    2_147_483_646,
    65_520,
    65_521,
    65_522,
    1,
    65_535,
    65_536,
    65_537,
    2_147_483_645,
    1_073_741_824,
    131_072,
    16,
    2_000_000_011,
    256,
    16_777_216,
    1_073_741_823,
];

/// The prime, which is the first number that is not sent.
const PRIME: u32 = WIDE_P as u32;

/// What the liars among sixteen send is drawn with these seeds.
const SEEDS: [u64; 2] = [1612, 1613];

// ---- runs ----

/// A run of honest parties and liars with a table of points, told.
fn told(
    table: Option<&[u32]>,
    deals: Vec<u32>,
    liars: &[Liar],
    more: impl Fn(&Record, usize) -> Vec<Call>,
) -> Vec<Call> {
    let points = table.map_or(one_to(5), <[u32]>::to_vec);
    let record = run_on(Wide, &points, 1, deals, liars);
    let calls = tell(&[&WIDE_F], &record, liars, |i| more(&record, i));
    match table {
        Some(table) => with_table(calls, table),
        None => calls,
    }
}

fn honest_deals(coefs: &[u32]) -> Vec<u32> {
    follow::deals(Wide, &one_to(5), 1, coefs)
}

/// The story of the honest, wide: the same list, the same shares.
pub fn honest() -> Vec<Call> {
    let record = run_on(Wide, &one_to(5), 1, honest_deals(&F), &[]);
    tell(&[&F], &record, &[], |i| match i {
        1 => vec![
            open_with(&record, &[(3, 999)]),
            open_with(&record, &[(3, 999), (4, 998)]),
        ],
        _ => nothing(i),
    })
}

/// Party 3 tells 1 a right second number and 2 a right first one, 4 the right
/// ones with the prime added, and 5 what is not sent.
pub fn liar() -> Vec<Call> {
    let liars = [Liar {
        number: 3,
        pairs: vec![
            (1, 1001, 852_778_502),
            (2, 1_705_360_382, 2002),
            (4, 1_263_040_555 + PRIME, 1_263_040_540 + PRIME),
            (5, PRIME, WIDE_NOT_SENT),
        ],
        report: 54_321,
        share: 999,
    }];
    told(None, honest_deals(&WIDE_F), &liars, |_, i| nothing(i))
}

/// Party 5's row is one off in its second number: it misses the column.
fn unsound(table: &[u32]) -> Vec<u32> {
    let mut deals = follow::deals(Wide, table, 1, &WIDE_F);
    deals[17] += 1;
    deals
}

/// Party 3 lies to party 5 alone, which repairs its column all the same.
fn repaired(table: Option<&[u32]>) -> Vec<Call> {
    let liars = [Liar {
        number: 3,
        pairs: vec![(5, 1234, 5678)],
        report: 11,
        share: PRIME,
    }];
    let points = table.map_or(one_to(5), <[u32]>::to_vec);
    told(table, unsound(&points), &liars, |_, i| match i {
        5 => says(5),
        _ => nothing(i),
    })
}

pub fn repair() -> Vec<Call> {
    repaired(None)
}

/// The same at stations whose numbers are too large for a narrow party.
pub fn stations() -> Vec<Call> {
    repaired(Some(&WIDE_STATIONS))
}

/// Two lie to party 5, one more than may be: it is closed. The others open if
/// its number is missing, also with a lie as well, not with two.
pub fn two_liars() -> Vec<Call> {
    let liars = [(2, 4321, 998), (3, PRIME, 999)].map(|(number, first, share)| Liar {
        number,
        pairs: vec![(5, first, 5678)],
        report: 15,
        share,
    });
    told(None, unsound(&one_to(5)), &liars, |record, i| match i {
        5 => says(5),
        _ => vec![
            open_with(record, &[(2, 131_071)]),
            open_with(record, &[(2, 131_071), (3, 196_607)]),
        ],
    })
}

/// Parties 1 and 2 are dealt the wide list, the others another one.
pub fn rejected() -> Vec<Call> {
    let mut deals = honest_deals(&OTHER);
    deals[..8].copy_from_slice(&honest_deals(&WIDE_F)[..8]);
    let mut record = run_on(Wide, &one_to(5), 1, deals, &[]);
    record.shares = vec![65_535, 131_071, 196_607, 262_143, 327_679];
    tell(&[&WIDE_F, &OTHER], &record, &[], |_| says(5))
}

/// n = 16, t = 3: as many liars as may be, who draw what they send.
pub fn sixteen() -> Vec<Call> {
    let liars = drawing_liars(Wide, SEEDS[0]);
    let deals = follow::deals(Wide, &one_to(16), 3, &WIDE_SIXTEEN);
    let record = run_on(Wide, &one_to(16), 3, deals, &liars);
    tell(&[&WIDE_SIXTEEN], &record, &liars, nothing)
}

/// The same with a table.
pub fn stations_sixteen() -> Vec<Call> {
    let table = &SIXTEEN_WIDE_STATIONS;
    let liars = drawing_liars(Wide, SEEDS[1]);
    let deals = follow::deals(Wide, table, 3, &WIDE_SIXTEEN);
    let record = run_on(Wide, table, 3, deals, &liars);
    let calls = tell(&[&WIDE_SIXTEEN], &record, &liars, nothing);
    with_table(calls, table)
}

/// The own-crossing trap: rows 0, 0, -2+2X and columns 0, -1+Y, 0; parties 4 and
/// 5 hold zeros. No desk deals so, and none is called.
pub fn trap() -> Vec<Call> {
    let mut deals = vec![0; 20];
    deals[4..8].copy_from_slice(&[0, 0, PRIME - 1, 1]);
    deals[8..12].copy_from_slice(&[PRIME - 2, 2, 0, 0]);
    let record = run_on(Wide, &one_to(5), 1, deals, &[]);
    tell(&[], &record, &[], nothing)
}

// ---- numbers at the edges ----

/// Party 1 is dealt constants around both primes, then asked for a pair; those
/// from the wide prime up make the deal unsound. Last it opens such numbers.
pub fn edges() -> Vec<Call> {
    let mut calls = Vec::new();
    for number in [65_520, 65_521, 65_535, 65_536, PRIME - 1] {
        calls.extend(dealt(number));
    }
    for number in [PRIME, PRIME + 1, WIDE_NOT_SENT] {
        calls.extend(dealt(number));
    }
    let record = run_on(Wide, &one_to(5), 1, honest_deals(&[65_535, 0, 0, 0]), &[]);
    calls.extend(tell(&[], &record, &[], nothing).into_iter().take(10));
    for number in [65_521, PRIME - 1, PRIME, WIDE_NOT_SENT] {
        calls.push(open_with(&record, &[(3, number)]));
        calls.push(open_with(&record, &[(3, number), (4, number)]));
        calls.push(Call::Open(Wide, vec![number; 5]));
    }
    calls
}

/// A new party 1, dealt constant polynomials.
fn dealt(number: u32) -> Vec<Call> {
    vec![
        Call::Make(Wide, 5, 1, 1),
        Call::Deal(Wide, vec![number, 0, number, 0]),
        Call::Say(2),
    ]
}
