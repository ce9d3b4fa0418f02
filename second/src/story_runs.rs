//! Stories of whole runs. What a party sends is what its own calls answer; a
//! liar is not called at all, and what it sends stands in the others' lists.

use crate::calls::{Call, Desk};
use crate::field::Width::{self, Narrow};
use crate::field::NOT_SENT;
use crate::follow;
use crate::named::F;
use crate::record::{pair_place, Record};
use crate::rng::Rng;
use crate::scenario::honest_deals;
use crate::stations::one_to;

/// Another dealer's list: 1000 + 300X + 20Y - XY.
pub const OTHER: [u32; 4] = [1000, 20, 300, 65_520];

/// A list for sixteen parties and t = 3.
pub const SIXTEEN: [u32; 16] = [
    31_337, 65_520, 2, 40_000, 65_519, 1, 0, 12_345, 777, 65_432, 54_321, 3, 9, 60_001, 32_768,
    65_520,
];

/// What the liars among sixteen send is drawn with this seed.
const SEED: u64 = 1603;

/// A party that sends what it likes.
pub struct Liar {
    pub number: usize,
    /// A listener and the two numbers it is told. The others are told what
    /// an honest party would say.
    pub pairs: Vec<(usize, u32, u32)>,
    pub report: u16,
    pub share: u32,
}

// ---- pieces ----

/// The narrow run of these deals with the points 1 to n.
fn run(n: usize, t: usize, deals: Vec<u32>, liars: &[Liar]) -> Record {
    run_on(Narrow, &one_to(n), t, deals, liars)
}

/// The run of these deals with the points of a table: all follow the protocol,
/// except the liars.
pub fn run_on(width: Width, table: &[u32], t: usize, deals: Vec<u32>, liars: &[Liar]) -> Record {
    let n = table.len();
    let mut record = Record {
        width,
        n,
        t,
        deals,
        pairs: vec![0; 2 * n * n],
        reports: vec![0; n],
        shares: vec![0; n],
    };
    follow::pairs(&mut record, table);
    for liar in liars {
        for &(listener, first, second) in &liar.pairs {
            let place = pair_place(n, listener, liar.number);
            record.pairs[place] = first;
            record.pairs[place + 1] = second;
        }
    }
    follow::reports(&mut record, table);
    for liar in liars {
        record.reports[liar.number - 1] = liar.report;
    }
    follow::shares(&mut record, table);
    for liar in liars {
        record.shares[liar.number - 1] = liar.share;
    }
    record
}

/// The desk, asked to deal this list with room of the right length.
pub fn deal_by_desk(width: Width, n: usize, t: usize, coefs: &[u32]) -> Call {
    Call::Desk(Desk {
        width,
        n,
        t,
        room: 2 * n * (t + 1),
        coefs: coefs.to_vec(),
    })
}

/// Party i's stretch of the deals.
pub fn deal_of(record: &Record, i: usize) -> Vec<u32> {
    let length = 2 * (record.t + 1);
    record.deals[(i - 1) * length..i * length].to_vec()
}

/// The pairs that party i hears.
pub fn heard_by(record: &Record, i: usize) -> Vec<u32> {
    let start = pair_place(record.n, i, 1);
    record.pairs[start..start + 2 * record.n].to_vec()
}

/// The pairs for all, the party itself among them.
pub fn says(n: usize) -> Vec<Call> {
    (1..=n).map(Call::Say).collect()
}

/// An opening with some of the published shares replaced.
pub fn open_with(record: &Record, replaced: &[(usize, u32)]) -> Call {
    let mut shares = record.shares.clone();
    for &(j, share) in replaced {
        shares[j - 1] = share;
    }
    Call::Open(record.width, shares)
}

/// Party i from its making to an opening.
pub fn party_calls(record: &Record, i: usize) -> Vec<Call> {
    let mut calls = vec![
        Call::Make(record.width, record.n, record.t, i),
        Call::Deal(record.width, deal_of(record, i)),
    ];
    calls.extend(says(record.n));
    calls.push(Call::Hear(record.width, heard_by(record, i)));
    calls.push(Call::Settle(record.reports.clone()));
    calls.push(Call::Open(record.width, record.shares.clone()));
    calls
}

/// A story: the desk deals the lists; then come the calls to all who are no
/// liars, and behind those of each party some more.
pub fn tell(
    lists: &[&[u32]],
    record: &Record,
    liars: &[Liar],
    more: impl Fn(usize) -> Vec<Call>,
) -> Vec<Call> {
    let (n, t) = (record.n, record.t);
    let desk = lists
        .iter()
        .map(|list| deal_by_desk(record.width, n, t, list));
    let parties = (1..=n)
        .filter(|&i| liars.iter().all(|liar| liar.number != i))
        .flat_map(|i| [party_calls(record, i), more(i)].concat());
    desk.chain(parties).collect()
}

pub fn nothing(_: usize) -> Vec<Call> {
    Vec::new()
}

// ---- an honest dealer ----

/// All honest; party 1 then opens through one wrong share, not through two.
pub fn honest() -> Vec<Call> {
    let record = run(5, 1, honest_deals(Narrow, 5, 1, &F), &[]);
    tell(&[&F], &record, &[], |i| match i {
        1 => vec![
            open_with(&record, &[(3, 999)]),
            open_with(&record, &[(3, 999), (4, 998)]),
        ],
        _ => nothing(i),
    })
}

/// Party 3 tells each listener other numbers. Party 1 hears a right second one
/// and party 2 a right first one, so that each alone is seen to be looked at.
pub fn liar() -> Vec<Call> {
    let liars = [Liar {
        number: 3,
        pairs: vec![
            (1, 1001, 30),
            (2, 43, 2002),
            (4, 4001, 4002),
            (5, 5001, 5002),
        ],
        report: 54_321,
        share: 999,
    }];
    let record = run(5, 1, honest_deals(Narrow, 5, 1, &F), &liars);
    tell(&[&F], &record, &liars, nothing)
}

/// As many liars of sixteen parties as may be, who draw what they send.
pub fn drawing_liars(width: Width, seed: u64) -> [Liar; 3] {
    let mut rng = Rng::new(seed);
    [4, 9, 16].map(|number| Liar {
        number,
        pairs: (1..=16)
            .map(|listener| (listener, rng.number(width), rng.number(width)))
            .collect(),
        report: 65_535,
        share: rng.number(width),
    })
}

/// n = 16, t = 3, with three liars.
pub fn sixteen() -> Vec<Call> {
    let liars = drawing_liars(Narrow, SEED);
    let record = run(16, 3, honest_deals(Narrow, 16, 3, &SIXTEEN), &liars);
    tell(&[&SIXTEEN], &record, &liars, nothing)
}

// ---- a faulty dealer ----

/// Party 5's row is 17, 24 instead of 17, 23: it misses the column.
fn unsound_deals() -> Vec<u32> {
    let mut deals = honest_deals(Narrow, 5, 1, &F);
    deals[17] = 24;
    deals
}

/// Party 3 lies to party 5 alone, which repairs its column all the same. What
/// it says stays "not sent" behind the repair.
pub fn unsound() -> Vec<Call> {
    let liars = [Liar {
        number: 3,
        pairs: vec![(5, 1234, 5678)],
        report: 11,
        share: 999,
    }];
    let record = run(5, 1, unsound_deals(), &liars);
    tell(&[&F], &record, &liars, |i| match i {
        5 => says(5),
        _ => nothing(i),
    })
}

/// Two lie to party 5, one more than may be: it is closed and publishes
/// nothing. The others open through that and a lie, not through two lies.
pub fn unsound_two_liars() -> Vec<Call> {
    let liars = [(2, 4321, 998), (3, 1234, 999)].map(|(number, first, share)| Liar {
        number,
        pairs: vec![(5, first, 5678)],
        report: 15,
        share,
    });
    let record = run(5, 1, unsound_deals(), &liars);
    tell(&[&F], &record, &liars, |i| match i {
        5 => says(5),
        _ => vec![
            open_with(&record, &[(5, 22)]),
            open_with(&record, &[(2, 13)]),
            open_with(&record, &[(2, 13), (3, 16)]),
        ],
    })
}

/// Parties 1 and 2 are dealt F, the others another list: too few agree. The
/// closed parties are shown shares that would open, and say their pairs again.
pub fn rejected() -> Vec<Call> {
    let mut deals = honest_deals(Narrow, 5, 1, &OTHER);
    deals[..8].copy_from_slice(&honest_deals(Narrow, 5, 1, &F)[..8]);
    let mut record = run(5, 1, deals, &[]);
    record.shares = vec![10, 13, 16, 19, 22];
    tell(&[&F, &OTHER], &record, &[], |_| says(5))
}

// ---- the own-crossing trap ----

/// Rows 0, 0, 65519+2X and columns 0, 65520+Y, 0; parties 4 and 5 hold zeros.
fn trap_deals() -> Vec<u32> {
    let mut deals = vec![0; 20];
    deals[4..8].copy_from_slice(&[0, 0, 65_520, 1]);
    deals[8..12].copy_from_slice(&[65_519, 2, 0, 0]);
    deals
}

/// All parties are honest. No desk deals so, and none is called.
pub fn trap() -> Vec<Call> {
    let record = run(5, 1, trap_deals(), &[]);
    tell(&[], &record, &[], nothing)
}

/// Party 4 tells each listener just what it holds: its column at 4, then its
/// row at 4. Parties 2 and 3 must doubt it all the same.
pub fn trap_liar() -> Vec<Call> {
    let liars = [Liar {
        number: 4,
        pairs: vec![(1, 0, 0), (2, 3, 0), (3, 0, 6), (5, 0, 0)],
        report: 65_535,
        share: NOT_SENT,
    }];
    let record = run(5, 1, trap_deals(), &liars);
    tell(&[], &record, &liars, nothing)
}
