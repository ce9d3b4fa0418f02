//! Sharings made by hand, each for one thing that can go wrong. Where not
//! said otherwise n = 5, t = 1 and F is that of the example.

use crate::field::Width::{self, Narrow};
use crate::field::{NOT_SENT, P};
use crate::record::{pair_place, Record};
use crate::rng::Rng;
use crate::scenario::{
    build, follow_pairs, follow_reports, follow_shares, honest_deals, Plan, HONEST,
};

/// F = 7 + 3X + 2Y + 4XY: place u(t+1)+v holds the coefficient of X^u Y^v.
pub const F: [u32; 4] = [7, 2, 3, 4];

pub type Named = (String, Record);

// ---- pieces ----

/// The all-honest narrow sharing of a dealer's list.
pub fn honest(n: usize, t: usize, coefs: &[u32]) -> Record {
    honest_of(Narrow, n, t, coefs)
}

/// That of a width.
pub fn honest_of(width: Width, n: usize, t: usize, coefs: &[u32]) -> Record {
    let record = Record {
        width,
        n,
        t,
        deals: honest_deals(width, n, t, coefs),
        pairs: vec![0; 2 * n * n],
        reports: vec![0; n],
        shares: vec![0; n],
    };
    all_following(record, |_| {})
}

/// The example: all honest, but party 3 publishes 999.
pub fn example() -> Record {
    with(five(), |record| record.shares[2] = 999)
}

fn five() -> Record {
    honest(5, 1, &F)
}

/// An honest sharing of some list, the same every time.
fn any(n: usize, t: usize) -> Record {
    any_of(Narrow, n, t)
}

/// That of a width.
pub fn any_of(width: Width, n: usize, t: usize) -> Record {
    let mut rng = Rng::new((100 * n + t) as u64);
    let coefs: Vec<u32> = (0..(t + 1) * (t + 1)).map(|_| rng.element(width)).collect();
    honest_of(width, n, t, &coefs)
}

/// The record changed, and nothing following from it.
pub fn with(mut record: Record, change: impl FnOnce(&mut Record)) -> Record {
    change(&mut record);
    record
}

/// The pairs changed; reports and shares are then those of honest parties.
pub fn following(record: Record, change: impl FnOnce(&mut Record)) -> Record {
    let mut record = with(record, change);
    follow_reports(&mut record);
    follow_shares(&mut record);
    record
}

/// The deals changed; all the rest is then that of honest parties.
pub fn all_following(record: Record, change: impl FnOnce(&mut Record)) -> Record {
    let mut record = with(record, change);
    follow_pairs(&mut record);
    following(record, |_| {})
}

/// The first number that the receiver hears from the sender.
pub fn first(record: &mut Record, receiver: usize, sender: usize) -> &mut u32 {
    let place = pair_place(record.n, receiver, sender);
    &mut record.pairs[place]
}

/// The second one.
pub fn second(record: &mut Record, receiver: usize, sender: usize) -> &mut u32 {
    let place = pair_place(record.n, receiver, sender) + 1;
    &mut record.pairs[place]
}

/// A sent number made another one.
pub fn off(width: Width, number: &mut u32) {
    *number = width.add((*number).into(), 1) as u32;
}

/// The receiver hears a wrong second number, so that it reports a zero for
/// the sender; a repair, which uses first numbers, is not touched.
fn doubt(record: &mut Record, receiver: usize, sender: usize) {
    off(record.width, second(record, receiver, sender));
}

/// Both doubt each other, for each pair of parties given.
pub fn part(record: &mut Record, edges: &[(usize, usize)]) {
    for &(a, b) in edges {
        doubt(record, a, b);
        doubt(record, b, a);
    }
}

pub fn named(name: &str, record: Record) -> Named {
    (name.to_string(), record)
}

// ---- the cases marked for proof ----

/// M1 to M3 are the example, M11 is about heads, the rest is here.
pub fn marked() -> Vec<Named> {
    let m7 = following(five(), |r| part(r, &[(4, 5)]));
    let m8 = following(m7.clone(), |r| *first(r, 5, 3) = 0);
    let m9 = following(five(), |r| part(r, &[(1, 2), (3, 4)]));
    let m9_reports = m9.reports.clone();
    let mut list = openings_of_five();
    list.extend([
        // The wrong 88 also makes party 5 doubt party 3, so the report
        // differs from that of M7. The other way is to keep the report and
        // have it differ from the party's own.
        named("m08-lie-and-its-report", m8.clone()),
        named(
            "m08-lie-and-report-of-m07",
            with(m8, |r| r.reports = m7.reports.clone()),
        ),
        named("m07-repair", m7),
        // Shares that would open if anybody asked.
        named("m09-rejected", with(m9, |r| r.shares = five().shares)),
        named(
            "m09-reports-alone",
            with(five(), |r| r.reports = m9_reports),
        ),
        named(
            "m10-largest-without-1",
            following(five(), |r| part(r, &[(1, 2), (1, 3)])),
        ),
        named("m12-secret-65520", honest(5, 1, &[65_520, 2, 3, 4])),
    ]);
    list
}

/// The example's parties, with published shares as given.
fn openings_of_five() -> Vec<Named> {
    [
        ("m04-two-wrong", [10, 13, 999, 998, 22]),
        ("m05-none-sent", [NOT_SENT; 5]),
        ("m06-all-zero", [0; 5]),
        ("open-all-right", [10, 13, 16, 19, 22]),
        ("open-one-not-sent", [10, 13, 16, 65_521, 22]),
        ("open-two-not-sent", [10, 65_530, 16, 65_521, 22]),
        ("open-wrong-and-not-sent", [10, 14, 16, 19, NOT_SENT]),
        ("open-other-line-all", [1001, 1002, 1003, 1004, 1005]),
        ("open-other-line-one-wrong", [1001, 1002, 16, 1004, 1005]),
    ]
    .into_iter()
    .map(|(name, shares)| named(name, with(five(), |r| r.shares = shares.to_vec())))
    .collect()
}

// ---- opening ----

/// Published lists of larger sizes, with so many wrong numbers.
pub fn openings() -> Vec<Named> {
    [(9, 1, 1), (9, 1, 2), (16, 1, 2), (9, 2, 2), (9, 2, 3)]
        .into_iter()
        .chain([(16, 2, 3), (13, 3, 3), (13, 3, 4), (16, 3, 3), (16, 3, 4)])
        .map(|(n, t, count)| {
            let record = with(any(n, t), |r| {
                // Spread over the list, the last place among them.
                (0..count).for_each(|k| off(r.width, &mut r.shares[n - 1 - 3 * k]));
            });
            (format!("open-{n:02}-{t}-wrong-{count}"), record)
        })
        .collect()
}

// ---- refusals of a party ----

/// 7: the entry for the party is not its own report.
pub fn seven() -> Vec<Named> {
    vec![
        named("lamp-7-own-bit", with(five(), |r| r.reports[1] |= 1 << 1)),
        named("lamp-7-bit-5", with(five(), |r| r.reports[1] |= 1 << 5)),
        named("lamp-7-bit-15", with(five(), |r| r.reports[4] |= 1 << 15)),
        named("lamp-7-missing", with(five(), |r| r.reports[2] = 0)),
        named(
            "lamp-7-all",
            with(five(), |r| r.reports = vec![65_535; r.n]),
        ),
        named(
            "lamp-7-before-8",
            with(five(), |r| r.reports = vec![0b11110, 0, 0b11011, 0, 0]),
        ),
        named(
            "lamp-7-before-9",
            with(two_lies(), |r| r.reports[4] |= 1 << 5),
        ),
        named("sections-zero", with(five(), |r| fill(r, 0))),
        named("sections-ones", with(five(), |r| fill(r, 65_535))),
    ]
}

/// Every number of every section the same.
fn fill(record: &mut Record, number: u16) {
    record.deals.fill(number.into());
    record.pairs.fill(number.into());
    record.reports.fill(number);
    record.shares.fill(number.into());
}

/// Party 5 is unhappy and hears two wrong first numbers from happy ones.
fn two_lies() -> Record {
    following(five(), |r| {
        part(r, &[(4, 5)]);
        off(r.width, first(r, 5, 2));
        *first(r, 5, 3) = 0;
    })
}

/// 9: no column fits what an unhappy party heard.
pub fn nine() -> Vec<Named> {
    let not_sent = |senders: &'static [usize]| {
        following(five(), |r| {
            part(r, &[(4, 5)]);
            senders.iter().for_each(|&j| *first(r, 5, j) = NOT_SENT);
        })
    };
    vec![
        named("lamp-9-two-lies-of-4", two_lies()),
        named(
            "lamp-9-published-wrong",
            with(two_lies(), |r| r.shares[0] = 999),
        ),
        named("lamp-9-two-not-sent", not_sent(&[1, 2])),
        named("repair-one-not-sent", not_sent(&[3])),
        // Sixteen parties would bear more lies, but t is 1.
        named("lamp-9-two-lies-of-15", lies_to_last(any(16, 1), &[3, 8])),
        named("repair-one-lie-of-15", lies_to_last(any(16, 1), &[3])),
        named("lamp-9-three-lies-t2", lies_to_last(any(9, 2), &[1, 4, 7])),
        named("repair-two-lies-t2", lies_to_last(any(9, 2), &[1, 7])),
        named(
            "lamp-9-four-lies-t3",
            lies_to_last(any(16, 3), &[1, 2, 3, 15]),
        ),
        named(
            "repair-three-lies-t3",
            lies_to_last(any(16, 3), &[1, 2, 15]),
        ),
    ]
}

/// The last party hears wrong first numbers from the given senders. It
/// doubts all others, so it alone is unhappy.
pub fn lies_to_last(record: Record, senders: &[usize]) -> Record {
    let n = record.n;
    following(record, |r| {
        (1..n).for_each(|j| doubt(r, n, j));
        senders.iter().for_each(|&j| off(r.width, first(r, n, j)));
    })
}

// ---- unsound deals ----

/// The deals of the own-crossing trap; parties 4 and 5 hold zeros.
fn trap(record: &mut Record) {
    record.deals.fill(0);
    record.deals[4..8].copy_from_slice(&[0, 0, 65_520, 1]);
    record.deals[8..12].copy_from_slice(&[65_519, 2, 0, 0]);
}

pub fn unsound() -> Vec<Named> {
    let alike = heard_alike();
    vec![
        named("unsound-trap-honest", all_following(five(), trap)),
        named("unsound-trap-blind", blind_trap()),
        named(
            "unsound-alike-claimed",
            with(alike.clone(), |r| r.reports[4] = 0b01111),
        ),
        named("unsound-alike-honest", alike),
        // 65,530 and 65,531 are 9 and 10 to one who counts modulo P.
        named(
            "unsound-row-65530",
            following(five(), |r| r.deals[0] = 65_530),
        ),
        named(
            "unsound-column-65531",
            following(five(), |r| r.deals[2] = 65_531),
        ),
        named(
            "unsound-all",
            all_following(five(), |r| {
                (0..5).for_each(|i| off(r.width, &mut r.deals[4 * i]))
            }),
        ),
    ]
}

/// The trap as parties play it that do not look at their own crossing: they
/// say their pairs, and 1, 2 and 3 report each other.
fn blind_trap() -> Record {
    let mut record = all_following(five(), trap);
    for (receiver, sender) in [(1, 2), (1, 3), (2, 3), (3, 2)] {
        let value = |half: usize| {
            let place = 4 * (sender - 1) + 2 * half;
            let (constant, slope) = (record.deals[place], record.deals[place + 1]);
            ((u64::from(constant) + u64::from(slope) * receiver as u64) % P) as u32
        };
        let (row_at, column_at) = (value(0), value(1));
        *first(&mut record, receiver, sender) = row_at;
        *second(&mut record, receiver, sender) = column_at;
    }
    follow_reports(&mut record);
    record.reports[1] = 0b00101;
    record.reports[2] = 0b00011;
    record
}

/// Party 5's row does not cross its column, and all it hears is alike with
/// what it holds. Its report must be 0 all the same.
fn heard_alike() -> Record {
    following(five(), |r| {
        off(r.width, &mut r.deals[16]);
        (1..5).for_each(|j| off(r.width, second(r, 5, j)));
    })
}

// ---- agreements and the happy set ----

pub fn agreements() -> Vec<Named> {
    vec![
        named("one-sided-accepted", following(five(), |r| doubt(r, 1, 2))),
        named(
            "one-sided-rejected",
            following(five(), |r| {
                doubt(r, 2, 1);
                doubt(r, 3, 4);
            }),
        ),
        named(
            "one-sided-16-3",
            following(any(16, 3), |r| {
                for (a, b) in [(1, 2), (4, 3), (5, 6), (8, 7)] {
                    doubt(r, a, b);
                }
            }),
        ),
        named("own-pair-right", following(five(), own_pairs)),
        named(
            "own-bits-claimed",
            with(five(), |r| r.reports = vec![0b11111; 5]),
        ),
    ]
}

/// Everybody hears its own true pair from itself, which is to be ignored.
fn own_pairs(record: &mut Record) {
    for i in 1..=5 {
        // F(i,i), both by row and by column.
        let own = (7 + 5 * i + 4 * i * i) as u32;
        *first(record, i, i) = own;
        *second(record, i, i) = own;
    }
}

/// A name, n, t, and who disagrees.
type Graph = (&'static str, usize, usize, &'static [(usize, usize)]);

/// Each has a clique of at least n-t.
const GRAPHS: [Graph; 9] = [
    // 1 to 7 are enough and come first; 1 to 6 with 8 and 9 are more.
    ("largest-not-first", 9, 2, &[(7, 8), (7, 9)]),
    // Whoever takes 1 gets 10, which would do; without 1 there are 12.
    ("largest-not-greedy", 13, 3, &[(1, 2), (1, 3), (1, 4)]),
    // 1 disagrees with the most, yet 2, 3 and 4 are the ones to go.
    ("largest-not-by-degree", 16, 3, &STAR_WITH_RAYS),
    ("tie-1-or-2", 5, 1, &[(1, 2)]),
    ("tie-matching", 9, 2, &[(1, 2), (4, 3)]),
    // {1, 2} against {3, 4}, and {1, 9} against {2, 3}.
    ("tie-low", 9, 2, &[(1, 3), (1, 4), (2, 3), (2, 4)]),
    ("tie-far", 9, 2, &[(1, 2), (1, 3), (9, 2), (9, 3)]),
    // Both with 1: {2, 3} against {4, 5}, and {2, 5} against {3, 4}.
    ("tie-second-low", 13, 3, &[(2, 4), (2, 5), (3, 4), (3, 5)]),
    ("tie-second-far", 13, 3, &[(2, 3), (2, 4), (5, 3), (5, 4)]),
];

const STAR_WITH_RAYS: [(usize, usize); 6] = [(1, 2), (1, 3), (1, 4), (2, 5), (3, 6), (4, 7)];

/// Who disagrees, and so which set is happy.
pub fn happy_sets() -> Vec<Named> {
    let mut list: Vec<Named> = GRAPHS
        .into_iter()
        .map(|(name, n, t, edges)| named(name, following(any(n, t), |r| part(r, edges))))
        .collect();
    // {1, 15, 16} against {2, 3, 4}.
    let three = following(any(16, 3), |r| {
        for a in [1, 15, 16] {
            part(r, &[(a, 2), (a, 3), (a, 4)]);
        }
    });
    list.push(named("tie-three-each", three));
    list
}

// ---- repair ----

pub fn repairs() -> Vec<Named> {
    vec![
        // Second numbers lie on a line of their own.
        named(
            "repair-seconds-on-a-line",
            following(five(), |r| {
                (1..5).for_each(|j| *second(r, 5, j) = 1000 + j as u32)
            }),
        ),
        // First numbers do; the repair has to believe them.
        named(
            "repair-firsts-on-a-line",
            following(five(), |r| {
                (1..5).for_each(|j| *first(r, 5, j) = 1000 + j as u32)
            }),
        ),
        named("repair-happy-alone", happy_alone()),
        named("repair-foreign-deal", foreign_deal()),
    ]
}

/// n = 9, t = 2, happy 1 to 7. Party 9 hears wrong first numbers from 1 and
/// 2, which a fit bears, and from 8, which is not happy: three of all.
fn happy_alone() -> Record {
    following(any(9, 2), |r| {
        part(r, &[(8, 1), (8, 9)]);
        for j in [1, 2, 8] {
            off(r.width, first(r, 9, j));
        }
    })
}

/// Party 5's deal is of another polynomial, sound in itself: it is unhappy,
/// and its dealt column is set aside.
fn foreign_deal() -> Record {
    let other = honest_deals(Narrow, 5, 1, &[1, 20, 300, 4000]);
    all_following(five(), |r| r.deals[16..].copy_from_slice(&other[16..]))
}

// ---- numbers at the edges ----

/// 65,520 is a number, 65,521 and 65,535 are "not sent". They stand where 0
/// and 14 are right, which they equal modulo P.
pub fn edges() -> Vec<Named> {
    let mut list = vec![
        named("edge-everywhere-65520", honest(5, 1, &[65_520, 0, 0, 0])),
        named(
            "edge-coefficients-65520",
            honest(13, 3, &[(P - 1) as u32; 16]),
        ),
        named("edge-report-65520", with(five(), |r| r.reports[1] = 65_520)),
    ];
    for number in [65_521, NOT_SENT] {
        let base = honest(5, 1, &[number - P as u32, 0, 0, 0]);
        let share = with(base.clone(), |r| r.shares[1] = number);
        let two_shares = with(share.clone(), |r| r.shares[3] = number);
        list.extend(
            [
                ("row", following(base.clone(), |r| r.deals[4] = number)),
                ("column", following(base.clone(), |r| r.deals[6] = number)),
                (
                    "first",
                    following(base.clone(), |r| *first(r, 2, 3) = number),
                ),
                (
                    "second",
                    following(base.clone(), |r| *second(r, 2, 3) = number),
                ),
                ("report", with(base, |r| r.reports[1] = number as u16)),
                ("share", share),
                ("two-shares", two_shares),
            ]
            .map(|(place, record)| (format!("edge-{place}-{number}"), record)),
        );
    }
    list
}

// ---- honest ones and liars ----

/// Every legal size, all honest.
pub fn honest_sizes() -> Vec<Named> {
    (1..=3)
        .flat_map(|t| (4 * t + 1..=16).map(move |n| (n, t)))
        .map(|(n, t)| (format!("honest-{n:02}-{t}"), any(n, t)))
        .collect()
}

/// n = 16, t = 3: three liars of several kinds, and four silent parties.
pub fn liars() -> Vec<Named> {
    let mut rng = Rng::new(163);
    let plan = Plan { liars: 3, ..HONEST };
    let mut list: Vec<Named> = (1..=6)
        .map(|k| {
            (
                format!("liars-16-3-no-{k}"),
                build(&mut rng, Narrow, 16, 3, plan).record,
            )
        })
        .collect();
    list.push(named("liars-16-3-silent", silent(Narrow, &[1, 9, 16])));
    list.push(named(
        "liars-16-3-four-silent",
        silent(Narrow, &[1, 8, 9, 16]),
    ));
    list
}

/// The given parties say nothing, report nothing and publish nothing.
pub fn silent(width: Width, parties: &[usize]) -> Record {
    let not_sent = width.not_sent();
    let record = with(any_of(width, 16, 3), |r| {
        for &j in parties {
            (1..=16).for_each(|i| *first(r, i, j) = not_sent);
            (1..=16).for_each(|i| *second(r, i, j) = not_sent);
        }
    });
    let mut record = following(record, |_| {});
    parties.iter().for_each(|&j| record.reports[j - 1] = 0);
    follow_shares(&mut record);
    parties
        .iter()
        .for_each(|&j| record.shares[j - 1] = not_sent);
    record
}

/// All of them.
pub fn all() -> Vec<Named> {
    [
        marked(),
        openings(),
        seven(),
        nine(),
        unsound(),
        agreements(),
        happy_sets(),
        repairs(),
        edges(),
        honest_sizes(),
        liars(),
    ]
    .concat()
}
