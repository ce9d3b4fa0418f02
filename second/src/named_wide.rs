//! Wide sharings made by hand, each for one thing. Where not said otherwise
//! n = 5, t = 1 and F is that of the example. Their names all start with `wide`,
//! so that they come after the narrow ones.

use crate::field::Width::Wide;
use crate::field::{WIDE_NOT_SENT, WIDE_P};
use crate::named::{
    all_following, any_of, first, following, honest_of, lies_to_last, named, off, part, second,
    silent, with, Named, F,
};
use crate::record::Record;
use crate::rng::Rng;
use crate::scenario::{build, honest_deals, Plan, HONEST};
use crate::story_wide::WIDE_F;

/// The prime, which is the first number that is not sent.
const PRIME: u32 = WIDE_P as u32;

/// The example: all honest, but party 3 publishes 999.
pub fn example() -> Record {
    with(five(), |record| record.shares[2] = 999)
}

fn five() -> Record {
    honest_of(Wide, 5, 1, &F)
}

// ---- honest ones ----

/// Secrets and lists at the edges of both fields, and the least and the most
/// parties for each t.
fn honest_ones() -> Vec<Named> {
    let mut list = vec![
        named("wide-example", example()),
        named(
            "wide-secret-2147483646",
            honest_of(Wide, 5, 1, &[PRIME - 1, 2, 3, 4]),
        ),
        named("wide-large-list", honest_of(Wide, 5, 1, &WIDE_F)),
        named(
            "wide-everywhere-65521",
            honest_of(Wide, 5, 1, &[65_521, 0, 0, 0]),
        ),
        named(
            "wide-narrow-edges",
            honest_of(Wide, 5, 1, &[65_535, 65_520, 65_521, 65_536]),
        ),
        named(
            "wide-coefficients-2147483646",
            honest_of(Wide, 13, 3, &[PRIME - 1; 16]),
        ),
    ];
    for (n, t) in [(5, 1), (16, 1), (9, 2), (16, 2), (13, 3), (16, 3)] {
        list.push((format!("wide-honest-{n:02}-{t}"), any_of(Wide, n, t)));
    }
    list
}

// ---- liars, verdicts and repairs ----

/// n = 16, t = 3: three liars of several kinds, and four silent parties.
fn liars() -> Vec<Named> {
    let mut rng = Rng::new(163);
    let plan = Plan { liars: 3, ..HONEST };
    let mut list: Vec<Named> = (1..=3)
        .map(|k| {
            let record = build(&mut rng, Wide, 16, 3, plan).record;
            (format!("wide-liars-16-3-no-{k}"), record)
        })
        .collect();
    list.push(named("wide-liars-16-3-silent", silent(Wide, &[1, 9, 16])));
    list.push(named(
        "wide-liars-16-3-four-silent",
        silent(Wide, &[1, 8, 9, 16]),
    ));
    list
}

/// Rejected dealers: two pairs of parties disagree, and the own-crossing trap.
/// The shares would open if anybody asked.
fn rejected() -> Vec<Named> {
    let parted = following(five(), |r| part(r, &[(1, 2), (3, 4)]));
    vec![
        named("wide-rejected", with(parted, |r| r.shares = five().shares)),
        named("wide-trap", all_following(five(), trap)),
    ]
}

/// Rows 0, 0, -2+2X and columns 0, -1+Y, 0; parties 4 and 5 hold zeros.
fn trap(record: &mut Record) {
    record.deals.fill(0);
    record.deals[4..8].copy_from_slice(&[0, 0, PRIME - 1, 1]);
    record.deals[8..12].copy_from_slice(&[PRIME - 2, 2, 0, 0]);
}

/// Party 5 is parted from 4, and repairs from what it hears or cannot.
fn repairs() -> Vec<Named> {
    let base = honest_of(Wide, 5, 1, &WIDE_F);
    let repair = following(base, |r| part(r, &[(4, 5)]));
    let one_lie = following(repair.clone(), |r| *first(r, 5, 3) = 0);
    let two_lies = following(one_lie.clone(), |r| off(Wide, first(r, 5, 2)));
    // Equal to the truth modulo the prime, so as good as not sent.
    let more = following(repair.clone(), |r| *first(r, 5, 3) += PRIME);
    let two_more = following(more.clone(), |r| *first(r, 5, 2) += PRIME);
    vec![
        named("wide-repair-of-5", repair),
        named("wide-repair-through-a-lie", one_lie),
        named("wide-lamp-9-two-lies", two_lies),
        named("wide-repair-prime-added", more),
        named("wide-lamp-9-prime-added-twice", two_more),
        named(
            "wide-repair-three-lies-t3",
            lies_to_last(any_of(Wide, 16, 3), &[1, 2, 15]),
        ),
        named(
            "wide-lamp-9-four-lies-t3",
            lies_to_last(any_of(Wide, 16, 3), &[1, 2, 3, 15]),
        ),
        named("wide-repair-foreign-deal", foreign_deal()),
    ]
}

/// Party 5's deal is of another polynomial, sound in itself.
fn foreign_deal() -> Record {
    let other = honest_deals(Wide, 5, 1, &WIDE_F);
    all_following(five(), |r| r.deals[16..].copy_from_slice(&other[16..]))
}

/// 7, and sections in which all bits are the same.
fn sevens() -> Vec<Named> {
    let fill = |number: u32, report: u16| {
        with(five(), |r| {
            r.deals.fill(number);
            r.pairs.fill(number);
            r.reports.fill(report);
            r.shares.fill(number);
        })
    };
    vec![
        named(
            "wide-lamp-7-own-bit",
            with(five(), |r| r.reports[1] |= 1 << 1),
        ),
        named("wide-sections-zero", fill(0, 0)),
        named("wide-sections-ones", fill(WIDE_NOT_SENT, 65_535)),
    ]
}

// ---- openings ----

/// The example's parties, with published shares as given. What is not sent to a
/// narrow reader is a number here.
fn openings() -> Vec<Named> {
    let prime_added = [10 + PRIME, 13, 16, 19 + PRIME, 22];
    // 10^9 - 7i, and the same with the prime's wrap: -1 - 10^9 i.
    let line = [999_999_993, 999_999_986, 999_999_979, 0, 999_999_965];
    let wrapped = [1_147_483_646, 147_483_646, 1_294_967_293, 294_967_293, 0];
    [
        ("wide-open-all-right", [10, 13, 16, 19, 22]),
        ("wide-open-one-not-sent", [10, 13, PRIME, 19, 22]),
        ("wide-open-two-not-sent", [10, PRIME, 16, WIDE_NOT_SENT, 22]),
        ("wide-open-none-sent", [WIDE_NOT_SENT; 5]),
        ("wide-open-all-2147483647", [PRIME; 5]),
        ("wide-open-all-2147483646", [PRIME - 1; 5]),
        ("wide-open-all-65535", [65_535; 5]),
        ("wide-open-all-65521", [65_521; 5]),
        ("wide-open-all-zero", [0; 5]),
        ("wide-open-two-wrong", [10, 13, 999, 998, 22]),
        ("wide-open-prime-added-twice", prime_added),
        ("wide-open-one-wrong-of-a-line", line),
        ("wide-open-one-wrong-of-a-wrapped-line", wrapped),
    ]
    .into_iter()
    .map(|(name, shares)| named(name, with(five(), |r| r.shares = shares.to_vec())))
    .collect()
}

/// n = 16 with as many wrong shares as may be, and one more.
fn openings_of_sixteen() -> Vec<Named> {
    [(1, 1), (1, 2), (2, 2), (2, 3), (3, 3), (3, 4)]
        .into_iter()
        .map(|(t, count)| {
            let record = with(any_of(Wide, 16, t), |r| {
                (0..count).for_each(|k| off(Wide, &mut r.shares[15 - 3 * k]));
            });
            (format!("wide-open-16-{t}-wrong-{count}"), record)
        })
        .collect()
}

// ---- numbers at the edges ----

/// Numbers that stand where another is right: the one that they equal modulo
/// the prime, or to a narrow reader. From the prime up they are not sent.
fn edges() -> Vec<Named> {
    let mut list = Vec::new();
    for number in [65_521, 65_535, 65_536, PRIME, WIDE_NOT_SENT] {
        let constant = match number < PRIME {
            true => number - 65_521,
            false => number % PRIME,
        };
        let base = honest_of(Wide, 5, 1, &[constant, 0, 0, 0]);
        let share = with(base.clone(), |r| r.shares[1] = number);
        let two_shares = with(share.clone(), |r| r.shares[3] = number);
        list.extend(
            [
                ("row", following(base.clone(), |r| r.deals[4] = number)),
                ("column", following(base.clone(), |r| r.deals[6] = number)),
                (
                    "first",
                    following(base.clone(), |r| *first(r, 2, 3) = number),
                ),
                ("second", following(base, |r| *second(r, 2, 3) = number)),
                ("share", share),
                ("two-shares", two_shares),
            ]
            .map(|(place, record)| (format!("wide-edge-{place}-{number}"), record)),
        );
    }
    list
}

/// All of them.
pub fn all() -> Vec<Named> {
    [
        honest_ones(),
        liars(),
        rejected(),
        repairs(),
        sevens(),
        openings(),
        openings_of_sixteen(),
        edges(),
    ]
    .concat()
}
