//! Sharings made by hand in which parties are dark at the opening, narrow and
//! wide. Where not said otherwise n = 5, t = 1 and F is that of the example. The
//! names start with `dark-`, those of wide ones with `wide-dark-`.

use crate::field::Width::{self, Narrow, Wide};
use crate::named::{
    any_of, first, following, honest_of, lies_to_last, part, silent, with, Named, F,
};
use crate::record::Record;

/// By how much the wrong numbers are off: they do not agree with each other.
const OFF: [u64; 4] = [1, 20, 300, 4000];

fn five(width: Width) -> Record {
    honest_of(width, 5, 1, &F)
}

/// A name of the width.
fn name(width: Width, rest: &str) -> String {
    let start = match width {
        Narrow => "dark",
        Wide => "wide-dark",
    };
    format!("{start}-{rest}")
}

/// What stands for a dark party: what a sender writes, or the prime.
fn unsent(width: Width, k: usize) -> u32 {
    [width.not_sent(), width.prime() as u32][k % 2]
}

// ---- five parties ----

/// Published shares as given; the true ones are 10, 13, 16, 19, 22. The line of
/// those who lie alike is 6 + 4i, which agrees with party 1's share.
fn of_five(width: Width) -> Vec<Named> {
    let (no, p) = (width.not_sent(), width.prime() as u32);
    // What a sender writes, modulo the prime.
    let equal = no % p;
    [
        ("two-of-5", [10, 13, no, no, 22]),
        ("one-and-a-lie", [10, 13, no, 999, 22]),
        ("three-of-5", [10, 13, no, no, no]),
        ("two-first", [no, no, 16, 19, 22]),
        ("two-last", [10, 13, 16, no, no]),
        ("three-first", [no, no, no, 19, 22]),
        ("four", [no, no, no, no, 22]),
        ("two-as-the-prime", [10, p, 16, p, 22]),
        ("three-as-the-prime", [10, p, p, p, 22]),
        ("two-as-others", [10, 13, p + 1, 19, no - 1]),
        ("two-and-a-lie", [10, 13, no, no, 999]),
        ("one-and-two-lies", [10, 13, no, 999, 998]),
        ("two-other-line", [1001, 1002, no, no, 1005]),
        ("two-liars-alike", [10, 14, 18, no, no]),
        ("one-two-liars-alike", [10, 14, 18, 19, no]),
        ("none-two-liars-alike", [10, 14, 18, 19, 22]),
        ("three-liar-in-line", [10, 14, no, no, no]),
        ("two-liar-in-line", [10, 13, 18, no, no]),
        ("two-zero", [0, 0, no, no, 0]),
        ("three-zero", [0, 0, no, no, no]),
        ("two-equal-modulo", [0, 0, p, p, 0]),
        ("three-equal-modulo", [0, 0, p, p, p]),
        ("two-written-equal", [equal, no, equal, no, equal]),
        ("three-written-equal", [no, equal, no, equal, no]),
    ]
    .into_iter()
    .map(|(rest, shares)| {
        let record = with(five(width), |r| r.shares = shares.to_vec());
        (name(width, rest), record)
    })
    .collect()
}

/// What is not sent to a narrow reader is a number here; and true ones with the
/// prime added, which are not sent.
fn of_five_wide() -> Vec<Named> {
    let p = Wide.prime() as u32;
    [
        ("not-65521-and-65535", [10, 13, 65_521, 65_535, 22]),
        ("one-and-65535", [10, 13, 65_535, p, 22]),
        ("prime-added-thrice", [10 + p, 13 + p, 16 + p, 19, 22]),
    ]
    .into_iter()
    .map(|(rest, shares)| {
        let record = with(five(Wide), |r| r.shares = shares.to_vec());
        (name(Wide, rest), record)
    })
    .collect()
}

// ---- larger sizes ----

/// The parties in an order that goes to and fro.
fn order(n: usize) -> Vec<usize> {
    (0..n).map(|k| (7 * k + 3) % n + 1).collect()
}

/// The first so many are sent, and of these the first so many are wrong.
fn with_lies(width: Width, n: usize, t: usize, sent: usize, lies: usize) -> Record {
    with(any_of(width, n, t), |r| {
        for (k, i) in order(n).into_iter().enumerate() {
            let share = &mut r.shares[i - 1];
            if k < lies {
                *share = width.add((*share).into(), OFF[k]) as u32;
            } else if k >= sent {
                *share = unsent(width, k);
            }
        }
    })
}

/// The first t are true and agree with another polynomial besides; so many in
/// all agree with that one; the rest of those sent are true.
fn alike(width: Width, n: usize, t: usize, agree: usize, sent: usize) -> Record {
    let order = order(n);
    let product = |i: usize| {
        let common = order[..t].iter();
        common.fold(1, |by, &j| width.mul(by, width.sub(i as u64, j as u64)))
    };
    with(any_of(width, n, t), |r| {
        for (k, &i) in order.iter().enumerate() {
            let share = &mut r.shares[i - 1];
            if (t..agree).contains(&k) {
                *share = width.add((*share).into(), product(i)) as u32;
            } else if k >= sent {
                *share = unsent(width, k);
            }
        }
    })
}

/// At each border: 2t+1 and 2t sent; t lies among 3t+1 and 3t; t+1 lies, with
/// 2t+1 true ones and with 2t; one lie among 2t+1. Then liars who agree.
fn at_borders(width: Width, n: usize, t: usize) -> Vec<Named> {
    let mut lies = vec![
        (2 * t + 1, 0),
        (2 * t, 0),
        (3 * t + 1, t),
        (3 * t, t),
        (3 * t + 2, t + 1),
        (3 * t + 1, t + 1),
    ];
    if t > 1 {
        lies.push((2 * t + 1, 1));
    }
    let with_lies = lies.into_iter().map(|(sent, lies)| {
        let rest = format!("{n:02}-{t}-sent-{sent:02}-lies-{lies}");
        (name(width, &rest), with_lies(width, n, t, sent, lies))
    });
    let alike = [
        (2 * t, 3 * t),
        (2 * t, 3 * t + 1),
        (2 * t + 1, 2 * t + 1),
        (2 * t + 1, 3 * t + 1),
        (2 * t + 1, 3 * t + 2),
    ]
    .into_iter()
    .map(|(agree, sent)| {
        let rest = format!("{n:02}-{t}-alike-{agree}-of-{sent:02}");
        (name(width, &rest), alike(width, n, t, agree, sent))
    });
    with_lies.chain(alike).collect()
}

/// Nine of sixteen are dark, each with another number that is not sent: the
/// first ones there are, and the last.
fn numbers(width: Width) -> Vec<Named> {
    let (p, no) = (width.prime() as u32, width.not_sent());
    [("first-numbers", p), ("last-numbers", no - 8)]
        .into_iter()
        .map(|(rest, start)| {
            let record = with(any_of(width, 16, 3), |r| {
                let unsent = (0..16).filter(|k| k % 2 == 0 || *k == 7);
                unsent
                    .zip(start..)
                    .for_each(|(k, number)| r.shares[k] = number);
            });
            (name(width, &format!("16-3-{rest}")), record)
        })
        .collect()
}

/// Three of sixteen say, report and publish nothing, and at the opening more are
/// dark, five to seven; and a rejected dealer, for whom nobody opens.
fn silent_ones(width: Width) -> Vec<Named> {
    let more = |count: usize| {
        with(silent(width, &[1, 9, 16]), |r| {
            let others = [15, 3, 12, 4, 6, 10, 7].into_iter().take(count);
            others.for_each(|i| r.shares[i - 1] = unsent(width, i));
        })
    };
    let rejected = following(five(width), |r| part(r, &[(1, 2), (3, 4)]));
    let no = width.not_sent();
    vec![
        (name(width, "16-3-silent-and-5"), more(5)),
        (name(width, "16-3-silent-and-6"), more(6)),
        (name(width, "16-3-silent-and-7"), more(7)),
        (
            name(width, "rejected"),
            with(rejected, |r| r.shares = vec![10, 13, no, no, 22]),
        ),
    ]
}

// ---- repair ----

/// The last party repairs from what the n-1 others, who are happy, send it: some
/// nothing, some lies. A column has its own rule, by which what is not sent
/// differs.
fn repairs(width: Width) -> Vec<Named> {
    [
        (6, 1, 1, 0),
        (6, 1, 2, 0),
        (9, 2, 2, 0),
        (9, 2, 3, 0),
        (9, 2, 1, 1),
        (9, 2, 2, 1),
        (13, 3, 3, 0),
        (13, 3, 5, 0),
        (16, 3, 3, 0),
        (16, 3, 8, 0),
        (16, 3, 5, 3),
    ]
    .into_iter()
    .map(|(n, t, not_sent, lies)| {
        let liars: Vec<usize> = (1..=lies).collect();
        let lied_to = lies_to_last(any_of(width, n, t), &liars);
        let record = following(lied_to, |r| {
            (0..not_sent).for_each(|k| *first(r, n, n - 1 - k) = unsent(width, k));
        });
        let rest = format!("repair-{n:02}-{t}-not-sent-{not_sent}-lies-{lies}");
        (name(width, &rest), record)
    })
    .collect()
}

/// All of a width.
pub fn all(width: Width) -> Vec<Named> {
    let mut list = of_five(width);
    if width == Wide {
        list.extend(of_five_wide());
    }
    for (n, t) in [(5, 1), (16, 1), (9, 2), (13, 3), (16, 3)] {
        list.extend(at_borders(width, n, t));
    }
    list.extend(numbers(width));
    list.extend(silent_ones(width));
    list.extend(repairs(width));
    list
}
