//! The records of the collection in which parties are dark: what they hold by
//! their names, and what must come of them.

use crate::bench::run;
use crate::field::Width::{self, Narrow, Wide};
use crate::fit::{fit, open_all, points_of, Rule};
use crate::named_unsent::all;
use crate::record::{read, write, Record};
use crate::stations::one_to;
use std::collections::BTreeMap;

const WIDTHS: [Width; 2] = [Narrow, Wide];

/// The name without its width, the record and the number opened, 10 or 8.
fn records(width: Width) -> Vec<(String, Record, Result<u32, u8>)> {
    all(width)
        .into_iter()
        .map(|(name, record)| {
            let text = run(&write(&record));
            let opened = text.lines().last().unwrap().strip_prefix("opened ");
            let opened = match opened.unwrap().strip_prefix("refused ") {
                Some(refusal) => Err(refusal.parse().unwrap()),
                None => Ok(opened.unwrap().parse().unwrap()),
            };
            let rest = name.strip_prefix("wide-").unwrap_or(&name);
            (rest.to_string(), record, opened)
        })
        .collect()
}

/// The records of five parties and what they open, worked out by hand.
const OF_FIVE: [(&str, Result<u32, u8>); 22] = [
    ("dark-two-of-5", Ok(7)),
    ("dark-one-and-a-lie", Ok(7)),
    ("dark-three-of-5", Err(10)),
    ("dark-two-first", Ok(7)),
    ("dark-two-last", Ok(7)),
    ("dark-three-first", Err(10)),
    ("dark-four", Err(10)),
    ("dark-two-as-the-prime", Ok(7)),
    ("dark-three-as-the-prime", Err(10)),
    ("dark-two-as-others", Ok(7)),
    ("dark-two-and-a-lie", Err(10)),
    ("dark-one-and-two-lies", Err(10)),
    ("dark-two-other-line", Ok(1000)),
    ("dark-two-liars-alike", Ok(6)),
    ("dark-one-two-liars-alike", Ok(6)),
    ("dark-none-two-liars-alike", Err(10)),
    ("dark-three-liar-in-line", Err(10)),
    ("dark-two-liar-in-line", Err(10)),
    ("dark-two-zero", Ok(0)),
    ("dark-two-equal-modulo", Ok(0)),
    ("dark-three-equal-modulo", Err(10)),
    ("dark-rejected", Err(8)),
];

#[test]
fn records_of_five() {
    for width in WIDTHS {
        let found: BTreeMap<String, Result<u32, u8>> = records(width)
            .into_iter()
            .map(|(name, _, opened)| (name, opened))
            .collect();
        for (name, opened) in OF_FIVE {
            assert_eq!(found[name], opened, "{name}");
        }
        // What a sender writes is 14 or 1 modulo the prime.
        let equal = width.not_sent() % width.prime() as u32;
        assert_eq!(found["dark-two-written-equal"], Ok(equal));
        assert_eq!(found["dark-three-written-equal"], Err(10));
    }
    let wide: Vec<(String, Record, Result<u32, u8>)> = records(Wide);
    for (name, opened) in [
        ("dark-not-65521-and-65535", Err(10)),
        ("dark-one-and-65535", Ok(7)),
        ("dark-prime-added-thrice", Err(10)),
    ] {
        let found = wide.iter().find(|record| record.0 == name).unwrap();
        assert_eq!(found.2, opened, "{name}");
    }
}

/// The numbers of a name: n and t first, then those that stand in it.
fn numbers(name: &str) -> Vec<usize> {
    name.split('-')
        .filter_map(|word| word.parse().ok())
        .collect()
}

/// Those published that are sent, and how many of them are wrong. A true share
/// is the constant of the dealt column.
fn sent_and_wrong(record: &Record) -> (usize, usize) {
    let truth = truth(record).into_iter();
    let both = truth.zip(&record.shares);
    let sent: Vec<(u32, &u32)> = both.filter(|(_, &y)| record.width.is_sent(y)).collect();
    let wrong = sent.iter().filter(|(share, &y)| *share != y).count();
    (sent.len(), wrong)
}

fn truth(record: &Record) -> Vec<u32> {
    (0..record.n)
        .map(|i| record.deals[(2 * i + 1) * (record.t + 1)])
        .collect()
}

/// What must open with so many sent and so many of them wrong, if those do not
/// agree with each other.
fn with_lies(secret: u32, t: usize, sent: usize, wrong: usize) -> Result<u32, u8> {
    match sent - wrong > 2 * t && wrong <= t {
        true => Ok(secret),
        false => Err(10),
    }
}

/// What must open if those wrong agree with each other and with t of the true
/// ones: t of them are too few, and t+1 open another number, unless t+1 of those
/// sent differ from it. None stands for another number.
fn alike(secret: u32, t: usize, sent: usize, wrong: usize) -> Option<Result<u32, u8>> {
    let true_alone = sent - wrong - t;
    match wrong > t {
        true if true_alone <= t => None,
        true => Some(Err(10)),
        false => Some(with_lies(secret, t, sent, wrong)),
    }
}

/// So many sent and so many of them wrong, as the names say, and what opens by
/// counting.
#[test]
fn records_at_the_borders() {
    let mut met = BTreeMap::new();
    for (name, record, opened) in WIDTHS.into_iter().flat_map(records) {
        let (n, t) = (record.n, record.t);
        let (sent, wrong) = sent_and_wrong(&record);
        let secret = open_all(record.width, &truth(&record), t).unwrap();
        let what = name.get(9..).unwrap_or_default();
        let wanted = if what.starts_with("-sent-") {
            assert_eq!(numbers(&name), [n, t, sent, wrong], "{name}");
            Some(with_lies(secret, t, sent, wrong))
        } else if what.starts_with("-alike-") {
            assert_eq!(numbers(&name), [n, t, wrong + t, sent], "{name}");
            alike(secret, t, sent, wrong)
        } else {
            continue;
        };
        match wanted {
            Some(wanted) => assert_eq!(opened, wanted, "{name}"),
            None => assert!(opened.is_ok() && opened != Ok(secret), "{name}"),
        }
        let outcome = wanted.map(|wanted| wanted.is_ok());
        *met.entry((n, t, outcome)).or_insert(0) += 1;
    }
    for (n, t) in [(5, 1), (16, 1), (9, 2), (13, 3), (16, 3)] {
        for (outcome, times) in [(Some(true), 6), (None, 4)] {
            assert_eq!(met[&(n, t, outcome)], times, "{n} {t}");
        }
        let refused = if t == 1 { 12 } else { 14 };
        assert_eq!(met[&(n, t, Some(false))], refused, "{n} {t}");
    }
}

/// Nine of sixteen dark, and with one more 10; a dark one has any number.
#[test]
fn records_of_sixteen() {
    for width in WIDTHS {
        let (p, no) = (width.prime() as u32, width.not_sent());
        let mut met = 0;
        for (name, record, opened) in records(width) {
            let unsent: Vec<u32> = record.shares.iter().copied().filter(|&y| y >= p).collect();
            match name.as_str() {
                "dark-16-3-first-numbers" => assert_eq!(unsent, (p..p + 9).collect::<Vec<u32>>()),
                "dark-16-3-last-numbers" => assert_eq!(unsent, (no - 8..=no).collect::<Vec<u32>>()),
                "dark-16-3-silent-and-5" => assert_eq!(unsent.len(), 8),
                "dark-16-3-silent-and-6" => assert_eq!(unsent.len(), 9),
                "dark-16-3-silent-and-7" => assert_eq!(unsent.len(), 10),
                _ => continue,
            }
            assert_eq!(opened.is_ok(), unsent.len() <= 9, "{name}");
            met += 1;
        }
        assert_eq!(met, 5);
    }
}

/// The last party hears so many numbers not sent and so many lies: with more
/// than t of both no column fits, also where an opening would.
#[test]
fn records_of_repairs() {
    for width in WIDTHS {
        let mut where_an_opening_would = 0;
        for (name, record, _) in records(width) {
            if !name.starts_with("dark-repair-") {
                continue;
            }
            let count = numbers(&name);
            let (n, t) = (record.n, record.t);
            let last = run(&write(&record)).lines().nth(n + 2).unwrap().to_string();
            let fits = count[2] + count[3] <= t;
            if fits {
                let share = record.deals[(2 * n - 1) * (t + 1)];
                assert_eq!(last, format!("lamp {n} share {share}"), "{name}");
            } else {
                assert_eq!(last, format!("lamp {n} refused 9"), "{name}");
            }
            let heard: Vec<u32> = (0..n - 1)
                .map(|j| record.pairs[2 * n * (n - 1) + 2 * j])
                .collect();
            let points = points_of(&one_to(n - 1), &heard);
            let opening = fit(width, Rule::Opening, &points, t).is_some();
            where_an_opening_would += usize::from(opening && !fits);
            assert!(opening, "{name}");
        }
        assert_eq!(where_an_opening_would, 6);
    }
}

/// All are records that are read, and no two are alike.
#[test]
fn records_are_whole() {
    for width in WIDTHS {
        let mut bytes: Vec<Vec<u8>> = all(width).iter().map(|(_, r)| write(r)).collect();
        assert!(bytes.iter().all(|bytes| read(bytes).is_ok()));
        let count = bytes.len();
        bytes.sort();
        bytes.dedup();
        assert_eq!(bytes.len(), count);
    }
}
