//! The fixed collection: names, bytes, and the texts that were worked out by
//! hand for the records made by hand.

use crate::bench::run;
use crate::field::Width::{Narrow, Wide};
use crate::make::{random_record, random_record_of, Kind};
use crate::outcome::{self, Counts, OUTCOMES};
use crate::rng::Rng;
use crate::store::{collection, Entry, LEGAL, RANDOM, RANDOM_WIDE, REFUSED, SEED};
use std::collections::BTreeMap;
use std::sync::OnceLock;

/// How many narrow records are made for one thing each.
const MADE: usize = 490;

/// How many wide ones.
const MADE_WIDE: usize = 226;

/// Building the collection takes a while, so the tests share one.
fn entries() -> &'static [Entry] {
    static ENTRIES: OnceLock<Vec<Entry>> = OnceLock::new();
    ENTRIES.get_or_init(collection)
}

fn bytes_of(name: &str) -> &'static [u8] {
    let found = entries().iter().find(|entry| entry.0 == name);
    &found.unwrap_or_else(|| panic!("no record {name}")).1
}

fn text_of(name: &str) -> String {
    run(bytes_of(name))
}

/// The texts of all whose name starts so.
fn texts_from(start: &str) -> Vec<String> {
    let chosen = entries().iter().filter(|entry| entry.0.starts_with(start));
    chosen.map(|entry| run(&entry.1)).collect()
}

/// The text after the size, its lines parted by bars.
fn short(name: &str) -> String {
    let text = text_of(name);
    let lines: Vec<&str> = text.lines().skip(1).collect();
    lines.join("|")
}

#[test]
fn names_are_plain_and_sorted() {
    let names: Vec<&str> = entries().iter().map(|entry| entry.0.as_str()).collect();
    let narrow = MADE + RANDOM;
    assert_eq!(names.len(), narrow + MADE_WIDE + RANDOM_WIDE);
    let is_wide = |name: &str| name.starts_with("wide-");
    assert!(names[narrow..].iter().all(|name| is_wide(name)));
    assert!(!names[..narrow].iter().any(|name| is_wide(name)));
    assert!(names.windows(2).all(|pair| pair[0] < pair[1]));
    // The files' names sort the same way.
    let files: Vec<String> = names.iter().map(|name| format!("{name}.rec")).collect();
    assert!(files.windows(2).all(|pair| pair[0] < pair[1]));
    let plain = |c: char| c.is_ascii_lowercase() || c.is_ascii_digit() || c == '-';
    assert!(names.iter().all(|name| name.chars().all(plain)));
    for name in ["example", "cut-000", "cut-177", "random-000", "random-239"] {
        assert!(names.contains(&name));
    }
}

/// FNV-1a over names and bytes.
fn hash(entries: &[Entry]) -> String {
    let mut hash = 0xcbf2_9ce4_8422_2325_u64;
    for (name, bytes) in entries {
        for &byte in name.as_bytes().iter().chain(bytes) {
            hash = (hash ^ u64::from(byte)).wrapping_mul(0x0100_0000_01b3);
        }
    }
    format!("{hash:016x}")
}

/// Who changes the collection sees it here. The narrow ones come first.
#[test]
fn the_collection_is_fixed() {
    assert_eq!(hash(&entries()[..MADE + RANDOM]), "1d7ca9ad602c3f32");
    assert_eq!(hash(entries()), "7e339fb910f63688");
}

#[test]
fn every_outcome_is_there() {
    let mut counts = Counts::default();
    for (_, bytes) in entries() {
        outcome::count(&mut counts, bytes, &run(bytes));
    }
    for (name, times) in OUTCOMES.iter().zip(counts) {
        assert!(times >= 5, "{name}: {times}");
    }
}

#[test]
fn the_random_ones_are_of_every_kind() {
    for (width, name, count, least) in [
        (Narrow, "random", RANDOM, 5),
        (Wide, "wide-random", RANDOM_WIDE, 1),
    ] {
        let mut rng = Rng::new(SEED);
        let mut kinds: BTreeMap<Kind, usize> = BTreeMap::new();
        for k in 0..count {
            let (kind, bytes) = random_record_of(&mut rng, width);
            assert_eq!(bytes_of(&format!("{name}-{k:03}")), bytes);
            *kinds.entry(kind).or_default() += 1;
        }
        assert_eq!(kinds.len(), 13, "{kinds:?}");
        assert!(kinds.values().all(|&times| times >= least), "{kinds:?}");
    }
}

/// Of what `make` writes a third is wide, and in some two widths meet.
#[test]
fn make_writes_both_widths() {
    let mut rng = Rng::new(3);
    let made: Vec<(Kind, Vec<u8>)> = (0..600).map(|_| random_record(&mut rng)).collect();
    let count = |holds: &dyn Fn(Kind, &[u8]) -> bool| {
        let of = made.iter();
        of.filter(|(kind, bytes)| holds(*kind, bytes)).count()
    };
    let wide = count(&|_, bytes| bytes.first().is_some_and(|&byte| byte >= 128));
    assert!((170..230).contains(&wide), "{wide}");
    assert!(count(&|kind, _| kind == Kind::TwoWidths) >= 10);
    let read = |bytes: &[u8]| crate::record::read(bytes).is_ok();
    let both = |kind: Kind, bytes: &[u8]| kind == Kind::TwoWidths && read(bytes);
    assert_eq!(count(&both), 0);
    assert!(count(&|_, bytes| bytes.len() > 1362 && read(bytes)) >= 20);
}

/// Heads of wide records: 6 wherever the size is one, else 1.
#[test]
fn wide_heads_are_refused() {
    let six = "record refused 6\n";
    for start in [
        "wide-cut-",
        "wide-dir-",
        "wide-mark-",
        "wide-narrow-lengths",
        "wide-lengths-",
        "wide-byte-",
    ] {
        let texts = texts_from(start);
        assert!(!texts.is_empty() && texts.iter().all(|text| text == six));
    }
    for (n, t, refusal) in [
        (0, 0, 1),
        (4, 1, 1),
        (5, 0, 1),
        (5, 1, 6),
        (12, 3, 1),
        (16, 3, 6),
        (17, 3, 1),
        (127, 3, 1),
    ] {
        let name = format!("wide-size-{n:02}-{t}-two-bytes");
        assert_eq!(text_of(&name), format!("record refused {refusal}\n"));
    }
}

#[test]
fn heads_are_refused() {
    let six = "record refused 6\n";
    let cuts = texts_from("cut-");
    assert_eq!(cuts.len(), 178);
    assert!(cuts.iter().all(|text| text == six));
    for (start, count) in [("dir-", 32), ("order-swap-", 6), ("byte", 2), ("twice", 1)] {
        let texts = texts_from(start);
        assert_eq!(texts.len(), count, "{start}");
        assert!(texts.iter().all(|text| text == six), "{start}");
    }
    for name in ["2134", "1324", "4321"] {
        assert_eq!(text_of(&format!("order-sections-{name}")), six);
    }
    assert_eq!(text_of("order-unsorted"), six);
    // Shares in place of reports: legal, and nobody agrees.
    assert!(short("order-sections-1243").starts_with("dealer rejected|lamp 1 refused 7"));
}

#[test]
fn sizes_come_before_directories() {
    for (n, t) in REFUSED {
        for end in ["two-bytes", "body", "wrong-directory"] {
            let text = text_of(&format!("size-{n:02}-{t}-{end}"));
            assert_eq!(text, "record refused 1\n");
        }
    }
    for (n, t) in LEGAL {
        let text = text_of(&format!("size-{n:02}-{t}-two-bytes"));
        assert_eq!(text, "record refused 6\n");
        let honest = text_of(&format!("honest-{n:02}-{t}"));
        assert!(honest.starts_with(&format!("size {n} {t}\ndealer accepted\n")));
    }
    assert_eq!(texts_from("honest-").len(), 24);
}

const ALL: &str = "dealer accepted|happy 1 2 3 4 5";
const FOUR: &str = "dealer accepted|happy 1 2 3 4";
const OTHER_FOUR: &str = "dealer accepted|happy 2 3 4 5";
const REJECTED: &str = "dealer rejected";
const SHARES: &str = "lamp 1 share 10|lamp 2 share 13|lamp 3 share 16|lamp 4 share 19";
const SHARE_5: &str = "lamp 5 share 22";
const EIGHTS: &str = "lamp 1 refused 8|lamp 2 refused 8|lamp 3 refused 8|lamp 4 refused 8";
const EIGHT_5: &str = "lamp 5 refused 8";
const SEVENS: &str = "lamp 1 refused 7|lamp 2 refused 7|lamp 3 refused 7|lamp 4 refused 7";
const NO_8: &str = "opened refused 8";
const NO_10: &str = "opened refused 10";

/// The whole texts, after the size.
#[test]
fn the_marked_cases() {
    for (name, wanted) in [
        ("example", [ALL, SHARES, SHARE_5, "opened 7"]),
        ("m04-two-wrong", [ALL, SHARES, SHARE_5, NO_10]),
        ("m05-none-sent", [ALL, SHARES, SHARE_5, NO_10]),
        ("m06-all-zero", [ALL, SHARES, SHARE_5, "opened 0"]),
        ("m07-repair", [FOUR, SHARES, SHARE_5, "opened 7"]),
        (
            "m08-lie-and-its-report",
            [FOUR, SHARES, SHARE_5, "opened 7"],
        ),
        (
            "m08-lie-and-report-of-m07",
            [FOUR, SHARES, "lamp 5 refused 7", "opened 7"],
        ),
        ("m09-rejected", [REJECTED, EIGHTS, EIGHT_5, NO_8]),
        ("m09-reports-alone", [REJECTED, SEVENS, EIGHT_5, NO_8]),
        (
            "m10-largest-without-1",
            [OTHER_FOUR, SHARES, SHARE_5, "opened 7"],
        ),
    ] {
        assert_eq!(short(name), wanted.join("|"), "{name}");
    }
}

/// Party 5's pairs in the record of M7 are those that the protocol names.
#[test]
fn m7_hears_what_it_must() {
    let record = crate::record::read(bytes_of("m07-repair")).unwrap();
    let firsts: Vec<u32> = (0..4).map(|j| record.pairs[40 + 2 * j]).collect();
    assert_eq!(firsts, [44, 66, 88, 110]);
    assert_eq!(record.reports, [30, 29, 27, 0b00111, 0b00111]);
    let record = crate::record::read(bytes_of("m08-lie-and-its-report")).unwrap();
    assert_eq!(record.pairs[44], 0);
    assert_eq!(record.reports[4], 0b00011);
}

/// A record and a piece that its text must have.
const PIECES: [(&str, &str); 64] = [
    ("m12-secret-65520", "lamp 5 share 14|opened 65520"),
    ("open-one-not-sent", "opened 7"),
    ("open-two-not-sent", "|opened 7"),
    ("open-wrong-and-not-sent", "|opened 7"),
    ("open-other-line-all", "lamp 5 share 22|opened 1000"),
    ("open-09-1-wrong-2", "opened refused 10"),
    ("open-16-1-wrong-2", "opened refused 10"),
    ("open-16-3-wrong-4", "opened refused 10"),
    (
        "lamp-7-own-bit",
        "happy 1 2 3 4 5|lamp 1 share 10|lamp 2 refused 7|lamp 3 share 16",
    ),
    ("lamp-7-bit-15", "happy 1 2 3 4 5|lamp 1 share 10"),
    (
        "lamp-7-missing",
        "happy 1 2 4 5|lamp 1 share 10|lamp 2 share 13|lamp 3 refused 7",
    ),
    (
        "lamp-7-before-8",
        "lamp 1 refused 8|lamp 2 refused 7|lamp 3 refused 8",
    ),
    ("lamp-7-before-9", "happy 1 2 3 4|lamp 1 share 10"),
    ("lamp-7-before-9", "lamp 5 refused 7|opened 7"),
    ("sections-zero", "dealer rejected|lamp 1 refused 7"),
    ("sections-ones", "happy 1 2 3 4 5|lamp 1 refused 7"),
    (
        "lamp-9-two-lies-of-4",
        "lamp 4 share 19|lamp 5 refused 9|opened 7",
    ),
    ("lamp-9-published-wrong", "lamp 5 refused 9|opened 7"),
    ("lamp-9-two-not-sent", "lamp 5 refused 9"),
    ("repair-one-not-sent", "happy 1 2 3 4|"),
    ("repair-one-not-sent", "lamp 5 share 22"),
    ("lamp-9-two-lies-of-15", "lamp 16 refused 9"),
    ("lamp-9-three-lies-t2", "lamp 9 refused 9"),
    ("lamp-9-four-lies-t3", "lamp 16 refused 9"),
    (
        "unsound-trap-honest",
        "dealer rejected|lamp 1 refused 8|lamp 2 refused 8|lamp 3 refused 8",
    ),
    (
        "unsound-trap-blind",
        "lamp 1 refused 8|lamp 2 refused 7|lamp 3 refused 7|lamp 4 refused 8",
    ),
    ("unsound-alike-claimed", "happy 1 2 3 4 5|"),
    ("unsound-alike-claimed", "lamp 5 refused 7"),
    ("unsound-alike-honest", "happy 1 2 3 4|lamp 1 share 10"),
    ("unsound-alike-honest", "lamp 5 share 22"),
    ("unsound-row-65530", "happy 2 3 4 5|lamp 1 share 10"),
    ("unsound-column-65531", "happy 2 3 4 5|lamp 1 share 10"),
    (
        "one-sided-accepted",
        "happy 1 3 4 5|lamp 1 share 10|lamp 2 share 13",
    ),
    ("one-sided-rejected", "dealer rejected|lamp 1 refused 8"),
    ("one-sided-16-3", "dealer rejected|lamp 1 refused 8"),
    ("own-pair-right", "happy 1 2 3 4 5|lamp 1 share 10"),
    ("repair-seconds-on-a-line", "happy 1 2 3 4|lamp 1 share 10"),
    ("repair-seconds-on-a-line", "lamp 5 share 22"),
    ("repair-firsts-on-a-line", "lamp 5 share 1000"),
    ("repair-foreign-deal", "lamp 5 share 22"),
    ("edge-everywhere-65520", "lamp 5 share 65520|opened 65520"),
    ("edge-two-shares-65521", "|opened 0"),
    (
        "wide-example",
        "dealer accepted|happy 1 2 3 4 5|lamp 1 share 10|",
    ),
    ("wide-example", "lamp 5 share 22|opened 7"),
    (
        "wide-secret-2147483646",
        "lamp 1 share 2|lamp 2 share 5|lamp 3 share 8",
    ),
    ("wide-secret-2147483646", "|opened 2147483646"),
    (
        "wide-repair-of-5",
        "happy 1 2 3 4|lamp 1 share 65535|lamp 2 share 131071",
    ),
    ("wide-repair-of-5", "lamp 5 share 327679|opened 2147483646"),
    ("wide-repair-prime-added", "lamp 5 share 327679|"),
    ("wide-lamp-9-two-lies", "lamp 5 refused 9"),
    ("wide-lamp-9-prime-added-twice", "lamp 5 refused 9"),
    (
        "wide-rejected",
        "dealer rejected|lamp 1 refused 8|lamp 2 refused 8",
    ),
    ("wide-trap", "dealer rejected|lamp 1 refused 8"),
    ("wide-open-one-not-sent", "|opened 7"),
    ("wide-open-two-not-sent", "|opened 7"),
    ("wide-open-none-sent", "|opened refused 10"),
    ("wide-open-all-65535", "|opened 65535"),
    ("wide-open-prime-added-twice", "|opened 7"),
    (
        "wide-open-one-wrong-of-a-line",
        "lamp 5 share 22|opened 1000000000",
    ),
    (
        "wide-open-one-wrong-of-a-wrapped-line",
        "lamp 5 share 22|opened 2147483646",
    ),
    ("wide-edge-row-2147483647", "happy 1 3 4 5|lamp 1 share 0"),
    ("wide-edge-two-shares-65535", "|opened refused 10"),
    (
        "wide-liars-16-3-four-silent",
        "dealer rejected|lamp 1 refused 7|lamp 2 refused 8",
    ),
    (
        "liars-16-3-four-silent",
        "dealer rejected|lamp 1 refused 7|lamp 2 refused 8",
    ),
];

#[test]
fn pieces_of_the_others() {
    for (name, piece) in PIECES {
        assert!(short(name).contains(piece), "{name}: {}", short(name));
    }
}

#[test]
fn the_happy_sets() {
    for (name, happy) in [
        ("largest-not-first", "1 2 3 4 5 6 8 9"),
        ("largest-not-greedy", "2 3 4 5 6 7 8 9 10 11 12 13"),
        ("largest-not-by-degree", "1 5 6 7 8 9 10 11 12 13 14 15 16"),
        ("tie-1-or-2", "1 3 4 5"),
        ("tie-matching", "1 3 5 6 7 8 9"),
        ("tie-low", "1 2 5 6 7 8 9"),
        ("tie-far", "1 4 5 6 7 8 9"),
        ("tie-second-low", "1 2 3 6 7 8 9 10 11 12 13"),
        ("tie-second-far", "1 2 5 6 7 8 9 10 11 12 13"),
        ("tie-three-each", "1 5 6 7 8 9 10 11 12 13 14 15 16"),
        ("repair-happy-alone", "1 2 3 4 5 6 7"),
        ("liars-16-3-silent", "2 3 4 5 6 7 8 10 11 12 13 14 15"),
    ] {
        assert!(short(name).contains(&format!("|happy {happy}|")), "{name}");
    }
}

/// A repaired party has the share that the same sharing gives it when all
/// are honest.
#[test]
fn repairs_find_the_dealt_share() {
    for (name, honest, party) in [
        ("repair-happy-alone", "honest-09-2", 9),
        ("repair-happy-alone", "honest-09-2", 8),
        ("repair-two-lies-t2", "honest-09-2", 9),
        ("repair-one-lie-of-15", "honest-16-1", 16),
        ("repair-three-lies-t3", "honest-16-3", 16),
        ("largest-not-greedy", "honest-13-3", 1),
    ] {
        let line = |text: String| {
            let start = format!("lamp {party} share ");
            text.lines()
                .find(|line| line.starts_with(&start))
                .map(str::to_string)
        };
        assert!(line(text_of(name)).is_some(), "{name}");
        assert_eq!(line(text_of(name)), line(text_of(honest)), "{name}");
    }
}
