//! A fixed collection of records with names, to be kept and run again.

use crate::field::Width::{self, Narrow, Wide};
use crate::make::{get, insert_gap, put, random_record_of, reordered, shift_border, swap_entries};
use crate::named;
use crate::named_unsent;
use crate::named_wide;
use crate::record::{head, lengths, write};
use crate::rng::Rng;
use std::fs;
use std::io;
use std::path::Path;

/// The random ones are drawn with this seed, the narrow and the wide ones each.
pub const SEED: u64 = 12;

/// How many random narrow ones there are.
pub const RANDOM: usize = 240;

/// How many random wide ones.
pub const RANDOM_WIDE: usize = 80;

/// The sizes of M11 that pass.
pub const LEGAL: [(usize, usize); 4] = [(5, 1), (9, 2), (13, 3), (16, 3)];

/// Those that are refused, then some further off.
pub const REFUSED: [(usize, usize); 14] = [
    (4, 1),
    (8, 2),
    (12, 3),
    (17, 3),
    (17, 4),
    (5, 0),
    (0, 0),
    (0, 1),
    (17, 1),
    (17, 2),
    (16, 4),
    (255, 3),
    (16, 255),
    (255, 255),
];

/// A name without the file's ending, and the bytes.
pub type Entry = (String, Vec<u8>);

/// The whole collection, sorted by name.
pub fn collection() -> Vec<Entry> {
    let example = write(&named::example());
    let mut entries = vec![("example".to_string(), example.clone())];
    entries.extend(cuts(&example));
    entries.extend(wrong_directories(&example));
    entries.extend(too_long(&example));
    entries.extend(wrong_orders(&example));
    entries.extend(sizes());
    let records = named::all().into_iter().chain(named_unsent::all(Narrow));
    entries.extend(records.map(|(name, record)| (name, write(&record))));
    entries.extend(random("random", Narrow, RANDOM));
    entries.extend(wide());
    entries.sort();
    entries
}

/// Every proper cut.
fn cuts(example: &[u8]) -> Vec<Entry> {
    (0..example.len())
        .map(|kept| (format!("cut-{kept:03}"), example[..kept].to_vec()))
        .collect()
}

/// A copy of the example, changed.
fn changed(example: &[u8], change: impl FnOnce(&mut Vec<u8>)) -> Vec<u8> {
    let mut bytes = example.to_vec();
    change(&mut bytes);
    bytes
}

/// Each number of the directory off by one or with its bytes in the wrong
/// order; borders moved, gaps, and a last section too long.
fn wrong_directories(example: &[u8]) -> Vec<Entry> {
    let mut entries = Vec::new();
    for k in 0..8 {
        let part = ["offset", "length"][k % 2];
        let number = get(example, k);
        let wrong = [
            ("up", number + 1),
            ("down", number - 1),
            ("low-byte-first", number.swap_bytes()),
        ];
        for (how, number) in wrong {
            let name = format!("dir-{}-{part}-{how}", k / 2 + 1);
            entries.push((name, changed(example, |b| put(b, k, number))));
        }
    }
    for k in 0..3 {
        let name = format!("dir-{}-takes-of-{}", k + 1, k + 2);
        entries.push((name, changed(example, |b| shift_border(b, k, 2))));
    }
    for k in 0..4 {
        let name = format!("dir-gap-before-{}", k + 1);
        entries.push((name, changed(example, |b| insert_gap(b, k, 2))));
    }
    // All in keeping, but the last section two bytes longer.
    let longer = changed(example, |b| {
        put(b, 7, get(example, 7) + 2);
        b.extend([0, 0]);
    });
    entries.push(("dir-4-longer".to_string(), longer));
    entries
}

/// More bytes than the directory says. With 65,536 of them the length is
/// right to one who keeps it in 16 bits.
fn too_long(example: &[u8]) -> Vec<Entry> {
    let behind = |count: usize| changed(example, |b| b.resize(b.len() + count, 0));
    vec![
        ("byte-too-many".to_string(), behind(1)),
        ("bytes-65536-too-many".to_string(), behind(1 << 16)),
        ("twice".to_string(), example.repeat(2)),
    ]
}

/// Directory pairs swapped, sections in another order with a directory that
/// says so, and the same with a directory that is right but not sorted.
fn wrong_orders(example: &[u8]) -> Vec<Entry> {
    let mut entries = Vec::new();
    for (a, b) in [(1, 2), (1, 3), (1, 4), (2, 3), (2, 4), (3, 4)] {
        let swapped = changed(example, |bytes| swap_entries(bytes, a, b));
        entries.push((format!("order-swap-{a}-{b}"), swapped));
    }
    for (name, order) in [
        ("2134", [2, 1, 3, 4]),
        ("1324", [1, 3, 2, 4]),
        ("4321", [4, 3, 2, 1]),
        // Legal, for both have the same length: shares read as reports.
        ("1243", [1, 2, 4, 3]),
    ] {
        let sections = reordered(example, &named::example(), order);
        entries.push((format!("order-sections-{name}"), sections));
    }
    let mut unsorted = reordered(example, &named::example(), [2, 1, 3, 4]);
    swap_entries(&mut unsorted, 1, 2);
    entries.push(("order-unsorted".to_string(), unsorted));
    entries
}

/// The sizes: two bytes alone; those refused also with a right directory and
/// zeros in it, and with a wrong one, where 1 comes before 6.
fn sizes() -> Vec<Entry> {
    let mut entries = Vec::new();
    for (n, t) in LEGAL.into_iter().chain(REFUSED) {
        let name = format!("size-{n:02}-{t}-two-bytes");
        entries.push((name, vec![n as u8, t as u8]));
    }
    for (n, t) in REFUSED {
        let sections = lengths(Narrow, n, t);
        let mut bytes = head(Narrow, n, t, sections);
        // The largest sizes have sections beyond what 16 bits can name.
        let total = sections.iter().sum::<usize>().min(4000);
        bytes.resize(bytes.len() + total, 0);
        entries.push((format!("size-{n:02}-{t}-body"), bytes.clone()));
        let offset = get(&bytes, 2);
        put(&mut bytes, 2, offset ^ 1);
        bytes.push(0);
        entries.push((format!("size-{n:02}-{t}-wrong-directory"), bytes));
    }
    entries
}

/// The random ones of a width.
fn random(name: &str, width: Width, count: usize) -> Vec<Entry> {
    let mut rng = Rng::new(SEED);
    (0..count)
        .map(|k| {
            let (_, bytes) = random_record_of(&mut rng, width);
            (format!("{name}-{k:03}"), bytes)
        })
        .collect()
}

// ---- wide ones ----

/// The wide ones, and those in which narrow and wide meet. Their names come
/// after all others.
fn wide() -> Vec<Entry> {
    let example = write(&named_wide::example());
    let records = named_wide::all().into_iter().chain(named_unsent::all(Wide));
    let mut entries: Vec<Entry> = records
        .map(|(name, record)| (name, write(&record)))
        .collect();
    entries.extend(wide_heads(&example));
    entries.extend(wide_sizes());
    entries.extend(random("wide-random", Wide, RANDOM_WIDE));
    entries
}

/// Cuts, among them to the length of a narrow record; each number of the
/// directory off by one; and head, directory and sections of two widths.
fn wide_heads(example: &[u8]) -> Vec<Entry> {
    let narrow = write(&named::example());
    let mut entries: Vec<Entry> = [1, 2, 17, 18, narrow.len(), example.len() - 1]
        .into_iter()
        .map(|kept| (format!("wide-cut-{kept:03}"), example[..kept].to_vec()))
        .collect();
    for k in 0..8 {
        let part = ["offset", "length"][k % 2];
        let name = format!("wide-dir-{}-{part}-up", k / 2 + 1);
        let number = get(example, k) + 1;
        entries.push((name, changed(example, |b| put(b, k, number))));
    }
    let narrow_directory = head(Wide, 5, 1, lengths(Narrow, 5, 1));
    let wide_directory = head(Narrow, 5, 1, lengths(Wide, 5, 1));
    let two = |head: &[u8], body: &[u8]| [head, &body[18..]].concat();
    entries.extend(
        [
            ("wide-byte-too-many", changed(example, |b| b.push(0))),
            // Legal but for the first byte, which has 128 too much or too little.
            ("wide-mark-on-narrow", changed(&narrow, |b| b[0] += 128)),
            ("wide-mark-missing", changed(example, |b| b[0] -= 128)),
            ("wide-narrow-lengths", two(&narrow_directory, example)),
            ("wide-lengths-on-narrow", two(&wide_directory, &narrow)),
        ]
        .map(|(name, bytes)| (name.to_string(), bytes)),
    );
    entries
}

/// First bytes from 128 up: those of a legal size are wide, the others none.
fn wide_sizes() -> Vec<Entry> {
    let sizes = [
        (0, 0),
        (0, 1),
        (4, 1),
        (5, 0),
        (5, 1),
        (8, 2),
        (9, 2),
        (12, 3),
        (13, 3),
        (16, 3),
        (16, 4),
        (17, 3),
        (127, 3),
    ];
    let mut entries = Vec::new();
    for (n, t) in sizes {
        let name = format!("wide-size-{n:02}-{t}");
        entries.push((format!("{name}-two-bytes"), vec![n + 128, t]));
        let sections = lengths(Wide, n.into(), t.into());
        let mut bytes = head(Wide, n.into(), t.into(), sections);
        let total = sections.iter().sum::<usize>().min(4000);
        bytes.resize(bytes.len() + total, 0);
        entries.push((format!("{name}-body"), bytes));
    }
    entries
}

/// Writes the collection into the folder, which is made if it is not there,
/// and gives the names, one to a line.
pub fn write_files(folder: &Path) -> io::Result<String> {
    fs::create_dir_all(folder)?;
    let mut names = String::new();
    for (name, bytes) in collection() {
        fs::write(folder.join(format!("{name}.rec")), bytes)?;
        names += &name;
        names.push('\n');
    }
    Ok(names)
}
