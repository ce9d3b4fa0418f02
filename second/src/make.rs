//! Random records of every kind, as bytes and as files.

use crate::field::Width;
use crate::record::{head, lengths, write, Record, HEAD};
use crate::rng::Rng;
use crate::scenario::{
    build, legal_size, PairFault, Plan, ShareFault, DEAL_FAULTS, HONEST, PAIR_FAULTS,
    REPORT_FAULTS, SHARE_FAULTS,
};
use std::fs;
use std::io;
use std::path::Path;

#[derive(Clone, Copy, PartialEq, Eq, PartialOrd, Ord, Debug)]
pub enum Kind {
    Honest,
    FewLiars,
    ManyLiars,
    BadDeals,
    BadPairs,
    BadReports,
    BadShares,
    /// Many parties publish nothing.
    Unsent,
    Mixed,
    Sections,
    RandomBytes,
    Directory,
    BadSize,
    /// Head, directory and sections of two widths.
    TwoWidths,
}

/// So many of a hundred records have head, directory and sections of two widths.
const TWO_WIDTHS: usize = 4;

/// Each other kind as often as it stands here.
const KINDS: [Kind; 27] = [
    Kind::Honest,
    Kind::FewLiars,
    Kind::FewLiars,
    Kind::ManyLiars,
    Kind::BadDeals,
    Kind::BadDeals,
    Kind::BadDeals,
    Kind::BadPairs,
    Kind::BadPairs,
    Kind::BadPairs,
    Kind::BadPairs,
    Kind::BadReports,
    Kind::BadReports,
    Kind::BadShares,
    Kind::Unsent,
    Kind::Unsent,
    Kind::Unsent,
    Kind::Unsent,
    Kind::Unsent,
    Kind::Unsent,
    Kind::Mixed,
    Kind::Mixed,
    Kind::Sections,
    Kind::RandomBytes,
    Kind::Directory,
    Kind::Directory,
    Kind::BadSize,
];

/// A plan of the given kind; kinds that are about bytes have an honest one
/// or any.
pub fn plan(rng: &mut Rng, kind: Kind, n: usize, t: usize) -> Plan {
    let mut plan = HONEST;
    match kind {
        Kind::FewLiars => plan.liars = rng.between(1, t),
        Kind::ManyLiars => plan.liars = rng.between(t + 1, n),
        Kind::BadDeals => {
            plan.deals = rng.pick(&DEAL_FAULTS);
            plan.liars = rng.below(t + 1);
        }
        Kind::BadPairs => {
            plan.pairs = rng.pick(&PAIR_FAULTS);
            if rng.chance(40) {
                plan.shares = rng.pick(&SHARE_FAULTS);
            }
        }
        Kind::BadReports => plan.reports = rng.pick(&REPORT_FAULTS),
        Kind::BadShares => plan.shares = rng.pick(&SHARE_FAULTS),
        Kind::Unsent => {
            plan.shares = ShareFault::Unsent;
            if rng.chance(20) {
                plan.pairs = rng.pick(&[PairFault::Graph, PairFault::Repair]);
            }
        }
        Kind::Mixed | Kind::Directory => plan = mixed_plan(rng, n),
        _ => {}
    }
    plan
}

/// Each step is tampered with or not.
fn mixed_plan(rng: &mut Rng, n: usize) -> Plan {
    let mut plan = HONEST;
    if rng.chance(40) {
        plan.deals = rng.pick(&DEAL_FAULTS);
    }
    if rng.chance(40) {
        plan.pairs = rng.pick(&PAIR_FAULTS);
    }
    if rng.chance(40) {
        plan.reports = rng.pick(&REPORT_FAULTS);
    }
    if rng.chance(40) {
        plan.shares = rng.pick(&SHARE_FAULTS);
    }
    if rng.chance(40) {
        plan.liars = rng.between(1, n);
    }
    plan
}

/// One random record: of three, one is wide.
pub fn random_record(rng: &mut Rng) -> (Kind, Vec<u8>) {
    let width = rng.width();
    if rng.chance(TWO_WIDTHS) {
        return (Kind::TwoWidths, two_widths(rng, width));
    }
    random_record_of(rng, width)
}

/// One random record of a width.
pub fn random_record_of(rng: &mut Rng, width: Width) -> (Kind, Vec<u8>) {
    let kind = rng.pick(&KINDS);
    let bytes = match kind {
        Kind::RandomBytes => random_bytes(rng, width),
        Kind::BadSize => bad_size(rng, width),
        _ => {
            let (n, t) = legal_size(rng);
            let plan = plan(rng, kind, n, t);
            let record = build(rng, width, n, t, plan).record;
            let mut bytes = write(&record);
            match kind {
                Kind::Sections => garble_sections(rng, &mut bytes, &record),
                Kind::Directory => damage(rng, &mut bytes, &record),
                _ => {}
            }
            bytes
        }
    };
    (kind, bytes)
}

/// An honest record in which the first byte tells the other width; or the
/// directory does, over the sections as they were or over zeros of the lengths
/// it says; or both do.
fn two_widths(rng: &mut Rng, width: Width) -> Vec<u8> {
    let (n, t) = legal_size(rng);
    let bytes = write(&build(rng, width, n, t, HONEST).record);
    let sections = lengths(width.other(), n, t);
    let own = head(width, n, t, sections);
    let other = head(width.other(), n, t, sections);
    let zeros = vec![0; sections.iter().sum()];
    match rng.below(4) {
        0 => [&other[..1], &bytes[1..]].concat(),
        1 => [&own[..], &bytes[HEAD..]].concat(),
        2 => [&own[..], &zeros].concat(),
        _ => [&other[..], &bytes[HEAD..]].concat(),
    }
}

/// Random bytes into one or more sections. The directory stays right.
fn garble_sections(rng: &mut Rng, bytes: &mut [u8], record: &Record) {
    let percent = rng.between(20, 100);
    let mut start = HEAD;
    for length in lengths(record.width, record.n, record.t) {
        if rng.chance(percent) {
            bytes[start..start + length].fill_with(|| rng.byte());
        }
        start += length;
    }
}

/// Random bytes of random length; sometimes a legal size or even a right
/// head stands before them.
fn random_bytes(rng: &mut Rng, width: Width) -> Vec<u8> {
    let limit = rng.pick(&[3, 20, 100, 1500]);
    let count = rng.below(limit);
    let mut bytes: Vec<u8> = (0..count).map(|_| rng.byte()).collect();
    let (n, t) = legal_size(rng);
    let right = match rng.below(3) {
        0 => Vec::new(),
        1 => vec![n as u8 + width.mark(), t as u8],
        _ => head(width, n, t, lengths(width, n, t)),
    };
    for (byte, put) in bytes.iter_mut().zip(right) {
        *byte = put;
    }
    bytes
}

/// A well-shaped record, but of a size that is not allowed. From 128 up a first
/// byte tells that the record is wide, so there are fewer wide ones.
fn bad_size(rng: &mut Rng, width: Width) -> Vec<u8> {
    let largest = 255 - usize::from(width.mark());
    let any = (rng.between(17, largest), rng.below(256));
    let (n, t) = rng.pick(&[
        (4, 1),
        (8, 2),
        (12, 3),
        (17, 1),
        (17, 2),
        (17, 3),
        (17, 4),
        (16, 4),
        (5, 0),
        (16, 0),
        (0, 0),
        (0, 1),
        (1, 1),
        (largest, 3),
        (16, 255),
        any,
    ]);
    let sections = lengths(width, n, t);
    let mut bytes = head(width, n, t, sections);
    let total = sections.iter().sum::<usize>().min(4000);
    bytes.extend((0..total).map(|_| rng.byte()));
    if rng.chance(20) {
        let kept = rng.below(bytes.len() + 1);
        bytes.truncate(kept);
    }
    bytes
}

// ---- damage to head and length ----

fn damage(rng: &mut Rng, bytes: &mut Vec<u8>, record: &Record) {
    match rng.below(12) {
        0 | 1 => off_by_one(rng, bytes),
        2 => any_number(rng, bytes),
        3 => swap_bytes(rng, bytes),
        4 | 5 => cut(rng, bytes),
        6 => extend(rng, bytes),
        7 => other_size(rng, bytes),
        8 => move_border(rng, bytes),
        9 => leave_gap(rng, bytes),
        10 => {
            let chosen = rng.some_of(4, 2);
            swap_entries(bytes, chosen[0], chosen[1]);
        }
        _ => {
            let order = rng.some_of(4, 4);
            *bytes = reordered(bytes, record, [order[0], order[1], order[2], order[3]]);
        }
    }
}

/// Where directory number k (0 to 7) stands.
fn place(k: usize) -> usize {
    2 + 2 * k
}

pub fn get(bytes: &[u8], k: usize) -> u16 {
    u16::from_be_bytes([bytes[place(k)], bytes[place(k) + 1]])
}

pub fn put(bytes: &mut [u8], k: usize, number: u16) {
    bytes[place(k)..place(k) + 2].copy_from_slice(&number.to_be_bytes());
}

fn off_by_one(rng: &mut Rng, bytes: &mut [u8]) {
    let k = rng.below(8);
    let by = rng.pick(&[1, 65_535]);
    put(bytes, k, get(bytes, k).wrapping_add(by));
}

fn any_number(rng: &mut Rng, bytes: &mut [u8]) {
    let k = rng.below(8);
    let number = match rng.below(4) {
        0 => 0,
        1 => 65_535,
        2 => bytes.len() as u16,
        _ => rng.word(),
    };
    put(bytes, k, number);
}

/// A number with its low byte first.
fn swap_bytes(rng: &mut Rng, bytes: &mut [u8]) {
    let k = rng.below(8);
    put(bytes, k, get(bytes, k).swap_bytes());
}

/// At every place; the head and the very end more often.
fn cut(rng: &mut Rng, bytes: &mut Vec<u8>) {
    let kept = match rng.below(3) {
        0 => rng.below(HEAD + 3),
        1 => bytes.len() - rng.between(1, 4),
        _ => rng.below(bytes.len()),
    };
    bytes.truncate(kept);
}

fn extend(rng: &mut Rng, bytes: &mut Vec<u8>) {
    let count = rng.pick(&[1, 2, 3, 18, 65_536]);
    bytes.extend((0..count).map(|_| rng.byte()));
}

/// The size bytes no longer match the sections.
fn other_size(rng: &mut Rng, bytes: &mut [u8]) {
    let k = rng.below(2);
    bytes[k] = bytes[k].wrapping_add(rng.pick(&[1, 255, 2, 254]));
}

/// One section longer at the cost of the next, all offsets in keeping.
fn move_border(rng: &mut Rng, bytes: &mut [u8]) {
    let k = rng.below(3);
    let by = rng.pick(&[1u16, 2, 4, 65_532, 65_534, 65_535]);
    shift_border(bytes, k, by);
}

/// The section after the first k longer by so much, the next one shorter.
pub fn shift_border(bytes: &mut [u8], k: usize, by: u16) {
    put(bytes, 2 * k + 1, get(bytes, 2 * k + 1).wrapping_add(by));
    put(bytes, 2 * k + 2, get(bytes, 2 * k + 2).wrapping_add(by));
    put(bytes, 2 * k + 3, get(bytes, 2 * k + 3).wrapping_sub(by));
}

/// Unused bytes before some section, all later offsets in keeping.
fn leave_gap(rng: &mut Rng, bytes: &mut Vec<u8>) {
    let k = rng.below(4);
    let count = rng.between(1, 4);
    insert_gap(bytes, k, count);
}

/// Zeros before the section after the first k.
pub fn insert_gap(bytes: &mut Vec<u8>, k: usize, count: usize) {
    let start = usize::from(get(bytes, 2 * k));
    bytes.splice(start..start, vec![0; count]);
    for later in k..4 {
        let offset = get(bytes, 2 * later) + count as u16;
        put(bytes, 2 * later, offset);
    }
}

/// Entries a and b (1 to 4) of the directory in each other's place.
pub fn swap_entries(bytes: &mut [u8], a: usize, b: usize) {
    for part in 0..2 {
        let (a, b) = (2 * (a - 1) + part, 2 * (b - 1) + part);
        let (at_a, at_b) = (get(bytes, a), get(bytes, b));
        put(bytes, a, at_b);
        put(bytes, b, at_a);
    }
}

/// The record with its sections (1 to 4) in another order, and a directory
/// that says so. If only the last two, in a narrow record of equal length,
/// change places, it stays a right one with other contents.
pub fn reordered(bytes: &[u8], record: &Record, order: [usize; 4]) -> Vec<u8> {
    let Record { width, n, t, .. } = *record;
    let sections = lengths(width, n, t);
    let mut changed = head(width, n, t, order.map(|k| sections[k - 1]));
    for k in order {
        let start = HEAD + sections[..k - 1].iter().sum::<usize>();
        changed.extend(&bytes[start..start + sections[k - 1]]);
    }
    changed
}

// ---- files ----

/// Writes COUNT records into the folder, which is made if it is not there.
pub fn make_files(seed: u64, count: usize, folder: &Path) -> io::Result<()> {
    fs::create_dir_all(folder)?;
    let mut rng = Rng::new(seed);
    for k in 0..count {
        let (_, bytes) = random_record(&mut rng);
        fs::write(folder.join(format!("{k:06}.rec")), bytes)?;
    }
    Ok(())
}
