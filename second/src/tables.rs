//! Random tables of station numbers, such as are taken and such as are not.

use crate::field::Width;
use crate::lists::other_length;
use crate::rng::Rng;
use crate::stations::one_to;

/// So many different numbers from low to high, in any order. There must be so
/// many.
fn different(rng: &mut Rng, count: usize, low: usize, high: usize) -> Vec<u32> {
    let mut chosen = Vec::new();
    while chosen.len() < count {
        let number = rng.between(low, high) as u32;
        if !chosen.contains(&number) {
            chosen.push(number);
        }
    }
    chosen
}

/// A table that is taken: any numbers, small ones, large ones, both, and 1 to n
/// in order and in any order. Some wide ones lie about the narrow prime.
pub fn good_table(rng: &mut Rng, width: Width, n: usize) -> Vec<u32> {
    let largest = width.prime() as usize - 1;
    match rng.below(8) {
        0 => different(rng, n, 1, n + 3),
        1 => different(rng, n, largest - n - 2, largest),
        2 => {
            let small = different(rng, n, 1, n + 3);
            // Modulo the prime this is the entry with the other sign.
            let mirrored = |entry: u32| width.prime() as u32 - entry;
            let choose = |entry| {
                if rng.chance(50) {
                    mirrored(entry)
                } else {
                    entry
                }
            };
            small.into_iter().map(choose).collect()
        }
        3 => one_to(n),
        4 => different(rng, n, 1, n),
        5 if width == Width::Wide => different(rng, n, 65_521 - n / 2, 65_536 + n),
        _ => different(rng, n, 1, largest),
    }
}

/// A table of another length, or with a bad entry, or both; or by chance a good
/// one.
pub fn bad_table(rng: &mut Rng, width: Width, n: usize, limit: usize) -> Vec<u32> {
    let what = rng.below(5);
    let length = match what {
        0..=1 => other_length(rng, n, limit),
        _ => n,
    };
    let mut table = good_table(rng, width, length);
    if what > 0 {
        put_bad_entry(rng, width, &mut table);
    }
    table
}

/// An entry that is 0, too large or there twice. The first and the last place
/// are tried often, for a search may miss its ends. An empty table has none.
pub fn put_bad_entry(rng: &mut Rng, width: Width, table: &mut [u32]) {
    let Some(last) = table.len().checked_sub(1) else {
        return;
    };
    let p = width.prime() as u32;
    let any = rng.below(table.len());
    let place = rng.pick(&[0, last, any]);
    match rng.below(10) {
        0..=1 => table[place] = 0,
        2 => table[place] = p,
        3 => table[place] = width.not_sent(),
        4 => table[place] = rng.not_sent(width),
        5 => table[last] = table[0],
        6 => table[last] = table[last.saturating_sub(1)],
        7 => table[last.min(1)] = table[0],
        8 => table[place] = table[(place + 1 + rng.below(last.max(1))) % table.len()],
        _ => {
            let same = rng.pick(&[0, 1, 7, p - 1, width.not_sent()]);
            table.fill(same);
        }
    }
}
