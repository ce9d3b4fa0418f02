//! Tables of station numbers: the parties' points (docs/PROTOCOL.md, "Station
//! numbers"). Party i's point is entry i of the table, the first being entry 1.

use crate::field::Width;

/// The table of the examples, for five parties.
pub const STATIONS: [u32; 5] = [40_961, 7, 65_520, 3, 21_000];

/// The table of one who loads none: 1 to n.
pub fn one_to(n: usize) -> Vec<u32> {
    (1..=n).map(|i| i as u32).collect()
}

/// Party i's point.
pub fn point(table: &[u32], i: usize) -> u64 {
    table[i - 1].into()
}

/// Refusal 14: an entry is 0, from the prime up, or stands there twice.
pub fn check_table(width: Width, table: &[u32]) -> Result<(), u8> {
    for (k, &entry) in table.iter().enumerate() {
        let earlier = &table[..k];
        if entry == 0 || !width.is_sent(entry) || earlier.contains(&entry) {
            return Err(14);
        }
    }
    Ok(())
}
