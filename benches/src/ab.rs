//! Two libraries beside each other: the functions of the one linked now and of an older one (benches/ab).
//!
//! The older library may have the older rule for openings, by which a dark lamp counts as one that differs. So it may refuse
//! what the other opens, in rows with dark lamps and in no others: such a row, where they differ, is named and left out. A
//! difference in any other row is an error. Rows of functions that the older library does not have, such as those by
//! locator or of pairs, are left out too, and counted.

use crate::measure::{ratio, Bench, Pace, Role};
use crate::{proved, rows, say, table};

/// Prints for each row, or those named, the times of both and how many times longer the new one takes.
pub fn run(keys: &[&str], inputs: usize, pace: Pace) -> Result<(), String> {
    if proved::OLD.is_none() {
        return Err("there is no older library here: use benches/ab".to_string());
    }
    let rows = rows::all(inputs);
    if let Some(key) = keys.iter().find(|&&key| rows.iter().all(|row| row.key() != key)) {
        return Err(format!("no row {key}: see `benches rows`"));
    }
    let (mut left_out, mut missing) = (Vec::new(), 0);
    say("| row | old | new | new / old |\n|---|---|---|---|")?;
    for row in rows.iter().filter(|row| keys.is_empty() || keys.contains(&row.key())) {
        row.compare()?;
        match row.compare_old() {
            Err(what) if rows::has_unsent(row.key()) => left_out.push(what),
            same => {
                same?;
                missing += usize::from(!timed(row.as_ref(), pace)?);
            }
        }
    }
    if 0 < missing {
        left_out.push(format!("{missing} rows of functions that the older library does not have"));
    }
    left_out.iter().try_for_each(|what| say(&format!("Left out: {what}")))
}

/// Whether the older library has the function; then both are timed.
fn timed(row: &dyn Bench, pace: Pace) -> Result<bool, String> {
    let times = row.measure(pace, &[Role::Proved, Role::Old]);
    let [Some(new), Some(old)] = [Role::Proved, Role::Old].map(|role| table::of(&times, role)) else {
        return Ok(false);
    };
    let cells = [row.key().to_string(), table::cell(Some(old)), table::cell(Some(new))];
    say(&format!("| {} | {:.2} |", cells.join(" | "), ratio(new, old)))?;
    Ok(true)
}
