//! Stories: whole runs told as calls, by name and always the same. For each
//! party in turn there is its making, then its calls one after the other; the
//! desk is called where a dealing is asked for. The stories are made with one
//! sort of opening; here each is asked for both ways.

use crate::calls::{both_ways, is_opening, line, step, Call, Step};
use crate::field::Width::{Narrow, Wide};
use crate::party::Party;
use crate::story_refusals as refusals;
use crate::story_runs as runs;
use crate::story_stations as stations;
use crate::story_tables as tables;
use crate::story_unsent as unsent;
use crate::story_wide as wide;
use crate::story_widths as widths;
use crate::wire;

/// A story's name and its calls.
pub type Story = (&'static str, Vec<Call>);

/// All of them, in the order in which they are shown and sent.
pub fn all() -> Vec<Story> {
    let stories = [without_tables(), with_tables(), of_wide_parties()].concat();
    let opened = |(name, calls)| (name, opened_both_ways(calls));
    stories.into_iter().map(opened).collect()
}

/// The same calls, each opening also by the locator: in the first of a story it
/// comes last, in the second first, and so on in turn.
fn opened_both_ways(calls: Vec<Call>) -> Vec<Call> {
    let mut openings = 0;
    let in_turn = |call: Call| {
        openings += usize::from(is_opening(&call));
        both_ways(call, openings % 2 == 0)
    };
    calls.into_iter().flat_map(in_turn).collect()
}

fn without_tables() -> Vec<Story> {
    vec![
        ("honest", runs::honest()),
        ("liar", runs::liar()),
        ("unsound", runs::unsound()),
        ("unsound-two-liars", runs::unsound_two_liars()),
        ("sixteen", runs::sixteen()),
        ("rejected", runs::rejected()),
        ("refused-desk", refusals::desk()),
        ("refused-made", refusals::badly_made(Narrow)),
        ("refused-stages", refusals::stages(Narrow)),
        ("refused-closed", refusals::closed(Narrow)),
        ("winter", unsent::unsent(Narrow)),
        ("winter-liar", unsent::liar()),
        ("winter-sixteen", unsent::sixteen(Narrow)),
        ("winter-repair", unsent::repair()),
        ("trap", runs::trap()),
        ("trap-liar", runs::trap_liar()),
    ]
}

fn with_tables() -> Vec<Story> {
    vec![
        ("stations-liar", stations::liar()),
        ("stations-repair", stations::repair()),
        ("stations-two-liars", stations::two_liars()),
        ("stations-order", stations::order()),
        ("stations-sixteen", stations::sixteen()),
        ("stations-trap", stations::trap()),
        ("stations-other-table", stations::other_table()),
        ("stations-one-entry", stations::one_entry()),
        ("winter-stations", unsent::stations(Narrow)),
        ("winter-stations-nine", unsent::stations_nine(Narrow)),
        ("refused-tables", tables::makings()),
        ("refused-tables-desk", tables::desks()),
        ("refused-tables-calls", tables::calls()),
        ("one-to-n-unsound", tables::one_to_n_unsound()),
        ("one-to-n-stages", tables::one_to_n_stages()),
    ]
}

/// With tables and without, and such as are about both widths.
fn of_wide_parties() -> Vec<Story> {
    vec![
        ("wide-honest", wide::honest()),
        ("wide-liar", wide::liar()),
        ("wide-repair", wide::repair()),
        ("wide-two-liars", wide::two_liars()),
        ("wide-rejected", wide::rejected()),
        ("wide-sixteen", wide::sixteen()),
        ("wide-trap", wide::trap()),
        ("wide-edges", wide::edges()),
        ("wide-stations", wide::stations()),
        ("wide-stations-sixteen", wide::stations_sixteen()),
        ("wide-refused-desk", widths::desk()),
        ("wide-refused-made", widths::made()),
        ("wide-refused-stages", widths::at_stages()),
        ("wide-refused-closed", widths::when_closed()),
        ("wide-refused-tables", widths::tables()),
        ("wide-refused-tables-calls", widths::tables_calls()),
        ("widths-wide-party", widths::wide_party()),
        ("widths-narrow-party", widths::narrow_party()),
        ("widths-order", widths::order()),
        ("widths-desks", widths::desks()),
        ("wide-winter", unsent::unsent(Wide)),
        ("wide-winter-liar", unsent::wide_liar()),
        ("wide-winter-sixteen", unsent::sixteen(Wide)),
        ("wide-winter-stations", unsent::stations(Wide)),
        ("wide-winter-stations-nine", unsent::stations_nine(Wide)),
    ]
}

/// What comes of each story. The first starts without a make, and each other
/// one with the party that the story before left.
pub fn told() -> Vec<(&'static str, Vec<Step>)> {
    let mut party = Party::make(Narrow, 0, 0, 0).0;
    let mut tell = |call| step(&mut party, call);
    all()
        .into_iter()
        .map(|(name, calls)| (name, calls.into_iter().map(&mut tell).collect()))
        .collect()
}

/// Each story's name, then its lines.
pub fn text() -> String {
    told()
        .into_iter()
        .map(|(name, steps)| {
            let lines: String = steps.iter().map(line).collect();
            format!("# {name}\n{lines}")
        })
        .collect()
}

/// The calls of all stories as bytes.
pub fn stream() -> Vec<u8> {
    all()
        .iter()
        .flat_map(|(_, calls)| calls.iter().flat_map(wire::write))
        .collect()
}

/// What is kept: the stories, then the lists of `calls SEED COUNT`.
pub fn stored_stream(seed: u64, count: usize) -> Vec<u8> {
    [stream(), wire::stream(seed, count)].concat()
}
