//! The kinds of outcome that a record's text shows, to be counted for narrow and
//! for wide records apart.

use crate::field::Width;
use crate::record;
use crate::stations::one_to;
use crate::unsent::{self, Unsent};

/// How many kinds there are for each width.
const OF_WIDTH: usize = 16;

/// Every kind, in the order of the lines; first those of narrow records.
pub const OUTCOMES: [&str; 2 * OF_WIDTH] = [
    "record refused 1",
    "record refused 6",
    "dealer accepted",
    "dealer rejected",
    "lamp share, happy",
    "lamp share, repaired",
    "lamp refused 7",
    "lamp refused 8",
    "lamp refused 9",
    "opened",
    "opened refused 8",
    "opened refused 10",
    "opened, more than t dark",
    "opened through lies, more than t dark",
    "opened refused 10, 2t lit and no lie",
    "opened refused 10, more than t dark and lies",
    "wide record refused 1",
    "wide record refused 6",
    "wide dealer accepted",
    "wide dealer rejected",
    "wide lamp share, happy",
    "wide lamp share, repaired",
    "wide lamp refused 7",
    "wide lamp refused 8",
    "wide lamp refused 9",
    "wide opened",
    "wide opened refused 8",
    "wide opened refused 10",
    "wide opened, more than t dark",
    "wide opened through lies, more than t dark",
    "wide opened refused 10, 2t lit and no lie",
    "wide opened refused 10, more than t dark and lies",
];

/// How often each kind was met.
pub type Counts = [usize; OUTCOMES.len()];

/// A line without its numbers, except that of a refusal. A lamp that is not
/// in the happy line but has a share was repaired.
fn kind_of(line: &str, happy: &[&str]) -> String {
    let words: Vec<&str> = line.split(' ').collect();
    match words[..] {
        ["lamp", i, "share", _] if happy.contains(&i) => "lamp share, happy".to_string(),
        ["lamp", _, "share", _] => "lamp share, repaired".to_string(),
        ["lamp", _, "refused", k] => format!("lamp refused {k}"),
        ["opened", _] => "opened".to_string(),
        _ => line.to_string(),
    }
}

/// How the opening of a record with many parties dark is called, if it is one
/// that is counted.
fn unsent_kind(bytes: &[u8], text: &str) -> Option<&'static str> {
    let record = record::read(bytes).ok()?;
    let opened = match text.lines().last()?.strip_prefix("opened ")? {
        "refused 8" => return None,
        "refused 10" => Err(10),
        number => Ok(number.parse().ok()?),
    };
    let table = one_to(record.n);
    let kind = unsent::kind_of(record.width, &table, record.t, &record.shares, opened)?;
    Some(match kind {
        Unsent::Opened => "opened, more than t dark",
        Unsent::ThroughLies => "opened through lies, more than t dark",
        Unsent::TooFew => "opened refused 10, 2t lit and no lie",
        Unsent::Lies => "opened refused 10, more than t dark and lies",
    })
}

/// Adds the outcomes of a record's text. The lines of size and of happy lamps
/// are none; that of the opening may be two. A record is wide if its first byte
/// says so.
pub fn count(counts: &mut Counts, record: &[u8], text: &str) {
    let first = match record.first().map(|&byte| Width::of_byte(byte)) {
        Some(Width::Wide) => OF_WIDTH,
        _ => 0,
    };
    let happy: Vec<&str> = text
        .lines()
        .filter(|line| line.starts_with("happy "))
        .flat_map(|line| line.split(' ').skip(1))
        .collect();
    let unsent = unsent_kind(record, text).map(str::to_string);
    for kind in text.lines().map(|line| kind_of(line, &happy)).chain(unsent) {
        let kinds = &OUTCOMES[..OF_WIDTH];
        if let Some(k) = kinds.iter().position(|&name| name == kind) {
            counts[first + k] += 1;
        }
    }
}

/// One line for each kind, also for those that were never met.
pub fn table(counts: &Counts) -> String {
    OUTCOMES
        .iter()
        .zip(counts)
        .map(|(name, times)| format!("{times:8} {name}\n"))
        .collect()
}

/// The kinds that were never met.
pub fn never_met(counts: &Counts) -> Vec<String> {
    OUTCOMES
        .iter()
        .zip(counts)
        .filter(|(_, &times)| times == 0)
        .map(|(name, _)| name.to_string())
        .collect()
}

/// From so many records or lists on every kind must have been met.
pub const MANY: usize = 1_000;

/// That two programs are alike says nothing of what neither was asked. So
/// many records or lists without one of the kinds are a fault of ours.
pub fn all_met(count: usize, what: &str, never: &[String]) -> Result<(), String> {
    if count < MANY || never.is_empty() {
        return Ok(());
    }
    let kinds = never.join("; ");
    Err(format!(
        "{count} {what} are all alike, but among them never came: {kinds}"
    ))
}
