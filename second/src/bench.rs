//! What `bench` must print for a record.

use crate::clique::{members, verdict};
use crate::fit::open_all;
use crate::follow::settled_party;
use crate::record::{self, Record};
use crate::stations::one_to;

/// The whole output for any bytes. Every line ends with one newline.
pub fn run(bytes: &[u8]) -> String {
    match record::read(bytes) {
        Err(refusal) => format!("record refused {refusal}\n"),
        Ok(record) => lines(&record).concat(),
    }
}

/// A record carries no table, so its points are 1 to n.
fn party_line(record: &Record, i: usize) -> String {
    match settled_party(record, &one_to(record.n), i) {
        (party, Ok(())) => format!("lamp {i} share {}\n", party.share),
        (_, Err(refusal)) => format!("lamp {i} refused {refusal}\n"),
    }
}

fn happy_line(happy: u16) -> String {
    let list: Vec<String> = members(happy).iter().map(|i| format!(" {i}")).collect();
    format!("happy{}\n", list.concat())
}

/// The number opened from the published list alone, as published.
fn opened_line(record: &Record, accepted: bool) -> String {
    if !accepted {
        return "opened refused 8\n".to_string();
    }
    match open_all(record.width, &record.shares, record.t) {
        Ok(number) => format!("opened {number}\n"),
        Err(refusal) => format!("opened refused {refusal}\n"),
    }
}

fn lines(record: &Record) -> Vec<String> {
    let mut lines = vec![format!("size {} {}\n", record.n, record.t)];
    let (happy, accepted) = verdict(&record.reports, record.t);
    if accepted {
        lines.push("dealer accepted\n".to_string());
        lines.push(happy_line(happy));
    } else {
        lines.push("dealer rejected\n".to_string());
    }
    lines.extend((1..=record.n).map(|i| party_line(record, i)));
    lines.push(opened_line(record, accepted));
    lines
}
