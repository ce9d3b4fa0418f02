//! What honest parties do with a sharing, step by step, and what follows from
//! it. Each step takes the table of the parties' points; a record has none.

use crate::dealer;
use crate::field::Width;
use crate::party::Party;
use crate::record::{pair_place, Record};

/// The deals of a list, as the desk writes them for a table.
pub fn deals(width: Width, table: &[u32], t: usize, coefs: &[u32]) -> Vec<u32> {
    let n = table.len();
    let mut deals = vec![0; 2 * n * (t + 1)];
    dealer::deal_with(width, n, t, table, coefs, &mut deals).expect("a legal list and table");
    deals
}

/// Party i after taking its deal. That cannot be refused: size and table are
/// legal, and the record's lengths are right.
pub fn dealt_party(record: &Record, table: &[u32], i: usize) -> Party {
    let (n, t) = (record.n, record.t);
    let (mut party, made) = Party::make_with(record.width, n, t, i, table);
    made.expect("a legal size and table");
    let length = 2 * (t + 1);
    party
        .take_deal(&record.deals[(i - 1) * length..i * length])
        .expect("a deal of the right length");
    party
}

/// Party i after hearing its pairs too.
pub fn reported_party(record: &Record, table: &[u32], i: usize) -> Party {
    let mut party = dealt_party(record, table, i);
    let start = pair_place(record.n, i, 1);
    party
        .hear(&record.pairs[start..start + 2 * record.n])
        .expect("n pairs in turn");
    party
}

/// Party i run up to and with settling, and what settling answered.
pub fn settled_party(record: &Record, table: &[u32], i: usize) -> (Party, Result<(), u8>) {
    let mut party = reported_party(record, table, i);
    let answer = party.settle(&record.reports);
    (party, answer)
}

/// The pairs that follow from the deals.
pub fn pairs(record: &mut Record, table: &[u32]) {
    for sender in 1..=record.n {
        let party = dealt_party(record, table, sender);
        for receiver in 1..=record.n {
            let (first, second) = party.say(receiver).expect("dealt");
            let place = pair_place(record.n, receiver, sender);
            record.pairs[place] = first;
            record.pairs[place + 1] = second;
        }
    }
}

/// The reports that follow from deals and pairs.
pub fn reports(record: &mut Record, table: &[u32]) {
    for i in 1..=record.n {
        record.reports[i - 1] = reported_party(record, table, i).report;
    }
}

/// The shares that follow from all these. A party without one publishes
/// nothing.
pub fn shares(record: &mut Record, table: &[u32]) {
    for i in 1..=record.n {
        record.shares[i - 1] = match settled_party(record, table, i) {
            (party, Ok(())) => party.share,
            (_, Err(_)) => record.width.not_sent(),
        };
    }
}
