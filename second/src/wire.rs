//! Calls as bytes, for a program that reads them from its standard input.
//!
//! A call is one byte for its kind, a 16-bit count, and that many 16-bit
//! numbers, high byte first; nothing stands between two calls. A wide call has
//! 128 added to its kind, and its numbers have 32 bits. What is no call ends
//! the input. The README has the rules.

use crate::calls::{answer_text, apply, call_width, Answer, Call, Desk, LENT_LIMIT};
use crate::field::Width;
use crate::lists::random_lists;
use crate::party::Party;

/// A number as it goes into the stream. All are made to fit; cutting one that
/// does not would send another call than the one shown.
fn word(number: usize) -> u32 {
    u32::try_from(number).expect("a number of 32 bits")
}

/// The kind's byte without its mark, and the numbers.
fn parts(call: &Call) -> (u8, Vec<u32>) {
    match call {
        Call::Make(_, n, t, number) => (0, vec![word(*n), word(*t), word(*number)]),
        Call::Deal(_, list) => (1, list.clone()),
        Call::Say(j) => (2, vec![word(*j)]),
        Call::Hear(_, list) => (3, list.clone()),
        Call::Settle(list) => (4, list.iter().map(|&report| report.into()).collect()),
        Call::Open(_, list) => (5, list.clone()),
        Call::Desk(desk) => {
            let mut numbers = vec![word(desk.n), word(desk.t), word(desk.room)];
            numbers.extend(&desk.coefs);
            (6, numbers)
        }
        Call::MakeWith(_, n, t, number, table) => {
            let mut numbers = vec![word(*n), word(*t), word(*number)];
            numbers.extend(table);
            (7, numbers)
        }
        Call::DeskWith(desk, table) => {
            let mut numbers = vec![word(desk.n), word(desk.t), word(desk.room)];
            numbers.push(word(table.len()));
            numbers.extend(table);
            numbers.extend(&desk.coefs);
            (8, numbers)
        }
        Call::Locate(_, list) => (9, list.clone()),
    }
}

/// The call's bytes.
pub fn write(call: &Call) -> Vec<u8> {
    let (kind, numbers) = parts(call);
    let mark = call_width(call).map_or(0, Width::mark);
    raw(kind + mark, &numbers)
}

/// The bytes of a kind and its numbers, whether or not that is a call.
pub fn raw(kind: u8, numbers: &[u32]) -> Vec<u8> {
    let mut bytes = vec![kind];
    bytes.extend(Width::Narrow.write(word(numbers.len())));
    for &number in numbers {
        bytes.extend(Width::of_byte(kind).write(number));
    }
    bytes
}

/// The lists of `calls SEED COUNT`, one after the other.
pub fn stream(seed: u64, count: usize) -> Vec<u8> {
    random_lists(seed, count)
        .flatten()
        .flat_map(|step| write(&step.call))
        .collect()
}

/// A number where a small one is asked for.
fn small(number: u32) -> usize {
    number as usize
}

/// The call of a kind and its numbers, if it is one: a known kind, as many
/// numbers as it takes, a table whole, and room within the limit.
fn call_of(kind: u8, numbers: Vec<u32>) -> Option<Call> {
    if numbers.len() > LENT_LIMIT {
        return None;
    }
    let width = Width::of_byte(kind);
    match (kind - width.mark(), &numbers[..]) {
        (0, &[n, t, number]) => Some(Call::Make(width, small(n), small(t), small(number))),
        (1, _) => Some(Call::Deal(width, numbers)),
        (3, _) => Some(Call::Hear(width, numbers)),
        (5, _) => Some(Call::Open(width, numbers)),
        (6, &[n, t, room, ref coefs @ ..]) => {
            Some(Call::Desk(desk_of(width, [n, t, room], coefs)?))
        }
        (7, &[n, t, number, ref table @ ..]) => {
            let (n, t, number) = (small(n), small(t), small(number));
            Some(Call::MakeWith(width, n, t, number, table.to_vec()))
        }
        (8, &[n, t, room, m, ref lists @ ..]) if small(m) <= lists.len() => {
            let (table, coefs) = lists.split_at(small(m));
            let desk = desk_of(width, [n, t, room], coefs)?;
            Some(Call::DeskWith(desk, table.to_vec()))
        }
        (9, _) => Some(Call::Locate(width, numbers)),
        _ => call_of_both(kind, &numbers),
    }
}

/// The calls that are the same for both widths: they have no wide kind.
fn call_of_both(kind: u8, numbers: &[u32]) -> Option<Call> {
    match (kind, numbers) {
        (2, &[j]) => Some(Call::Say(small(j))),
        (4, _) => {
            let reports = numbers.iter().map(|&report| report as u16);
            Some(Call::Settle(reports.collect()))
        }
        _ => None,
    }
}

/// The desk's numbers, if the room is within the limit.
fn desk_of(width: Width, numbers: [u32; 3], coefs: &[u32]) -> Option<Desk> {
    let [n, t, room] = numbers.map(small);
    let desk = Desk {
        width,
        n,
        t,
        room,
        coefs: coefs.to_vec(),
    };
    (desk.room <= LENT_LIMIT).then_some(desk)
}

/// The first call of the bytes and what is behind it; none if they do not
/// start with a whole call.
fn first_call(bytes: &[u8]) -> Option<(Call, &[u8])> {
    let (head, body) = bytes.split_first_chunk::<3>()?;
    let width = Width::of_byte(head[0]);
    let count = usize::from(u16::from_be_bytes([head[1], head[2]]));
    let length = width.bytes() * count;
    if body.len() < length {
        return None;
    }
    let (list, behind) = body.split_at(length);
    Some((call_of(head[0], width.read(list))?, behind))
}

/// The calls of a stream, up to the first that is none.
pub fn read(stream: &[u8]) -> Vec<Call> {
    let mut calls = Vec::new();
    let mut rest = stream;
    while let Some((call, behind)) = first_call(rest) {
        calls.push(call);
        rest = behind;
    }
    calls
}

/// The line for a call: `ANSWER ; STAGE SHARE HAPPY REPORT`.
pub fn line(answer: &Answer, party: &Party) -> String {
    format!("{} {}\n", answer_text(answer, party), party.report)
}

/// A line for each call of a stream. Before any make the party is the narrow
/// one made for 0, 0, 0.
pub fn answers(stream: &[u8]) -> String {
    let mut party = Party::make(Width::Narrow, 0, 0, 0).0;
    let mut text = String::new();
    for call in read(stream) {
        let answer = apply(&mut party, &call);
        text += &line(&answer, &party);
    }
    text
}
