//! Calls to one party and to the desk, with the answer and the state after
//! each call. The README says how a line is written.

use crate::dealer;
use crate::field::Width;
use crate::party::Party;
use std::fmt::Display;

/// No call has more numbers, and no lent list is longer: more than any right
/// call needs, and little enough for a reader to hold.
pub const LENT_LIMIT: usize = 200;

#[derive(Clone, PartialEq, Eq, Debug)]
pub enum Call {
    /// n, t and the party's number. A new party takes the old one's place.
    Make(Width, usize, usize, usize),
    /// The calls that lend field numbers come in two widths. Saying a pair and
    /// settling, which lend none, are one call for both.
    Deal(Width, Vec<u32>),
    Say(usize),
    Hear(Width, Vec<u32>),
    Settle(Vec<u16>),
    Open(Width, Vec<u32>),
    Desk(Desk),
    /// A making with a table of the parties' points.
    MakeWith(Width, usize, usize, usize, Vec<u32>),
    /// The desk with a table.
    DeskWith(Desk, Vec<u32>),
    /// An opening by an error locator. Whoever is asked for it must answer as
    /// to `Open`.
    Locate(Width, Vec<u32>),
}

/// A call to the dealing desk, which concerns no party.
#[derive(Clone, PartialEq, Eq, Debug)]
pub struct Desk {
    pub width: Width,
    pub n: usize,
    pub t: usize,
    /// How many numbers the list lent for the deals has.
    pub room: usize,
    /// The dealer's list.
    pub coefs: Vec<u32>,
}

/// What a call answers: the number of a refusal, or its values. With either
/// comes what the list lent for writing holds afterwards. Only the desk is
/// lent one.
#[derive(Clone, PartialEq, Eq, Debug)]
pub struct Answer {
    pub result: Result<Vec<u32>, u8>,
    pub written: Vec<u32>,
}

/// One line of a list: what was called, answered, and held afterwards.
pub struct Step {
    pub call: Call,
    pub answer: Answer,
    pub before: Party,
    pub after: Party,
}

/// Makes the call. The desk leaves the party alone.
pub fn apply(party: &mut Party, call: &Call) -> Answer {
    let mut written = Vec::new();
    let result = match call {
        Call::Make(width, n, t, number) => replace(party, Party::make(*width, *n, *t, *number)),
        Call::MakeWith(width, n, t, number, table) => {
            replace(party, Party::make_with(*width, *n, *t, *number, table))
        }
        Call::Say(j) => party.say(*j).map(|(first, second)| vec![first, second]),
        Call::Settle(list) => party.settle(list).map(|()| vec![]),
        Call::Deal(width, _)
        | Call::Hear(width, _)
        | Call::Open(width, _)
        | Call::Locate(width, _) => party
            .check_width(*width)
            .and_then(|()| apply_of_width(party, call)),
        Call::Desk(desk) => {
            written = vec![desk.width.not_sent(); desk.room];
            let Desk { n, t, coefs, .. } = desk;
            dealer::deal(desk.width, *n, *t, coefs, &mut written).map(|()| vec![])
        }
        Call::DeskWith(desk, table) => {
            written = vec![desk.width.not_sent(); desk.room];
            let Desk { n, t, coefs, .. } = desk;
            dealer::deal_with(desk.width, *n, *t, table, coefs, &mut written).map(|()| vec![])
        }
    };
    Answer { result, written }
}

/// A call that lends field numbers of the party's own width. There is one rule
/// for both openings, and here it is tried out for both.
fn apply_of_width(party: &mut Party, call: &Call) -> Result<Vec<u32>, u8> {
    match call {
        Call::Deal(_, list) => party.take_deal(list).map(|()| vec![]),
        Call::Hear(_, list) => party.hear(list).map(|report| vec![report.into()]),
        Call::Open(_, list) | Call::Locate(_, list) => party.open(list).map(|number| vec![number]),
        _ => unreachable!("a call that lends no field numbers"),
    }
}

/// The party that was made, refused or not, takes the old one's place.
fn replace(party: &mut Party, made: (Party, Result<(), u8>)) -> Result<Vec<u32>, u8> {
    *party = made.0;
    made.1.map(|()| vec![])
}

// ---- text ----

fn joined<T: Display>(numbers: &[T]) -> String {
    numbers.iter().map(|number| format!(" {number}")).collect()
}

/// The call as it stands in a line, without its end.
pub fn call_text(call: &Call) -> String {
    let name = call_name(call);
    match call {
        Call::Make(_, n, t, number) => format!("{name} {n} {t} {number}"),
        Call::Say(j) => format!("{name} {j}"),
        Call::Settle(list) => format!("{name}{}", joined(list)),
        Call::Deal(_, list) | Call::Hear(_, list) | Call::Open(_, list) | Call::Locate(_, list) => {
            format!("{name}{}", joined(list))
        }
        Call::Desk(desk) => {
            let Desk { n, t, room, .. } = desk;
            format!("{name} {n} {t} {room}{}", joined(&desk.coefs))
        }
        Call::MakeWith(_, n, t, number, table) => {
            format!("{name} {n} {t} {number}{}", joined(table))
        }
        Call::DeskWith(desk, table) => {
            let Desk { n, t, room, .. } = desk;
            let m = table.len();
            let lists = joined(table) + &joined(&desk.coefs);
            format!("{name} {n} {t} {room} {m}{lists}")
        }
    }
}

/// The call's first word.
pub fn call_name(call: &Call) -> &'static str {
    let [narrow, wide] = match call {
        Call::Make(..) => ["make", "wide-make"],
        Call::Deal(..) => ["deal", "wide-deal"],
        Call::Say(_) => ["say"; 2],
        Call::Hear(..) => ["hear", "wide-hear"],
        Call::Settle(_) => ["settle"; 2],
        Call::Open(..) => ["open", "wide-open"],
        Call::Desk(_) => ["desk", "wide-desk"],
        Call::MakeWith(..) => ["make-table", "wide-make-table"],
        Call::DeskWith(..) => ["desk-table", "wide-desk-table"],
        Call::Locate(..) => ["locate", "wide-locate"],
    };
    match call_width(call) {
        Some(Width::Wide) => wide,
        _ => narrow,
    }
}

/// The call's width, if it has one.
pub fn call_width(call: &Call) -> Option<Width> {
    match call {
        Call::Make(width, ..) | Call::MakeWith(width, ..) => Some(*width),
        Call::Deal(width, _) | Call::Hear(width, _) => Some(*width),
        Call::Open(width, _) | Call::Locate(width, _) => Some(*width),
        Call::Desk(desk) | Call::DeskWith(desk, _) => Some(desk.width),
        Call::Say(_) | Call::Settle(_) => None,
    }
}

/// The same call of the other width, its numbers cut to 16 bits if they must;
/// one call for both stays as it is.
pub fn of_other_width(call: Call) -> Call {
    let other = |width: Width, list: Vec<u32>| {
        let width = width.other();
        (width, list.into_iter().map(|x| width.cut(x)).collect())
    };
    match call {
        Call::Deal(width, list) => {
            let (width, list) = other(width, list);
            Call::Deal(width, list)
        }
        Call::Hear(width, list) => {
            let (width, list) = other(width, list);
            Call::Hear(width, list)
        }
        Call::Open(width, list) => {
            let (width, list) = other(width, list);
            Call::Open(width, list)
        }
        Call::Locate(width, list) => {
            let (width, list) = other(width, list);
            Call::Locate(width, list)
        }
        call => call,
    }
}

/// Either opening.
pub fn is_opening(call: &Call) -> bool {
    matches!(call, Call::Open(..) | Call::Locate(..))
}

/// The calls that lend a party field numbers, and so can be of the other prime.
pub fn lends_numbers(call: &Call) -> bool {
    is_opening(call) || matches!(call, Call::Deal(..) | Call::Hear(..))
}

/// An opening asked for both ways, one right after the other: for the same list
/// also by the locator, last or first. Any other call stays alone.
pub fn both_ways(call: Call, locator_first: bool) -> Vec<Call> {
    let Call::Open(width, list) = &call else {
        return vec![call];
    };
    let locate = Call::Locate(*width, list.clone());
    match locator_first {
        true => vec![locate, call],
        false => vec![call, locate],
    }
}

/// What a call answered and left: `ANSWER ; STAGE SHARE HAPPY`.
pub fn answer_text(answer: &Answer, party: &Party) -> String {
    let words = match &answer.result {
        Ok(values) => format!("ok{}", joined(values)),
        Err(refusal) => format!("refused {refusal}"),
    };
    let written = joined(&answer.written);
    let stage = party.stage as u8;
    format!("{words}{written} ; {stage} {} {}", party.share, party.happy)
}

/// The line of a step.
pub fn line(step: &Step) -> String {
    let call = call_text(&step.call);
    format!("{call} = {}\n", answer_text(&step.answer, &step.after))
}

/// Makes the call and notes what came of it.
pub fn step(party: &mut Party, call: Call) -> Step {
    let before = party.clone();
    let answer = apply(party, &call);
    Step {
        call,
        answer,
        before,
        after: party.clone(),
    }
}
