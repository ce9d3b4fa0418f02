//! Stories of refusals: the desk's, those of parties badly made, and those of
//! a party that is asked at each stage for what it may not do.

use crate::calls::{Call, Desk};
use crate::field::Width::{self, Narrow};
use crate::named::{honest_of, F};
use crate::party::Stage;
use crate::story_runs::{deal_by_desk, deal_of, heard_by, OTHER};

/// The lowest refusal comes, whatever else is wrong too.
pub fn desk() -> Vec<Call> {
    let large = [65_521, 2, 3, 4];
    let refused: [(usize, usize, &[u32]); 13] = [
        // 1: the size.
        (4, 16, &F),
        (4, 16, &large),
        // 3: the dealer's list.
        (5, 20, &[7, 2, 3]),
        (5, 20, &[7, 2, 3, 4, 0]),
        (5, 20, &[]),
        (5, 20, &[65_521, 2, 3]),
        // 3: the room.
        (5, 19, &F),
        (5, 21, &F),
        (5, 0, &F),
        (5, 19, &large),
        // 5: a number too large, at either end of the list.
        (5, 20, &large),
        (5, 20, &[7, 2, 3, 65_521]),
        (5, 20, &[7, 2, 65_535, 4]),
    ];
    let mut calls: Vec<Call> = refused
        .into_iter()
        .map(|(n, room, coefs)| {
            Call::Desk(Desk {
                width: Narrow,
                n,
                t: 1,
                room,
                coefs: coefs.to_vec(),
            })
        })
        .collect();
    calls.push(deal_by_desk(Narrow, 5, 1, &[65_520, 2, 3, 4]));
    calls
}

/// One for a wrong size, and its number is wrong as well; one for a wrong
/// number. Each is asked for every call.
pub fn badly_made(width: Width) -> Vec<Call> {
    [(4, 1, 0), (5, 1, 6)]
        .into_iter()
        .flat_map(|(n, t, i)| [vec![Call::Make(width, n, t, i)], every_call(width, n)].concat())
        .collect()
}

/// Every call, with lists of the right length, then with none.
pub fn every_call(width: Width, n: usize) -> Vec<Call> {
    let mut calls = vec![Call::Deal(width, vec![9, 7, 10, 6])];
    calls.extend((0..=6).map(Call::Say));
    calls.extend([
        Call::Hear(width, vec![width.not_sent(); 2 * n]),
        Call::Settle(vec![0; n]),
        Call::Open(width, vec![0; n]),
        Call::Deal(width, vec![]),
        Call::Hear(width, vec![]),
        Call::Settle(vec![]),
        Call::Open(width, vec![]),
    ]);
    calls
}

// ---- a party at each stage ----

/// Party 2's lists of an honest run, in the order in which it takes them. The
/// next stage is that of the next list.
pub fn lists(width: Width, coefs: &[u32]) -> [Call; 4] {
    let record = honest_of(width, 5, 1, coefs);
    [
        Call::Deal(width, deal_of(&record, 2)),
        Call::Hear(width, heard_by(&record, 2)),
        Call::Settle(record.reports),
        Call::Open(width, record.shares),
    ]
}

/// The same call with the list's last number missing.
pub fn too_short(mut call: Call) -> Call {
    match &mut call {
        Call::Deal(_, list) | Call::Hear(_, list) | Call::Open(_, list) => {
            list.pop();
        }
        Call::Settle(list) => {
            list.pop();
        }
        _ => unreachable!("a call without a list"),
    }
    call
}

/// Pairs for all, for itself, and for 0 and 6, who are no parties; then all
/// lists too short, which are refused with 3 at any stage; then the lists of
/// other stages. These are of another run, so that whoever took one shows it.
fn asked_at(width: Width, stage: Stage) -> Vec<Call> {
    let mut calls: Vec<Call> = (0..=6).map(Call::Say).collect();
    calls.extend(lists(width, &F).map(too_short));
    let others = lists(width, &OTHER).into_iter().enumerate();
    let wrong = others.filter(|&(k, _)| k != stage as usize);
    calls.extend(wrong.map(|(_, call)| call));
    calls
}

/// Party 2 from waiting to holding. Its own report, 29, is first altered; its
/// opening is first tried with nothing sent, and last with its own place wrong,
/// which does not count.
pub fn stages(width: Width) -> Vec<Call> {
    let [deal, hear, settle, open] = lists(width, &F);
    let mut calls = vec![Call::Make(width, 5, 1, 2)];
    calls.extend(asked_at(width, Stage::Waiting));
    calls.push(deal);
    calls.extend(asked_at(width, Stage::Dealt));
    calls.push(hear);
    calls.extend(asked_at(width, Stage::Reported));
    calls.push(Call::Settle(vec![30, 28, 27, 23, 15]));
    calls.push(settle);
    calls.extend(asked_at(width, Stage::Holding));
    calls.push(Call::Open(width, vec![width.not_sent(); 5]));
    calls.push(open);
    calls.push(Call::Open(width, vec![10, 999, 998, 19, 22]));
    calls
}

/// Party 2 closed: nobody else reports anything. 7 comes before 8.
pub fn closed(width: Width) -> Vec<Call> {
    let [deal, hear, ..] = lists(width, &F);
    let mut calls = vec![Call::Make(width, 5, 1, 2), deal, hear];
    calls.push(Call::Settle(vec![0, 31, 0, 0, 0]));
    calls.push(Call::Settle(vec![0, 29, 0, 0, 0]));
    calls.extend(asked_at(width, Stage::Closed));
    calls
}
