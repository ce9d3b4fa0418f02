//! Self tests on random lists of calls: what must hold after any of them.

use crate::calls::{call_name, call_width, is_opening, lends_numbers, Call, Desk, Step};
use crate::check::{count, expect, Outcome, Tally};
use crate::lists::random_list;
use crate::party::Stage;
use crate::poly::value;
use crate::rng::Rng;
use crate::scenario::value_of_f;
use crate::stations::{one_to, point};

/// Any calls: what is refused changes nothing, but 8 and 9 close, and nor does an
/// opening. 18 comes exactly for a call of the other prime to a party that is
/// rightly made.
pub fn any_calls(rng: &mut Rng, tally: &mut Tally) -> Outcome {
    for step in random_list(rng) {
        let name = call_name(&step.call);
        match step.answer.result {
            Ok(_) => count(tally, &format!("call {name} ok")),
            Err(k) => count(tally, &format!("call {name} refused {k}")),
        }
        match step.answer.result {
            Err(8) => {
                let end = (step.after.stage, step.after.share, step.after.happy);
                expect(end == (Stage::Closed, 0, 0), "8 closes otherwise")?;
            }
            Err(9) => {
                let end = (step.after.stage, step.after.share);
                expect(end == (Stage::Closed, 0), "9 closes otherwise")?;
                expect(step.after.happy != 0, "9 loses the set")?;
            }
            Err(_) if is_making(&step.call) => {
                expect(step.after.stage == Stage::Waiting, "made and not waiting")?;
            }
            Err(_) => expect(
                step.before == step.after,
                "a refused call changes the party",
            )?,
            Ok(_) if is_opening(&step.call) => {
                expect(step.before == step.after, "an opening changes the party")?;
            }
            Ok(_) => {}
        }
        any_width(&step)?;
        any_desk(&step)?;
    }
    Ok(())
}

/// A call of the other prime is refused with 1, 2 or 18, and with 18 no other.
fn any_width(step: &Step) -> Outcome {
    let other = lends_numbers(&step.call) && call_width(&step.call) != Some(step.before.width);
    let refused = step.answer.result.as_ref().err();
    let wanted = match step.before.check_made() {
        Err(refusal) => refusal,
        Ok(()) => 18,
    };
    expect(
        !other || refused == Some(&wanted),
        "the other prime is taken",
    )?;
    expect(other || refused != Some(&18), "18 for the own prime")
}

/// A making, refused or not, puts a new party in the place of the old one.
fn is_making(call: &Call) -> bool {
    matches!(call, Call::Make(..) | Call::MakeWith(..))
}

/// The desk touches no party; refused it touches no list, and otherwise it
/// writes rows and columns of F. No other call writes to a list.
fn any_desk(step: &Step) -> Outcome {
    let written = &step.answer.written;
    let (desk, table) = match &step.call {
        // A size that is none may be too large for a table.
        Call::Desk(desk) => (desk, one_to(desk.n.min(16))),
        Call::DeskWith(desk, table) => (desk, table.clone()),
        _ => return expect(written.is_empty(), "a call to a party writes to a list"),
    };
    expect(step.before == step.after, "the desk touches a party")?;
    expect(written.len() == desk.room, "the room has another length")?;
    match step.answer.result {
        Err(_) => expect(
            written
                .iter()
                .all(|&number| number == desk.width.not_sent()),
            "a refused desk writes",
        ),
        Ok(_) => expect(deals_lie_on_f(desk, &table, written), "a deal is not on F"),
    }
}

/// For party i, whose point is y, the row is F(x, y) and the column F(y, x) at
/// t+1 places x, which decides them, for neither has more than t+1
/// coefficients.
fn deals_lie_on_f(desk: &Desk, table: &[u32], deals: &[u32]) -> bool {
    let (width, t, f) = (desk.width, desk.t, &desk.coefs);
    let in_field = deals.iter().all(|&number| width.is_sent(number));
    let halves: Vec<Vec<u64>> = deals
        .chunks(t + 1)
        .map(|half| half.iter().map(|&c| c.into()).collect())
        .collect();
    let party_is_right = |i: usize| {
        let (row, column) = (&halves[2 * i - 2], &halves[2 * i - 1]);
        let y = point(table, i);
        (0..=t as u64).all(|x| {
            value(width, row, x) == value_of_f(width, f, t, x, y)
                && value(width, column, x) == value_of_f(width, f, t, y, x)
        })
    };
    in_field && halves.len() == 2 * desk.n && (1..=desk.n).all(party_is_right)
}
