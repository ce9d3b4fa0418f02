//! Random whole runs: the desk deals, and some of the honest parties in turn
//! are made and go from their deal to an opening. Liars are not called; what
//! they send stands in the others' lists. About half of the runs have a table.
//! Every opening is asked for both ways.

use crate::calls::{of_other_width, step, Call, Desk, Step};
use crate::clique::verdict;
use crate::desk_calls::random_desk_call;
use crate::field::Width;
use crate::lies::wrong;
use crate::lists::steps_of;
use crate::party::Party;
use crate::published::unsent_list;
use crate::record::{pair_place, Record};
use crate::rng::Rng;
use crate::scenario::{build, build_on, legal_size, DealFault, PairFault, Plan, Scenario, HONEST};
use crate::tables::good_table;

/// At most so many parties of a run are called.
const CALLED: usize = 3;

/// A run as steps. It begins with a making, as every list does; the desk comes
/// next, and now and then once more in between. Now and then a call comes for
/// the other prime first, which must change nothing.
pub fn random_run(rng: &mut Rng, width: Width) -> Vec<Step> {
    let (n, t) = legal_size(rng);
    let plan = random_plan(rng, t);
    let table = rng.chance(55).then(|| good_table(rng, width, n));
    let world = match &table {
        Some(table) => build_on(rng, width, table, t, plan),
        None => build(rng, width, n, t, plan),
    };
    let mut calls = Vec::new();
    for i in called(&world) {
        calls.extend(party_calls(rng, &world, table.as_deref(), i));
    }
    calls.insert(1, desk_call(&world, table.as_deref()));
    let mut party = Party::make(width, 0, 0, 0).0;
    let mut steps = Vec::new();
    for call in calls {
        if !steps.is_empty() && rng.chance(8) {
            steps.push(step(&mut party, random_desk_call(rng)));
        }
        let other = of_other_width(call.clone());
        if other != call && rng.chance(8) {
            steps.extend(steps_of(rng, &mut party, other));
        }
        steps.extend(steps_of(rng, &mut party, call));
    }
    steps
}

/// At most t liars. Often a dealer, or what some hear, leaves parties unhappy,
/// so that these repair; then there are fewer liars, lest all be rejected.
fn random_plan(rng: &mut Rng, t: usize) -> Plan {
    let liars = rng.below(t + 1);
    let fewer = rng.below(liars + 1);
    match rng.below(6) {
        0..=1 => Plan { liars, ..HONEST },
        2..=3 => Plan {
            deals: rng.pick(&[
                DealFault::Altered,
                DealFault::Other,
                DealFault::Sly,
                DealFault::Crossing,
            ]),
            liars: fewer,
            ..HONEST
        },
        _ => Plan {
            pairs: rng.pick(&[
                PairFault::Graph,
                PairFault::Repair,
                PairFault::Repair,
                PairFault::OtherColumn,
            ]),
            liars: fewer,
            ..HONEST
        },
    }
}

/// Honest parties, the unhappy ones first, for these have to repair.
fn called(world: &Scenario) -> Vec<usize> {
    let (happy, _) = verdict(&world.record.reports, world.record.t);
    let mut honest: Vec<usize> = (1..=world.record.n)
        .filter(|i| !world.faulty.contains(i))
        .collect();
    honest.sort_by_key(|i| happy >> (i - 1) & 1);
    honest.truncate(CALLED);
    honest
}

fn desk_call(world: &Scenario, table: Option<&[u32]>) -> Call {
    let (n, t) = (world.record.n, world.record.t);
    let desk = Desk {
        width: world.record.width,
        n,
        t,
        room: 2 * n * (t + 1),
        coefs: world.coefs.clone(),
    };
    match table {
        Some(table) => Call::DeskWith(desk, table.to_vec()),
        None => Call::Desk(desk),
    }
}

/// Party i from its making to four openings, the second with one more number
/// wrong and the last two with many parties dark, and some of its pairs on the
/// way.
fn party_calls(rng: &mut Rng, world: &Scenario, table: Option<&[u32]>, i: usize) -> Vec<Call> {
    let record = &world.record;
    let Record { width, n, t, .. } = *record;
    let length = 2 * (t + 1);
    let start = pair_place(n, i, 1);
    let mut shares = record.shares.clone();
    let place = rng.below(n);
    shares[place] = wrong(rng, width, shares[place]);
    let mut calls = vec![
        match table {
            Some(table) => Call::MakeWith(width, n, t, i, table.to_vec()),
            None => Call::Make(width, n, t, i),
        },
        Call::Deal(width, record.deals[(i - 1) * length..i * length].to_vec()),
    ];
    calls.extend(rng.some_of(n, 3).into_iter().map(Call::Say));
    calls.extend([
        Call::Hear(width, record.pairs[start..start + 2 * n].to_vec()),
        Call::Settle(record.reports.clone()),
        Call::Say(rng.between(1, n)),
        Call::Open(width, record.shares.clone()),
        Call::Open(width, shares),
    ]);
    calls.extend((0..2).map(|_| Call::Open(width, unsent_list(rng, world, i))));
    calls
}
