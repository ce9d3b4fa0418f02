//! Random lists of calls to one party, and to the desk in between. About half
//! of the parties have a table, and a third are wide; some lists are whole
//! runs. Every opening is asked for both ways.

use crate::calls::{both_ways, line, of_other_width, step, Call, Step, LENT_LIMIT};
use crate::desk_calls::random_desk_call;
use crate::field::Width;
use crate::follow;
use crate::lies::{about_t, enlarge, garble, garble_reports, wrong};
use crate::party::{Party, Stage};
use crate::poly::value;
use crate::published::share_list;
use crate::random_runs::random_run;
use crate::record::{pair_place, Record};
use crate::rng::Rng;
use crate::scenario::{build, build_on, legal_size, polynomial, Scenario, HONEST};
use crate::stations::{check_table, point};
use crate::tables::{bad_table, good_table};
use crate::tamper_sent::missing_edges;

/// So many lists of a hundred are whole runs.
const RUNS: usize = 25;

/// The longest table of a making: n, t and the party's number are numbers of
/// the call too.
const TABLE_LIMIT: usize = LENT_LIMIT - 3;

/// So many calls of a hundred are for the other prime.
const OTHER_PRIME: usize = 10;

/// A random list, a making first.
pub fn random_list(rng: &mut Rng) -> Vec<Step> {
    let width = rng.width();
    if rng.chance(RUNS) {
        return random_run(rng, width);
    }
    let mut party = Party::make(width, 0, 0, 0).0;
    let make = random_make(rng, width);
    let mut steps = vec![step(&mut party, make)];
    let world = world_of(rng, &party);
    for _ in 0..rng.between(2, 16) {
        let call = random_call(rng, &party, &world);
        steps.extend(steps_of(rng, &mut party, call));
    }
    steps
}

/// The step of a call. An opening has two, of which either comes first.
pub fn steps_of(rng: &mut Rng, party: &mut Party, call: Call) -> Vec<Step> {
    let calls = both_ways(call, rng.chance(50));
    calls.into_iter().map(|call| step(party, call)).collect()
}

/// A making with a good table, with a bad one, or with none.
fn random_make(rng: &mut Rng, width: Width) -> Call {
    let (n, t, number) = made_for(rng, width);
    let length = n.min(TABLE_LIMIT);
    let table = match rng.below(6) {
        0..=2 => return Call::Make(width, n, t, number),
        3..=4 => good_table(rng, width, length),
        _ => bad_table(rng, width, length, TABLE_LIMIT),
    };
    Call::MakeWith(width, n, t, number, table)
}

/// Size, number and table are not refused.
fn is_usable(party: &Party) -> bool {
    party.check_made().is_ok() && check_table(party.width, &party.table).is_ok()
}

/// What the other parties would say. Mostly they have the party's own table. A
/// bad table is replaced by 1 to n, so that the lists have the right lengths; a
/// bad size borrows a legal one.
fn world_of(rng: &mut Rng, party: &Party) -> Scenario {
    let width = party.width;
    if party.check_made().is_err() {
        let (n, t) = legal_size(rng);
        return build(rng, width, n, t, HONEST);
    }
    let (n, t) = (party.n, party.t);
    match rng.below(15) {
        _ if !is_usable(party) => build(rng, width, n, t, HONEST),
        0 => {
            let other = good_table(rng, width, n);
            build_on(rng, width, &other, t, HONEST)
        }
        _ => build_on(rng, width, &party.table, t, HONEST),
    }
}

/// Size and number, mostly legal.
fn made_for(rng: &mut Rng, width: Width) -> (usize, usize, usize) {
    let (n, t) = match rng.below(10) {
        0 => bad_size(rng, width),
        _ => legal_size(rng),
    };
    let number = match rng.below(10) {
        0 => bad_number(rng, width, n),
        _ => rng.between(1, n.max(1)),
    };
    (n, t, number)
}

/// A size that is none, or by chance is one. Some are legal to a reader that
/// keeps only a number's low byte, or of a wide one only 16 bits.
pub fn bad_size(rng: &mut Rng, width: Width) -> (usize, usize) {
    if width == Width::Wide && rng.chance(30) {
        let (n, t) = legal_size(rng);
        let largest = width.not_sent() as usize;
        return rng.pick(&[
            (n + 65_536, t),
            (n, t + 65_536),
            (n + (1 << 31), t),
            (largest, largest),
        ]);
    }
    let any = (rng.below(20), rng.below(6));
    let large = (rng.between(256, 65_535), rng.between(256, 65_535));
    let (n, t) = legal_size(rng);
    rng.pick(&[
        (4, 1),
        (8, 2),
        (12, 3),
        (17, 3),
        (17, 4),
        (5, 0),
        (0, 0),
        (255, 3),
        (16, 255),
        any,
        large,
        (n + 256, t),
        (n, t + 256),
        (n + 256, t + 256),
        (65_535, 65_535),
    ])
}

/// A party that is none. Some are parties to a reader that keeps only a
/// number's low byte, or of a wide one only 16 bits.
fn bad_number(rng: &mut Rng, width: Width, n: usize) -> usize {
    if width == Width::Wide && rng.chance(30) {
        let party = rng.between(1, n.clamp(1, 16));
        return rng.pick(&[party + 65_536, party + (1 << 31), width.not_sent() as usize]);
    }
    let large = rng.between(256, 65_535);
    let low_byte = 256 + rng.between(1, n.clamp(1, 16));
    let next = (n + 1).min(65_535);
    rng.pick(&[0, next, next, 17, 255, large, low_byte, low_byte, 65_535])
}

/// Some go to the desk: of all calls, makes among them, about one in ten. The
/// others are mostly the call that comes next; else any, at any stage. A party
/// badly made has no next call, so it gets any, and wrong lengths more often.
/// Some calls are for the other prime.
fn random_call(rng: &mut Rng, party: &Party, world: &Scenario) -> Call {
    if rng.chance(12) {
        return random_desk_call(rng);
    }
    let usable = is_usable(party);
    let kind = match party.stage {
        _ if !usable || rng.chance(40) => rng.below(5),
        Stage::Waiting => 0,
        Stage::Dealt => 2,
        Stage::Reported => 3,
        Stage::Holding => 4,
        Stage::Closed => rng.below(5),
    };
    let mut call = match kind {
        0 => Call::Deal(party.width, deal_list(rng, party, world)),
        1 => Call::Say(said_for(rng, party)),
        2 => Call::Hear(party.width, pair_list(rng, party, world)),
        3 => Call::Settle(report_list(rng, party, world)),
        _ => {
            let own = number_in(party, world);
            Call::Open(party.width, share_list(rng, world, own))
        }
    };
    if rng.chance(if usable { 12 } else { 30 }) {
        spoil_length(rng, &mut call);
    }
    if rng.chance(OTHER_PRIME) {
        call = of_other_width(call);
    }
    call
}

fn said_for(rng: &mut Rng, party: &Party) -> usize {
    match rng.below(8) {
        // The number of a saying has 16 bits whatever the party's width is.
        0 => bad_number(rng, Width::Narrow, party.n),
        1 => party.number,
        _ => rng.between(1, party.n.max(1)),
    }
}

/// A length that is not this one, or by chance is: one too few or too many,
/// none at all, twice as many, or any up to the limit.
pub fn other_length(rng: &mut Rng, length: usize, limit: usize) -> usize {
    let other = match rng.below(5) {
        0 => length.saturating_sub(1),
        1 => length + 1,
        2 => 0,
        3 => 2 * length,
        _ => rng.below(limit + 1),
    };
    other.min(limit)
}

fn spoil_length(rng: &mut Rng, call: &mut Call) {
    match call {
        Call::Deal(width, list) | Call::Hear(width, list) | Call::Open(width, list) => {
            let length = other_length(rng, list.len(), LENT_LIMIT);
            list.resize(length, width.not_sent());
        }
        Call::Settle(list) => {
            let length = other_length(rng, list.len(), LENT_LIMIT);
            list.resize(length, 65_535);
        }
        _ => {}
    }
}

/// The number of the party within the world; a bad one stands for party 1.
fn number_in(party: &Party, world: &Scenario) -> usize {
    if (1..=world.record.n).contains(&party.number) {
        party.number
    } else {
        1
    }
}

/// The party's stretch of the deals, or one that is not right.
fn deal_list(rng: &mut Rng, party: &Party, world: &Scenario) -> Vec<u32> {
    let (width, t) = (world.record.width, world.record.t);
    let i = number_in(party, world);
    let length = 2 * (t + 1);
    let stretch = (i - 1) * length..i * length;
    let mut list = world.record.deals[stretch.clone()].to_vec();
    match rng.below(12) {
        0 => {
            let k = rng.below(length);
            list[k] = wrong(rng, width, list[k]);
        }
        1 => {
            let other = polynomial(rng, width, t);
            list = follow::deals(width, &world.table, t, &other)[stretch].to_vec();
        }
        2 => enlarge(rng, width, &mut list),
        3 => garble(rng, width, &mut list),
        _ => {}
    }
    list
}

/// What the party hears: the truth, about t lies in first numbers, some in
/// second ones, another column, or worse.
fn pair_list(rng: &mut Rng, party: &Party, world: &Scenario) -> Vec<u32> {
    let Record { width, n, t, .. } = world.record;
    let start = pair_place(n, number_in(party, world), 1);
    let mut list = world.record.pairs[start..start + 2 * n].to_vec();
    match rng.below(10) {
        0..=2 => {}
        3..=5 => {
            lie_at(rng, &world.record, &mut list, 0);
            lie_at(rng, &world.record, &mut list, 1);
        }
        6 => lie_at(rng, &world.record, &mut list, 1),
        7 => hear_other_column(rng, width, &mut list, &world.table, t),
        8 => enlarge(rng, width, &mut list),
        _ => garble(rng, width, &mut list),
    }
    list
}

/// Lies in the first (0) or second (1) numbers of about t pairs.
fn lie_at(rng: &mut Rng, record: &Record, list: &mut [u32], which: usize) {
    let count = about_t(rng, record.n, record.t);
    for j in rng.some_of(record.n, count) {
        let k = 2 * (j - 1) + which;
        list[k] = wrong(rng, record.width, list[k]);
    }
}

/// First numbers of a column that is not its own, but for about t of them.
fn hear_other_column(rng: &mut Rng, width: Width, list: &mut [u32], table: &[u32], t: usize) {
    let n = table.len();
    let column: Vec<u64> = (0..=t).map(|_| rng.element(width).into()).collect();
    let count = about_t(rng, n, t);
    let spared = rng.some_of(n, count);
    for j in 1..=n {
        if !spared.contains(&j) {
            list[2 * (j - 1)] = value(width, &column, point(table, j)) as u32;
        }
    }
}

/// Reports of all: complete, with some edges missing, or at random; the own
/// place mostly holds the own report.
fn report_list(rng: &mut Rng, party: &Party, world: &Scenario) -> Vec<u16> {
    let (n, t) = (world.record.n, world.record.t);
    let mut list = world.record.reports.clone();
    match rng.below(8) {
        0..=3 => {}
        4..=6 => {
            for (a, b) in missing_edges(rng, n, t) {
                list[a - 1] &= !(1 << (b - 1));
            }
        }
        _ => garble_reports(rng, &mut list),
    }
    let own = number_in(party, world) - 1;
    list[own] = match rng.below(10) {
        0 => party.report ^ (1 << rng.below(16)),
        1 => rng.word(),
        _ => party.report,
    };
    if rng.chance(20) {
        // Bits that do not count, in another's place.
        let other = rng.below(n);
        if other != own {
            list[other] |= 1 << other | !((1u32 << n) - 1) as u16;
        }
    }
    list
}

/// COUNT lists. Whoever shows, writes or sends them takes them from here, so
/// that they are the same for all.
pub fn random_lists(seed: u64, count: usize) -> impl Iterator<Item = Vec<Step>> {
    let mut rng = Rng::new(seed);
    (0..count).map(move |_| random_list(&mut rng))
}

/// COUNT lists as text.
pub fn text(seed: u64, count: usize) -> String {
    random_lists(seed, count)
        .flatten()
        .map(|step| line(&step))
        .collect()
}
