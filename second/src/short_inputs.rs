//! Short inputs for a program that reads calls: such as end before their
//! bytes do, and such as have no make. The random lists have neither.

use crate::calls::{both_ways, Call, Desk};
use crate::field::Width::{self, Narrow, Wide};
use crate::follow;
use crate::rng::Rng;
use crate::stations::{one_to, STATIONS};
use crate::story_runs::{deal_by_desk, party_calls, run_on};
use crate::story_stations::with_table;
use crate::story_wide::{WIDE_F, WIDE_STATIONS};
use crate::wire::{raw, write};

/// What an input shows, and its bytes.
pub type Input = (String, Vec<u8>);

/// How many are random.
pub const RANDOM: usize = 60;

/// All of them; the seed changes the random ones only.
pub fn short_inputs(seed: u64) -> Vec<Input> {
    let mut inputs = without_make();
    inputs.extend(broken());
    inputs.extend(cuts("cut", &example_calls()));
    inputs.extend(cuts("stations cut", &station_calls()));
    inputs.extend(cuts("wide cut", &wide_calls()));
    inputs.extend(cuts("wide stations cut", &wide_station_calls()));
    // Other numbers than those of the lists, also for the same seed.
    let mut rng = Rng::new(!seed);
    inputs.extend((0..RANDOM).map(|k| (format!("random {k}"), random(&mut rng))));
    inputs
}

/// A call of each kind without a table, all accepted in this order.
pub fn example_calls() -> Vec<Call> {
    vec![
        Call::Make(Narrow, 5, 1, 1),
        Call::Deal(Narrow, vec![9, 7, 10, 6]),
        Call::Say(2),
        Call::Hear(Narrow, vec![0, 0, 22, 23, 28, 30, 34, 37, 40, 44]),
        Call::Settle(vec![30, 29, 27, 23, 15]),
        Call::Open(Narrow, vec![0, 13, 999, 19, 22]),
        Call::Locate(Narrow, vec![0, 13, 999, 19, 22]),
        Call::Desk(Desk {
            width: Narrow,
            n: 5,
            t: 1,
            room: 20,
            coefs: vec![7, 2, 3, 4],
        }),
    ]
}

/// The same polynomial with a table, for party 2.
pub fn station_calls() -> Vec<Call> {
    let desk = Desk {
        width: Narrow,
        n: 5,
        t: 1,
        room: 20,
        coefs: vec![7, 2, 3, 4],
    };
    vec![
        Call::MakeWith(Narrow, 5, 1, 2, STATIONS.to_vec()),
        Call::Deal(Narrow, vec![21, 31, 28, 30]),
        Call::Say(4),
        Call::Hear(
            Narrow,
            vec![
                49_480, 24_913, 0, 0, 65_519, 65_511, 118, 114, 40_339, 61_332,
            ],
        ),
        Call::Settle(vec![30, 29, 27, 23, 15]),
        Call::Open(Narrow, vec![57_369, 0, 4, 999, 63_007]),
        Call::Locate(Narrow, vec![57_369, 0, 4, 999, 63_007]),
        Call::DeskWith(desk, STATIONS.to_vec()),
    ]
}

/// A wide call of each kind without a table, all accepted in this order. The
/// dealer's list is -1, 65521, 65536, 1000000007.
pub fn wide_calls() -> Vec<Call> {
    calls_of_party_1(&WIDE_F, None)
}

/// The same polynomial with a table.
pub fn wide_station_calls() -> Vec<Call> {
    calls_of_party_1(&WIDE_F, Some(&WIDE_STATIONS))
}

/// Party 1 of an honest wide run, from its making to both openings, and the desk.
fn calls_of_party_1(coefs: &[u32], table: Option<&[u32]>) -> Vec<Call> {
    let points = table.map_or(one_to(5), <[u32]>::to_vec);
    let deals = follow::deals(Wide, &points, 1, coefs);
    let record = run_on(Wide, &points, 1, deals, &[]);
    let mut calls = party_calls(&record, 1);
    // One saying is enough.
    calls.drain(3..7);
    let both = calls.into_iter().flat_map(|call| both_ways(call, false));
    let mut calls: Vec<Call> = both.collect();
    calls.push(deal_by_desk(Wide, 5, 1, coefs));
    match table {
        Some(table) => with_table(calls, table),
        None => calls,
    }
}

fn bytes_of(calls: &[Call]) -> Vec<u8> {
    calls.iter().flat_map(write).collect()
}

/// Nothing at all; and each kind of call to the party before any make, the
/// desk then called too.
fn without_make() -> Vec<Input> {
    let calls = example_calls();
    let mut inputs = vec![("nothing".to_string(), Vec::new())];
    let with_table = [station_calls().pop(), wide_station_calls().pop()];
    let wide = wide_calls();
    let all = calls[1..].iter().chain(&wide[1..]);
    for call in all.chain(with_table.iter().flatten()) {
        let list = [call.clone(), calls[7].clone(), calls[2].clone()];
        let kind = write(call)[0];
        inputs.push((format!("kind {kind} without a make"), bytes_of(&list)));
    }
    inputs
}

/// Kinds and numbers that are no call. 259 is three, 257 one and 260 the
/// length of the example's deal to a reader of the low byte alone. Saying and
/// settling have no wide kind.
pub fn no_calls() -> Vec<(u8, Vec<u32>)> {
    let mut list = Vec::new();
    for kind in [10, 11, 127, 130, 132, 138, 139, 255] {
        list.extend([0, 1, 3, 5].map(|count| (kind, vec![5; count])));
    }
    let counts: [(u8, &[usize]); 10] = [
        (0, &[0, 1, 2, 4, 200, 201, 259]),
        (1, &[201, 256, 260]),
        (2, &[0, 2, 3, 200, 201, 257]),
        (3, &[201, 256, 266]),
        (4, &[201, 256, 261]),
        (5, &[201, 256, 261]),
        (6, &[0, 1, 2, 201, 256, 263]),
        (7, &[0, 1, 2, 201, 256, 264]),
        (8, &[0, 1, 2, 3, 4, 201, 256, 269]),
        (9, &[201, 256, 261]),
    ];
    for (kind, counts) in counts {
        list.extend(counts.iter().map(|&count| (kind, vec![1; count])));
        let wide = kind + Wide.mark();
        list.extend(counts.iter().map(|&count| (wide, vec![1; count])));
    }
    list.extend(no_desks(Narrow, &[201, 256, 276, 65_535]));
    let large = [201, 256, 65_556, 1 << 31, 4_294_967_295];
    list.extend(no_desks(Wide, &large));
    list
}

/// The desk with more room than there may be, and else in order; and with a
/// table that is longer than what is left of the call.
fn no_desks(width: Width, large: &[u32]) -> Vec<(u8, Vec<u32>)> {
    let mut list = Vec::new();
    for &room in large {
        list.push((6 + width.mark(), vec![5, 1, room, 7, 2, 3, 4]));
        list.push((8 + width.mark(), desk_numbers(room, 5)));
    }
    for &length in [10, 196, 255, 261].iter().chain(large) {
        list.push((8 + width.mark(), desk_numbers(20, length)));
    }
    list
}

/// The numbers of a desk's call with a table that is said to have this length.
fn desk_numbers(room: u32, length: u32) -> Vec<u32> {
    let mut numbers = vec![5, 1, room, length];
    numbers.extend(STATIONS);
    numbers.extend([7, 2, 3, 4]);
    numbers
}

/// Each of them alone, and between calls: the lines before must stand, and
/// nothing from there on may be answered.
fn broken() -> Vec<Input> {
    let calls = example_calls();
    let mut inputs = Vec::new();
    for (kind, numbers) in no_calls() {
        let bytes = raw(kind, &numbers);
        let name = format!("kind {kind} of {} numbers", numbers.len());
        inputs.push((name.clone(), [&bytes[..], &bytes_of(&calls)].concat()));
        let between = [bytes_of(&calls[..2]), bytes, bytes_of(&calls)].concat();
        inputs.push((format!("{name} after calls"), between));
    }
    // The largest count, with less behind it than it says.
    for kind in [1, 129] {
        let endless = [&[kind, 255, 255], &bytes_of(&calls)[..]].concat();
        inputs.push((format!("kind {kind} of 65535 numbers, cut"), endless));
    }
    inputs
}

/// Some calls cut at every place.
fn cuts(name: &str, calls: &[Call]) -> Vec<Input> {
    let bytes = bytes_of(calls);
    (1..bytes.len())
        .map(|kept| (format!("{name} after {kept} bytes"), bytes[..kept].to_vec()))
        .collect()
}

/// Some kinds with some numbers, often right and often not, perhaps cut.
fn random(rng: &mut Rng) -> Vec<u8> {
    let mut bytes = Vec::new();
    for _ in 0..rng.between(2, 16) {
        let width = rng.width();
        let kind = if rng.chance(5) {
            10
        } else {
            rng.below(10) as u8
        };
        let count = match (rng.below(8), kind) {
            (0, _) => rng.pick(&[0, 1, 2, 3, 4, 199, 200, 201, 257, 259]),
            (_, 0) => 3,
            (_, 2) => 1,
            (_, 6) => rng.between(3, 9),
            (_, 7) => rng.between(3, 12),
            (_, 8) => rng.between(8, 22),
            _ => rng.below(12),
        };
        let numbers: Vec<u32> = (0..count).map(|_| random_number(rng, width)).collect();
        // A wide saying or settling would end nearly every input.
        let both = [2, 4].contains(&kind) && rng.chance(95);
        let mark = if both { 0 } else { width.mark() };
        let cut = |number: u32| Width::of_byte(mark).cut(number);
        let numbers: Vec<u32> = numbers.into_iter().map(cut).collect();
        bytes.extend(raw(kind + mark, &numbers));
    }
    if rng.chance(50) {
        let kept = rng.below(bytes.len() + 1);
        bytes.truncate(kept);
    }
    bytes
}

/// Mostly small, so that sizes, parties and rooms come out right at times.
fn random_number(rng: &mut Rng, width: Width) -> u32 {
    match rng.below(6) {
        0 => rng.number(width),
        1 if width == Wide => rng.pick(&[5, 200, 201, 65_536, 65_541]),
        1 => rng.pick(&[5, 200, 201, 256, 261]),
        _ => rng.below(18) as u32,
    }
}
