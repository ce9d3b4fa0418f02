//! Calls as bytes, and the rules that end an input.

use crate::calls::{Call, Desk, Step, LENT_LIMIT};
use crate::field::Width::{Narrow, Wide};
use crate::lists::random_lists;
use crate::short_inputs::{
    example_calls, no_calls, short_inputs, station_calls, wide_calls, wide_station_calls, RANDOM,
};
use crate::wire;
use std::collections::BTreeSet;

fn stream(calls: &[Call]) -> Vec<u8> {
    calls.iter().flat_map(wire::write).collect()
}

fn desk(n: usize, t: usize, room: usize, coefs: &[u32]) -> Call {
    Call::Desk(Desk {
        width: Narrow,
        n,
        t,
        room,
        coefs: coefs.to_vec(),
    })
}

#[test]
fn calls_as_bytes() {
    let bytes = stream(&example_calls());
    assert_eq!(bytes[..9], [0, 0, 3, 0, 5, 0, 1, 0, 1]);
    assert_eq!(bytes[9..20], [1, 0, 4, 0, 9, 0, 7, 0, 10, 0, 6]);
    assert_eq!(bytes[20..25], [2, 0, 1, 0, 2]);
    assert_eq!(bytes[25..28], [3, 0, 10]);
    assert_eq!(bytes[48..51], [4, 0, 5]);
    assert_eq!(bytes[61..68], [5, 0, 5, 0, 0, 0, 13]);
    assert_eq!(bytes[68..70], [3, 231]);
    assert_eq!(bytes[74..81], [9, 0, 5, 0, 0, 0, 13]);
    assert_eq!(bytes[77..87], bytes[64..74]);
    assert_eq!(bytes[87..96], [6, 0, 7, 0, 5, 0, 1, 0, 20]);
    assert_eq!(bytes[96..], [0, 7, 0, 2, 0, 3, 0, 4]);
    assert_eq!(wire::write(&Call::Deal(Narrow, vec![])), [1, 0, 0]);
    assert_eq!(
        wire::write(&Call::Open(Narrow, vec![0; 200]))[..3],
        [5, 0, 200]
    );
    let wide = Call::Make(Narrow, 261, 65_535, 257);
    assert_eq!(wire::write(&wide), [0, 0, 3, 1, 5, 255, 255, 1, 1]);
}

#[test]
fn calls_with_tables_as_bytes() {
    let bytes = stream(&station_calls());
    assert_eq!(bytes[..9], [7, 0, 8, 0, 5, 0, 1, 0, 2]);
    let table = [160, 1, 0, 7, 255, 240, 0, 3, 82, 8];
    assert_eq!(bytes[9..19], table);
    let desk = &bytes[bytes.len() - 29..];
    assert_eq!(desk[..11], [8, 0, 13, 0, 5, 0, 1, 0, 20, 0, 5]);
    assert_eq!(desk[11..21], table);
    assert_eq!(desk[21..], [0, 7, 0, 2, 0, 3, 0, 4]);
    let empty = Call::MakeWith(Narrow, 5, 1, 2, vec![]);
    assert_eq!(wire::write(&empty), [7, 0, 3, 0, 5, 0, 1, 0, 2]);
    assert_eq!(wire::read(&bytes), station_calls());
    assert_eq!(wire::read(&wire::write(&empty)), [empty]);
}

/// Kind and numbers of a wide call; saying and settling are as ever.
#[test]
fn wide_calls_as_bytes() {
    let calls = wide_calls();
    let bytes = stream(&calls);
    assert_eq!(wire::read(&bytes), calls);
    let make = [128, 0, 3, 0, 0, 0, 5, 0, 0, 0, 1, 0, 0, 0, 1];
    assert_eq!(bytes[..15], make);
    assert_eq!(bytes[15..18], [129, 0, 4]);
    // The row of party 1 is -1 + 65521 and 65536 + 1000000007.
    assert_eq!(bytes[18..26], [0, 0, 255, 240, 0x3b, 0x9b, 0xca, 0x07]);
    assert_eq!(bytes[34..39], [2, 0, 1, 0, 1]);
    let kinds: Vec<u8> = calls.iter().map(|call| wire::write(call)[0]).collect();
    assert_eq!(kinds, [128, 129, 2, 131, 4, 133, 137, 134]);
    let calls = wide_station_calls();
    assert_eq!(wire::read(&stream(&calls)), calls);
    let kinds: Vec<u8> = calls.iter().map(|call| wire::write(call)[0]).collect();
    assert_eq!(kinds, [135, 129, 2, 131, 4, 133, 137, 136]);
}

#[test]
fn wide_calls_are_answered() {
    let wanted = "ok ; 0 0 0 0
ok ; 1 0 0 0
ok 4294967295 4294967295 ; 1 0 0 0
ok 30 ; 2 0 0 30
ok ; 3 65535 31 30
ok 2147483646 ; 3 65535 31 30
ok 2147483646 ; 3 65535 31 30
";
    let text = wire::answers(&stream(&wide_calls()));
    assert!(text.starts_with(wanted), "{text}");
    assert_eq!(text.lines().count(), 8);
    let last = text.lines().last().unwrap();
    assert!(last.starts_with("ok 65520 1000065543 65535 1000065528 "));
}

/// Numbers of 32 bits, whatever their low 16 bits are.
#[test]
fn numbers_above_16_bits() {
    let calls = [
        Call::Make(Wide, 65_541, 1, 1),
        Call::Make(Wide, 5, 65_537, 1),
        Call::Make(Wide, 4_294_967_295, 4_294_967_295, 1),
        Call::Make(Wide, 5, 1, 65_537),
        Call::Make(Wide, 5, 1, 4_294_967_295),
        Call::MakeWith(Wide, 5, 1, 1, vec![65_537, 1, 131_073, 2, 65_538]),
        Call::MakeWith(Wide, 5, 1, 1, vec![1, 2, 3, 4, 2_147_483_647]),
    ];
    let text = wire::answers(&stream(&calls));
    let answers: Vec<&str> = text
        .lines()
        .map(|line| line.split_once(" ; ").unwrap().0)
        .collect();
    let [one, two] = ["refused 1", "refused 2"];
    assert_eq!(answers, [one, one, one, two, two, "ok", "refused 14"]);
}

const EXAMPLE_LINES: &str = "ok ; 0 0 0 0
ok ; 1 0 0 0
ok 23 22 ; 1 0 0 0
ok 30 ; 2 0 0 30
ok ; 3 10 31 30
ok 7 ; 3 10 31 30
ok 7 ; 3 10 31 30
ok 9 7 10 6 11 11 13 10 13 15 16 14 15 19 19 18 17 23 22 22 ; 3 10 31 30
";

#[test]
fn answers_with_the_report() {
    assert_eq!(wire::answers(&stream(&example_calls())), EXAMPLE_LINES);
}

/// Closed by 8 a party keeps its report; the next make begins anew.
#[test]
fn the_report_stays_and_a_make_begins_anew() {
    let mut calls = example_calls();
    calls.truncate(4);
    calls.push(Call::Settle(vec![30, 0, 0, 0, 0]));
    calls.push(Call::Make(Narrow, 4, 1, 1));
    calls.push(Call::Say(2));
    let text = wire::answers(&stream(&calls));
    let lines: Vec<&str> = text.lines().skip(4).collect();
    let wanted = [
        "refused 8 ; 4 0 0 30",
        "refused 1 ; 0 0 0 0",
        "refused 1 ; 0 0 0 0",
    ];
    assert_eq!(lines, wanted);
}

// ---- the desk ----

/// The answer to one call after the example's, without the state.
fn answer_after_example(call: Call) -> String {
    let mut calls = example_calls();
    calls.push(call);
    let text = wire::answers(&stream(&calls));
    assert!(text.starts_with(EXAMPLE_LINES));
    let last = text.lines().last().unwrap();
    // The desk does not touch the party that the call before left.
    let (answer, state) = last.split_once(" ; ").unwrap();
    assert_eq!(state, "3 10 31 30");
    answer.to_string()
}

/// The lowest refusal, and the room as it was.
#[test]
fn the_desk_refuses() {
    let f = [7, 2, 3, 4];
    let large = [65_521, 2, 3, 4];
    for (refusal, n, t, room, coefs) in [
        (1, 4, 1, 16, &f[..]),
        (1, 17, 1, 68, &f),
        (1, 261, 1, 20, &f),
        (1, 5, 257, 20, &f),
        (1, 5, 0, 10, &[7]),
        (1, 0, 0, 0, &[]),
        (1, 4, 1, 2, &[65_535]),
        (3, 5, 1, 19, &f),
        (3, 5, 1, 21, &f),
        (3, 5, 1, 0, &f),
        (3, 5, 1, 200, &f),
        (3, 5, 1, 20, &f[..3]),
        (3, 5, 1, 20, &[7, 2, 3, 4, 0]),
        (3, 5, 1, 20, &[]),
        (3, 5, 1, 20, &[65_535; 197]),
        (3, 5, 1, 19, &large),
        (5, 5, 1, 20, &large),
        (5, 5, 1, 20, &[7, 2, 3, 65_535]),
    ] {
        let answer = answer_after_example(desk(n, t, room, coefs));
        let wanted = format!("refused {refusal}{}", " 65535".repeat(room));
        assert_eq!(answer, wanted, "{n} {t} {room} {coefs:?}");
    }
}

#[test]
fn the_desk_deals() {
    // All is -1: at i the row's and the column's numbers are -(1+i).
    let answer = answer_after_example(desk(5, 1, 20, &[65_520; 4]));
    let numbers = [65_519, 65_518, 65_517, 65_516, 65_515];
    let deals: String = numbers.iter().map(|c| format!(" {c}").repeat(4)).collect();
    assert_eq!(answer, format!("ok{deals}"));
    let answer = answer_after_example(desk(16, 3, 128, &[0; 16]));
    assert_eq!(answer, format!("ok{}", " 0".repeat(128)));
}

/// At every stage the same answer, and the party goes on as if nothing had
/// been between.
#[test]
fn the_desk_between_all_calls() {
    let calls = example_calls();
    let mixed: Vec<Call> = calls
        .iter()
        .flat_map(|call| [call.clone(), calls[7].clone()])
        .collect();
    let text = wire::answers(&stream(&mixed));
    let lines: Vec<&str> = text.lines().collect();
    let without: Vec<&str> = lines.iter().step_by(2).copied().collect();
    assert_eq!(without.join("\n") + "\n", EXAMPLE_LINES);
    for pair in lines.chunks(2) {
        let (answer, state) = pair[1].split_once(" ; ").unwrap();
        assert!(answer.starts_with("ok 9 7 10 6 ") && answer.ends_with(" 17 23 22 22"));
        assert!(pair[0].ends_with(&format!(" ; {state}")));
    }
}

// ---- the rules ----

/// Before any make the party is the one made for 0, 0, 0.
#[test]
fn calls_without_a_make() {
    let mut calls = example_calls().split_off(1);
    calls.push(desk(5, 1, 2, &[7, 2, 3, 4]));
    let text = wire::answers(&stream(&calls));
    let lines: Vec<&str> = text.lines().collect();
    assert_eq!(lines[..6], ["refused 1 ; 0 0 0 0"; 6]);
    assert!(lines[6].starts_with("ok 9 7 10 6 ") && lines[6].ends_with(" 22 22 ; 0 0 0 0"));
    assert_eq!(lines[7], "refused 3 65535 65535 ; 0 0 0 0");
}

/// Numbers have 16 bits, whatever their low byte is.
#[test]
fn wide_numbers() {
    let calls = [
        Call::Make(Narrow, 261, 1, 1),
        Call::Make(Narrow, 5, 257, 1),
        Call::Make(Narrow, 5, 1, 257),
        Call::Say(1),
        Call::Make(Narrow, 5, 1, 1),
        Call::Deal(Narrow, vec![9, 7, 10, 6]),
        Call::Say(258),
        Call::Say(65_535),
        Call::Say(2),
    ];
    let text = wire::answers(&stream(&calls));
    let answers: Vec<&str> = text
        .lines()
        .map(|line| line.split_once(" ; ").unwrap().0)
        .collect();
    let wanted = [
        "refused 1",
        "refused 1",
        "refused 2",
        "refused 2",
        "ok",
        "ok",
        "refused 2",
        "refused 2",
        "ok 23 22",
    ];
    assert_eq!(answers, wanted);
}

/// Every kind with every count up to beyond what a byte can hold.
#[test]
fn which_counts_are_calls() {
    for kind in 0..=255 {
        for count in 0..=270 {
            let narrow = match kind {
                // Saying and settling have no wide kind.
                130 | 132 => 255,
                128.. => kind - 128,
                _ => kind,
            };
            let is_call = match narrow {
                0 => count == 3,
                2 => count == 1,
                1 | 3 | 4 | 5 | 9 => count <= 200,
                6 | 7 => (3..=200).contains(&count),
                // The fourth number is 1: a table of one number.
                8 => (5..=200).contains(&count),
                _ => false,
            };
            let calls = wire::read(&wire::raw(kind, &vec![1; count]));
            assert_eq!(calls.len(), usize::from(is_call), "{kind} {count}");
        }
        let largest = wire::raw(kind, &[1; 65_535]);
        assert!(wire::read(&largest).is_empty());
    }
    for room in 0..=65_535 {
        let calls = wire::read(&wire::raw(6, &[5, 1, room, 7, 2, 3, 4]));
        assert_eq!(calls.len(), usize::from(room <= 200), "{room}");
        let calls = wire::read(&wire::raw(8, &[5, 1, room, 1, 7, 2, 3, 4]));
        assert_eq!(calls.len(), usize::from(room <= 200), "{room}");
    }
    for room in [0, 200, 201, 256, 65_536, 65_556, 1 << 31, 4_294_967_295] {
        for numbers in [&[5, 1, room, 7, 2][..], &[5, 1, room, 1, 7, 2, 3, 4]] {
            let kind = if numbers.len() == 5 { 134 } else { 136 };
            let calls = wire::read(&wire::raw(kind, numbers));
            assert_eq!(calls.len(), usize::from(room <= 200), "{room}");
        }
    }
}

/// The table's numbers must all be there; all that is behind them, perhaps
/// nothing, is the dealer's list.
#[test]
fn which_tables_are_calls() {
    for count in [0, 1, 9, 196] {
        let list: Vec<u32> = (1..=count).collect();
        for length in 0..=65_535 {
            let numbers = [&[5, 1, 20, length], &list[..]].concat();
            let calls = wire::read(&wire::raw(8, &numbers));
            assert_eq!(calls.len(), usize::from(length <= count), "{length}");
            let Some(call) = calls.first() else { continue };
            let (table, coefs) = list.split_at(length as usize);
            let Call::Desk(desk) = desk(5, 1, 20, coefs) else {
                unreachable!();
            };
            assert_eq!(*call, Call::DeskWith(desk, table.to_vec()));
        }
    }
}

/// The lines before stand; neither what is no call nor what is behind it is
/// answered.
#[test]
fn what_is_no_call_ends_the_input() {
    let calls = example_calls();
    for (kind, numbers) in no_calls() {
        let no_call = wire::raw(kind, &numbers);
        for before in 0..=calls.len() {
            let bytes = [stream(&calls[..before]), no_call.clone(), stream(&calls)].concat();
            let lines = EXAMPLE_LINES.split_inclusive('\n').take(before);
            assert_eq!(wire::answers(&bytes), lines.collect::<String>());
        }
    }
}

/// As many lines as there are whole calls.
#[test]
fn a_cut_ends_the_input() {
    let calls = example_calls();
    let bytes = stream(&calls);
    for kept in 0..=bytes.len() {
        let whole = (0..=calls.len())
            .rev()
            .find(|&count| stream(&calls[..count]).len() <= kept)
            .unwrap();
        let lines = EXAMPLE_LINES.split_inclusive('\n').take(whole);
        assert_eq!(wire::answers(&bytes[..kept]), lines.collect::<String>());
    }
}

/// Of each sort some, all different, and the random ones of use: some are
/// answered, and some end before their bytes do.
#[test]
fn short_inputs_of_every_sort() {
    let inputs = short_inputs(3);
    let names: BTreeSet<&str> = inputs.iter().map(|input| input.0.as_str()).collect();
    let bytes: BTreeSet<&[u8]> = inputs.iter().map(|input| &input.1[..]).collect();
    assert!(names.len() > 200 && bytes.len() > 200);
    assert!(names.contains("nothing") && names.contains("kind 6 without a make"));
    assert!(names.contains("kind 0 of 259 numbers after calls"));
    assert!(names.contains("cut after 103 bytes") && !names.contains("cut after 104 bytes"));
    assert!(names.contains("kind 8 without a make") && names.contains("kind 10 of 1 numbers"));
    for locates in ["kind 9 without a make", "kind 137 without a make"] {
        assert!(names.contains(locates), "{locates}");
    }
    for no_call in ["kind 9 of 201 numbers", "kind 138 of 5 numbers"] {
        assert!(names.contains(no_call), "{no_call}");
    }
    let stations = stream(&station_calls()).len();
    assert!(names.contains(&format!("stations cut after {} bytes", stations - 1)[..]));
    let random = &inputs[inputs.len() - RANDOM..];
    let ends_early = |bytes: &[u8]| stream(&wire::read(bytes)).len() < bytes.len();
    let early = random.iter().filter(|input| ends_early(&input.1)).count();
    let lines = random.iter().map(|input| wire::read(&input.1).len());
    assert!((RANDOM / 2..RANDOM).contains(&early), "{early}");
    let lines: usize = lines.sum();
    assert!(lines > 2 * RANDOM, "{lines}");
    assert!(inputs.iter().all(|input| input.1.len() < 8000));
    assert_ne!(short_inputs(4), inputs);
}

// ---- the random lists ----

/// What is written is read again, and gives the lines of the list.
#[test]
fn random_lists_as_bytes() {
    let lists: Vec<Vec<Step>> = random_lists(5, 100).collect();
    for list in &lists {
        let calls: Vec<Call> = list.iter().map(|step| step.call.clone()).collect();
        let bytes = stream(&calls);
        assert_eq!(wire::read(&bytes), calls);
        let lines = list
            .iter()
            .map(|step| wire::line(&step.answer, &step.after));
        assert_eq!(wire::answers(&bytes), lines.collect::<String>());
        for call in calls {
            assert!(wire::write(&call).len() <= 3 + 4 * LENT_LIMIT);
        }
    }
    let calls: Vec<Call> = lists.into_iter().flatten().map(|step| step.call).collect();
    assert_eq!(wire::stream(5, 100), stream(&calls));
}
