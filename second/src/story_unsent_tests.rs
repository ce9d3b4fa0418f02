//! What must come of the stories of openings with parties dark, in numbers
//! worked out by hand and by counting.

use crate::calls::{answer_text, call_text, Call, Step};
use crate::field::Width::{self, Narrow, Wide};
use crate::scenario::value_of_f;
use crate::stations::{one_to, point};
use crate::stories_tests::{answers, asked, desk_lines, parties, party, story, F_DEALT};
use crate::story_runs::SIXTEEN;
use crate::story_runs_tests::hear_each_other;
use crate::story_stations::SIXTEEN_STATIONS;
use crate::story_unsent::{NINE, WIDE_NINE};
use crate::story_wide::{SIXTEEN_WIDE_STATIONS, WIDE_SIXTEEN};

/// What came of the openings of party i.
fn opened(name: &str, i: usize) -> Vec<Result<u32, u8>> {
    let is_open = |step: &&Step| matches!(step.call, Call::Open(..));
    let of_step = |step: &Step| step.answer.result.clone().map(|values| values[0]);
    party(name, i).iter().filter(is_open).map(of_step).collect()
}

#[test]
fn the_parties_hear_each_other() {
    for name in [
        "winter",
        "winter-liar",
        "winter-sixteen",
        "winter-stations",
        "winter-stations-nine",
        "wide-winter",
        "wide-winter-liar",
        "wide-winter-sixteen",
        "wide-winter-stations",
        "wide-winter-stations-nine",
    ] {
        hear_each_other(name);
    }
}

// ---- five parties ----

/// The run is that of `honest`, up to the opening of what is published.
#[test]
fn unsent_begins_as_honest() {
    assert_eq!(desk_lines("winter"), [F_DEALT]);
    assert_eq!(parties("winter"), [1, 2, 3, 4, 5]);
    for i in 1..=5 {
        let texts = |name: &str| -> Vec<String> {
            let steps = party(name, i).iter().take(10);
            steps.map(|step| call_text(&step.call)).collect()
        };
        assert_eq!(texts("winter"), texts("honest"));
    }
}

/// The third list opens for 3, 4 and 5 alone, whose own share is the third.
#[test]
fn the_three_lists_of_the_request() {
    let lists = [
        "open 10 13 16 19 22",
        "open 10 13 65535 65535 22",
        "open 10 13 65535 999 22",
        "open 10 13 65535 65535 65535",
    ];
    for i in 1..=5 {
        assert_eq!(asked("winter", i, "open"), lists);
        for (name, secret) in [
            ("winter", 7),
            ("wide-winter", 7),
            ("winter-stations", 7),
            ("wide-winter-stations", 2_147_483_646),
        ] {
            let last = if i < 3 { Err(10) } else { Ok(secret) };
            let wanted = [Ok(secret), Ok(secret), Ok(secret), last];
            assert_eq!(opened(name, i), wanted, "{name} {i}");
        }
    }
    let at_stations = asked("winter-stations", 4, "open");
    assert_eq!(at_stations[1], "open 57369 28 65535 65535 63007");
    assert_eq!(at_stations[2], "open 57369 28 65535 999 63007");
    let wide = asked("wide-winter", 4, "open");
    assert_eq!(wide[1], "wide-open 10 13 4294967295 4294967295 22");
}

/// With the own share in its place: who has three true ones and one lie opens;
/// who has two true ones or two lies does not. Three on another line open that.
#[test]
fn unsent_with_a_liar() {
    assert_eq!(parties("winter-liar"), [1, 2, 4, 5]);
    let lists = [
        "open 10 13 999 19 22",
        "open 10 13 999 65521 22",
        "open 10 13 999 65521 65535",
        "open 10 65521 999 65521 22",
        "open 10 998 999 65521 22",
        "open 10 65521 18 65521 26",
    ];
    for (name, secret, other) in [
        ("winter-liar", 7, 6),
        ("wide-winter-liar", 2_147_483_646, 2_147_483_645),
    ] {
        let (right, no, line) = (Ok(secret), Err(10), Ok(other));
        for (i, wanted) in [
            (1, [right, right, no, no, no, line]),
            (2, [right, right, no, right, right, line]),
            (4, [right, right, right, right, no, line]),
            (5, [right, right, right, no, no, no]),
        ] {
            assert_eq!(opened(name, i), wanted, "{name} {i}");
        }
    }
    for i in [1, 2, 4, 5] {
        assert_eq!(asked("winter-liar", i, "open"), lists);
        let happy = answers("winter-liar", i, "settle");
        assert!(happy[0].starts_with("ok ; 3 ") && happy[0].ends_with(" 27"));
    }
}

/// 19 + 28*6 is not 25 + 26*6. Of 51, 77, 103, 129 and 155 party 6 hears three,
/// then four.
#[test]
fn unsent_repair_by_the_rule_of_a_column() {
    let name = "winter-repair";
    assert_eq!(parties(name), [1, 4, 5, 6, 6]);
    for i in [1, 4, 5] {
        assert_eq!(asked(name, i, "open"), ["open 10 13 16 19 22 65535"]);
        assert_eq!(opened(name, i), [Ok(7)]);
    }
    let steps = story(name);
    let of_six = [
        &steps[steps.len() - 22..steps.len() - 11],
        &steps[steps.len() - 11..],
    ];
    for (steps, heard, settled, end) in [
        (
            of_six[0],
            "hear 51 46 65535 65535 65535 65535 129 127 155 154 65535 65535",
            "refused 9 ; 4 0 31",
            "refused 4 ; 4 0 31",
        ),
        (
            of_six[1],
            "hear 51 46 65535 65535 103 100 129 127 155 154 65535 65535",
            "ok ; 3 25 31",
            "ok 7 ; 3 25 31",
        ),
    ] {
        assert_eq!(call_text(&steps[8].call), heard);
        assert_eq!(answer_text(&steps[9].answer, &steps[9].after), settled);
        assert_eq!(answer_text(&steps[10].answer, &steps[10].after), end);
    }
}

// ---- more parties ----

/// A story of most dark: its points, t, the dealer's list and the liars.
struct Most {
    name: &'static str,
    width: Width,
    points: Vec<u32>,
    t: usize,
    coefs: Vec<u32>,
    liars: Vec<usize>,
}

fn most_unsent() -> [Most; 4] {
    let story = |name, width, points: &[u32], t: usize, coefs: &[u32]| Most {
        name,
        width,
        points: points.to_vec(),
        t,
        coefs: coefs.to_vec(),
        liars: [4, 9, 16][..t].to_vec(),
    };
    [
        story("winter-sixteen", Narrow, &one_to(16), 3, &SIXTEEN),
        story("wide-winter-sixteen", Wide, &one_to(16), 3, &WIDE_SIXTEEN),
        story(
            "winter-stations-nine",
            Narrow,
            &SIXTEEN_STATIONS[..9],
            2,
            &NINE,
        ),
        story(
            "wide-winter-stations-nine",
            Wide,
            &SIXTEEN_WIDE_STATIONS[..9],
            2,
            &WIDE_NINE,
        ),
    ]
}

/// By the party's place among the honest: below 2t its share is one of those
/// that are there anyway, from 2t on it is one more.
#[test]
fn most_unsent_answers() {
    for Most {
        name,
        width,
        points,
        t,
        coefs,
        liars,
    } in most_unsent()
    {
        let honest: Vec<usize> = (1..=points.len()).filter(|i| !liars.contains(i)).collect();
        assert_eq!(parties(name), honest);
        // The other polynomial is off by the product of x - x_j for the first t.
        let first = honest[..t].iter();
        let by = first.fold(1, |by, &j| width.mul(by, width.sub(0, point(&points, j))));
        let right = Ok(coefs[0]);
        let other = Ok(width.add(coefs[0].into(), by) as u32);
        for (k, &i) in honest.iter().enumerate() {
            let few = if k < 2 * t { Err(10) } else { right };
            let wrong = if k == 2 * t + 1 { right } else { Err(10) };
            let last = match k {
                _ if k < 2 * t => other,
                _ if k == 2 * t => right,
                _ => Err(10),
            };
            let wanted = [right, few, right, few, right, wrong, right, last];
            assert_eq!(opened(name, i), wanted, "{name} {i}");
        }
    }
}

/// How many are sent, and how many of these are not F(x,0), in each list.
#[test]
fn most_unsent_lists() {
    for Most {
        name,
        width,
        points,
        t,
        coefs,
        ..
    } in most_unsent()
    {
        let is_true = |k: usize, y: u32| {
            u64::from(y) == value_of_f(width, &coefs, t, u64::from(points[k]), 0)
        };
        let mut counts = Vec::new();
        for step in party(name, 1) {
            let Call::Open(_, list) = &step.call else {
                continue;
            };
            let sent = (0..list.len()).filter(|&k| width.is_sent(list[k]));
            let wrong = sent.clone().filter(|&k| !is_true(k, list[k])).count();
            counts.push((sent.count(), wrong));
            assert!(list.contains(&(width.prime() as u32)) || counts.len() == 1);
        }
        let wanted = [
            (2 * t, 0),
            (2 * t + 1, 0),
            (3 * t, t),
            (3 * t + 1, t),
            (3 * t + 2, t + 1),
            (2 * t + 2, 1),
            (3 * t + 1, t + 1),
        ];
        assert_eq!(counts[0], (points.len(), t), "{name}");
        assert_eq!(counts[1..], wanted, "{name}");
    }
}

/// 31337 - 6 for 1, 2 and 3; 4242 - 2 for 65520 and 2.
#[test]
fn other_numbers_by_hand() {
    assert_eq!(opened("winter-sixteen", 1)[7], Ok(31_331));
    assert_eq!(opened("winter-stations-nine", 1)[7], Ok(4240));
    assert_eq!(opened("wide-winter-sixteen", 1)[7], Ok(1_234_567_884));
}
