//! Stories of openings with parties dark. A run is told, and behind its calls
//! each party opens some more lists, the same for all. In its own place each
//! puts its own share, which counts as sent, so that they answer differently.

use crate::calls::Call;
use crate::field::Width::{self, Narrow, Wide};
use crate::field::NOT_SENT;
use crate::follow;
use crate::named::F;
use crate::rng::Rng;
use crate::stations::{one_to, point, STATIONS};
use crate::story_runs::{nothing, party_calls, run_on, tell, Liar, SIXTEEN};
use crate::story_stations::{with_table, SIXTEEN_STATIONS};
use crate::story_wide::{SIXTEEN_WIDE_STATIONS, WIDE_F, WIDE_SIXTEEN, WIDE_STATIONS};

/// A list for t = 2.
pub const NINE: [u32; 9] = [4242, 65_520, 3, 17, 5, 60_000, 1, 2, 9];

/// Another one, for wide parties.
pub const WIDE_NINE: [u32; 9] = [
    2_000_000_000,
    65_521,
    3,
    2_147_483_646,
    65_536,
    1,
    1_000_000_007,
    0,
    5,
];

/// What the liars among nine and sixteen send is drawn with this seed.
const SEED: u64 = 1604;

/// A list for the dealer, and for whom it is dealt.
struct Sharing<'a> {
    width: Width,
    points: &'a [u32],
    t: usize,
    coefs: &'a [u32],
}

impl Sharing<'_> {
    /// The shares if all are honest.
    fn truth(&self) -> Vec<u32> {
        let deals = follow::deals(self.width, self.points, self.t, self.coefs);
        run_on(self.width, self.points, self.t, deals, &[]).shares
    }

    /// The run, and the lists opened by all who are no liars. Points other than
    /// 1 to n are a table.
    fn told(&self, liars: &[Liar], lists: &[Vec<u32>]) -> Vec<Call> {
        let deals = follow::deals(self.width, self.points, self.t, self.coefs);
        let record = run_on(self.width, self.points, self.t, deals, liars);
        let more = |_| {
            let lists = lists.iter().cloned();
            lists.map(|list| Call::Open(self.width, list)).collect()
        };
        let calls = tell(&[self.coefs], &record, liars, more);
        match self.points == one_to(self.points.len()) {
            true => calls,
            false => with_table(calls, self.points),
        }
    }

    /// Some publish numbers, all others are dark: of two neighbours one has what
    /// a sender writes and one the prime.
    fn sent(&self, numbers: &[(usize, u32)]) -> Vec<u32> {
        let unsent = [self.width.not_sent(), self.width.prime() as u32];
        let mut list: Vec<u32> = (0..self.points.len()).map(|k| unsent[k % 2]).collect();
        for &(i, number) in numbers {
            list[i - 1] = number;
        }
        list
    }

    /// Party i's number if it speaks for the polynomial that agrees with the
    /// true one at the given parties' points and nowhere else.
    fn other(&self, truth: &[u32], i: usize, common: &[usize]) -> u32 {
        let x = point(self.points, i);
        let by = common.iter().fold(1, |by, &j| {
            let difference = self.width.sub(x, point(self.points, j));
            self.width.mul(by, difference)
        });
        self.width.add(truth[i - 1].into(), by) as u32
    }
}

// ---- five parties ----

/// All honest; then the lists 1, 2, 5 true and the others dark; the same with
/// 999 for party 4; 1 and 2 true and the others dark.
fn three_lists(sharing: &Sharing) -> Vec<Call> {
    let truth = sharing.truth();
    let no = sharing.width.not_sent();
    let (one, two, five) = (truth[0], truth[1], truth[4]);
    let lists = [
        vec![one, two, no, no, five],
        vec![one, two, no, 999, five],
        vec![one, two, no, no, no],
    ];
    sharing.told(&[], &lists)
}

/// Party 3 tells all others wrong numbers and publishes 999; others are dark.
/// Then 2 lies too, and last 3 and 5 lie alike, in line with the share of 1.
fn one_liar(sharing: &Sharing) -> Vec<Call> {
    let liars = [Liar {
        number: 3,
        pairs: [1, 2, 4, 5].map(|i| (i, 1000, 2000)).to_vec(),
        report: 54_321,
        share: 999,
    }];
    let truth = sharing.truth();
    let [one, two, five] = [1, 2, 5].map(|i| (i, truth[i - 1]));
    let alike = |i: usize| (i, sharing.other(&truth, i, &[1]));
    let lists = [
        sharing.sent(&[one, two, (3, 999), five]),
        sharing.sent(&[one, two, (3, 999)]),
        sharing.sent(&[one, (3, 999), five]),
        sharing.sent(&[one, (2, 998), (3, 999), five]),
        sharing.sent(&[one, alike(3), alike(5)]),
    ];
    sharing.told(&liars, &lists)
}

// ---- more parties ----

/// t liars who draw what they send; what they publish is sent.
fn drawn(sharing: &Sharing, numbers: &[usize]) -> Vec<Liar> {
    let (width, n) = (sharing.width, sharing.points.len());
    let mut rng = Rng::new(SEED);
    let mut liar = |&number: &usize| Liar {
        number,
        pairs: (1..=n)
            .map(|listener| (listener, rng.number(width), rng.number(width)))
            .collect(),
        report: 65_535,
        share: rng.element(width),
    };
    numbers.iter().map(&mut liar).collect()
}

/// Of the honest parties the first 2t are true, or the first 2t+1: these alone,
/// then with all liars. Then 2t+1 with all liars and the next party wrong, and
/// with one liar. Last the liars and the honest party behind the first 2t speak
/// for another polynomial, which agrees with the shares of the first t.
fn most_unsent(sharing: &Sharing, numbers: &[usize]) -> Vec<Call> {
    let t = sharing.t;
    let liars = drawn(sharing, numbers);
    let truth = sharing.truth();
    let honest: Vec<usize> = (1..=truth.len()).filter(|i| !numbers.contains(i)).collect();
    let is_true = |i: &usize| (*i, truth[i - 1]);
    let true_ones: Vec<(usize, u32)> = honest.iter().map(is_true).collect();
    let (few, enough) = (&true_ones[..2 * t], &true_ones[..2 * t + 1]);
    let lies: Vec<(usize, u32)> = liars.iter().map(|l| (l.number, l.share)).collect();
    let wrong = (
        honest[2 * t + 1],
        sharing.other(&truth, honest[2 * t + 1], &[]),
    );
    let speakers = [numbers, &honest[2 * t..=2 * t]].concat();
    let alike = |i: &usize| (*i, sharing.other(&truth, *i, &honest[..t]));
    let others: Vec<(usize, u32)> = speakers.iter().map(alike).collect();
    let lists = [
        sharing.sent(few),
        sharing.sent(enough),
        sharing.sent(&[few, &lies].concat()),
        sharing.sent(&[enough, &lies].concat()),
        sharing.sent(&[enough, &lies, &[wrong]].concat()),
        sharing.sent(&[enough, &lies[..1]].concat()),
        sharing.sent(&[few, &others].concat()),
    ];
    sharing.told(&liars, &lists)
}

// ---- the stories ----

/// n = 5, t = 1 and the points 1 to 5.
fn of_five(width: Width, coefs: &[u32], story: fn(&Sharing) -> Vec<Call>) -> Vec<Call> {
    story(&Sharing {
        width,
        points: &one_to(5),
        t: 1,
        coefs,
    })
}

pub fn unsent(width: Width) -> Vec<Call> {
    of_five(width, &F, three_lists)
}

pub fn liar() -> Vec<Call> {
    of_five(Narrow, &F, one_liar)
}

pub fn wide_liar() -> Vec<Call> {
    of_five(Wide, &WIDE_F, one_liar)
}

/// n = 6, t = 1. Party 6's row is one off in its second number, so it repairs. Of
/// the five who are happy 2 and 3 send it nothing: three agree, which would do
/// for an opening, but a column has its own rule. Then it is made once more, and
/// only 2 sends it nothing.
pub fn repair() -> Vec<Call> {
    let mut deals = follow::deals(Narrow, &one_to(6), 1, &F);
    deals[21] += 1;
    let silent = [(2, 29, 13), (3, 27, 16)].map(|(number, report, share)| Liar {
        number,
        pairs: vec![(6, NOT_SENT, NOT_SENT)],
        report,
        share,
    });
    let record = run_on(Narrow, &one_to(6), 1, deals.clone(), &silent);
    let mut calls = tell(&[&F], &record, &silent, nothing);
    let record = run_on(Narrow, &one_to(6), 1, deals, &silent[..1]);
    calls.extend(party_calls(&record, 6));
    calls
}

/// n = 16, t = 3; 4, 9 and 16 lie.
pub fn sixteen(width: Width) -> Vec<Call> {
    let coefs = match width {
        Narrow => SIXTEEN,
        Wide => WIDE_SIXTEEN,
    };
    let sharing = Sharing {
        width,
        points: &one_to(16),
        t: 3,
        coefs: &coefs,
    };
    most_unsent(&sharing, &[4, 9, 16])
}

/// The three lists at the stations of the examples.
pub fn stations(width: Width) -> Vec<Call> {
    let (points, coefs) = match width {
        Narrow => (&STATIONS, &F),
        Wide => (&WIDE_STATIONS, &WIDE_F),
    };
    three_lists(&Sharing {
        width,
        points,
        t: 1,
        coefs,
    })
}

/// n = 9, t = 2 at the first nine of the sixteen stations; 4 and 9 lie.
pub fn stations_nine(width: Width) -> Vec<Call> {
    let (points, coefs) = match width {
        Narrow => (&SIXTEEN_STATIONS[..9], &NINE),
        Wide => (&SIXTEEN_WIDE_STATIONS[..9], &WIDE_NINE),
    };
    let sharing = Sharing {
        width,
        points,
        t: 2,
        coefs,
    };
    most_unsent(&sharing, &[4, 9])
}
