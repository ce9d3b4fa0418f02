//! Random questions of every kind and of either prime, asked of all contenders before anything is timed.

use crate::contenders::{dealing, dealing_with, happy, locating, locating_with};
use crate::contenders::{opening, opening_with, pairing, repairing, reporting, writing};
use crate::graphs;
use crate::inputs::{Dealing, Reports, Tabled};
use crate::measure::Bench;
use crate::pairs::{any_hearing, any_saying};
use crate::plain::field::Number;
use crate::plain::{happy_new, happy_old};
use crate::points::{any_list, any_size, any_tabled_list, bad_points, raised, sometimes_spoilt};
use crate::points::{
    any_points, any_shares, any_table, any_tabled_shares, any_unsent_shares, any_unsent_tabled_shares,
};
use crate::proved::Library;
use crate::records::{any_record, any_unsent_record};
use crate::rng::Rng;

/// Asks so many questions of each kind; answers how many in all.
pub fn check(seed: u64, count: usize) -> Result<usize, String> {
    let mut rng = Rng::new(seed);
    let worst = [happy_old::WORST, happy_new::WORST].map(|graph| Reports(graph.to_vec()));
    let reports = (0..count).map(|_| any_reports(&mut rng)).chain(worst).collect();
    happy("", "random reports", reports).compare()?;
    check_prime::<u16>(&mut rng, count, "")?;
    check_prime::<u32>(&mut rng, count, ", wide")?;
    check_pairs::<u16>(&mut rng, count, "")?;
    check_pairs::<u32>(&mut rng, count, ", wide")?;
    Ok(21 * count + count / 4 * 4)
}

/// Pairs said and heard, for each prime: deals that are not sound, lies, numbers that are no residues and lists of other
/// lengths among them.
fn check_pairs<N: Library>(rng: &mut Rng, count: usize, width: &str) -> Result<(), String> {
    pairing::<N>("", &format!("random pair{width}"), many(rng, count, any_saying::<N>)).compare()?;
    reporting::<N>("", &format!("random pairs heard{width}"), many(rng, count, any_hearing::<N>)).compare()
}

/// The questions that there are for each prime.
fn check_prime<N: Library>(rng: &mut Rng, count: usize, width: &str) -> Result<(), String> {
    let title = |what| format!("random {what}{width}");
    let rows: [Box<dyn Bench>; 10] = [
        Box::new(dealing::<N>("", &title("dealing"), many(rng, count, any_dealing))),
        Box::new(dealing_with::<N>("", &title("dealing with a table"), many(rng, count, any_tabled))),
        Box::new(repairing::<N>("", &title("points"), many(rng, count, any_points))),
        Box::new(repairing::<N>("", &title("bad points"), many(rng, count, bad_points))),
        Box::new(opening::<N>("", &title("shares"), many(rng, count, any_shares))),
        Box::new(opening_with::<N>("", &title("shares with a table"), many(rng, count, any_tabled_shares))),
        Box::new(opening::<N>("", &title("shares, many dark"), many(rng, count, any_unsent_shares))),
        Box::new(opening_with::<N>(
            "",
            &title("shares with a table, many dark"),
            many(rng, count, any_unsent_tabled_shares),
        )),
        Box::new(writing("", &title("record"), many(rng, count / 4, any_record::<N>))),
        Box::new(writing("", &title("record, many dark"), many(rng, count / 4, any_unsent_record::<N>))),
    ];
    rows.iter().try_for_each(|row| row.compare())
}

/// Opens so many random lists of shares by trial and by locator, as the library and as plain Rust do: a quarter of them
/// for each prime at the points 1 to n, and a quarter with a table.
pub fn lists(seed: u64, count: usize) -> Result<(), String> {
    let mut rng = Rng::new(seed);
    lists_of::<u16>(&mut rng, count / 4, "")?;
    lists_of::<u32>(&mut rng, count / 4, ", wide")
}

fn lists_of<N: Library>(rng: &mut Rng, count: usize, width: &str) -> Result<(), String> {
    locating::<N>("", &format!("random list{width}"), many(rng, count, any_list)).compare()?;
    locating_with::<N>("", &format!("random list with a table{width}"), many(rng, count, any_tabled_list)).compare()
}

fn many<I>(rng: &mut Rng, count: usize, any: fn(&mut Rng) -> I) -> Vec<I> {
    (0..count).map(|_| any(rng)).collect()
}

/// Any dealing: mostly right, else a size, a length or a number that is refused.
fn any_dealing<N: Number>(rng: &mut Rng) -> Dealing<N> {
    let (n, t) = any_size(rng);
    let width = t + 1;
    let mut f: Vec<N> = (0..width * width).map(|_| rng.edge()).collect();
    let mut dealing = Dealing { n: n as u8, t: t as u8, f: Vec::new(), room: 2 * n * width };
    match rng.below(12) {
        0 => dealing.n = rng.below(20) as u8,
        1 => dealing.t = rng.below(6) as u8,
        2 => dealing.room = rng.below(129),
        3 => f.truncate(rng.below(f.len())),
        4 => {
            let place = rng.below(f.len());
            f[place] = raised(rng, f[place]);
        }
        _ => {}
    }
    dealing.f = f;
    dealing
}

/// Any dealing with any table for it, some of them bad too.
fn any_tabled<N: Number>(rng: &mut Rng) -> Tabled<N, Dealing<N>> {
    let question = any_dealing(rng);
    let table = any_table(rng, usize::from(question.n).max(2));
    Tabled { table: sometimes_spoilt(rng, table), question }
}

/// Any reports: up to 17 of them, of any density, some of them one-sided.
fn any_reports(rng: &mut Rng) -> Reports {
    let percent = [0, 20, 50, 70, 80, 90, 95, 100][rng.below(8)];
    let graph = graphs::random(rng, percent);
    let Reports(mut reports) = graphs::reports(rng, &graph);
    let count = if rng.chance(50) { 16 } else { rng.below(18) };
    reports.resize(count, 0xFFFF);
    Reports(reports)
}
