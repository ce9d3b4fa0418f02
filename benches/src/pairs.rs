//! Pairs to be said and heard: honest sharings of a random polynomial, and others made of them.

use crate::inputs::{Dealt, Hearing, Saying};
use crate::plain::deal::deal_with;
use crate::plain::field::{self, Number};
use crate::plain::pairs::value;
use crate::points::{any_size, any_table, lamps};
use crate::rng::Rng;

/// Numbers as they are lent here.
fn widened<N: Number>(list: &[N]) -> Vec<u32> {
    list.iter().map(|&x| x.into()).collect()
}

/// Lamp i's deal of F at the points of a table, and what the others, whose deals are of F too, say to it.
fn shared<N: Number>(t: u8, i: u8, table: &[N], f: &[N]) -> Hearing {
    let (n, width) = (table.len(), usize::from(t) + 1);
    let mut deals = vec![N::from(0); 2 * n * width];
    deal_with(n as u8, t, table, f, &mut deals);
    let halves: Vec<&[N]> = deals.chunks_exact(width).collect();
    let own = usize::from(i) - 1;
    let said = |j: usize, half| if j == own { N::NOT_SENT } else { N::lent(field::value(half, table[own].into())) };
    let firsts = (0..n).map(|j| said(j, halves[2 * j]).into()).collect();
    let seconds = (0..n).map(|j| said(j, halves[2 * j + 1]).into()).collect();
    let (row, column) = (widened(halves[2 * own]), widened(halves[2 * own + 1]));
    Hearing { n: n as u8, deal: Dealt { table: widened(table), i, row, column }, firsts, seconds }
}

/// Any lamp of n.
fn lamp(rng: &mut Rng, n: u8) -> u8 {
    1 + rng.below(usize::from(n)) as u8
}

/// What any lamp hears where all are honest, the points being 1 to n.
pub fn hearing<N: Number>(rng: &mut Rng, n: u8, t: u8) -> Hearing {
    let width = usize::from(t) + 1;
    shared::<N>(t, lamp(rng, n), &lamps(usize::from(n)), &rng.elements(width * width))
}

/// Any lamp with an honest deal speaks to another.
pub fn saying<N: Number>(rng: &mut Rng, n: u8, t: u8) -> Saying {
    let deal = hearing::<N>(rng, n, t).deal;
    let j = 1 + (deal.i + rng.below(usize::from(n) - 1) as u8) % n;
    Saying { deal, j, room: 2 }
}

/// A number that is no residue: the prime, the next few, the highest ones, or any.
fn above<N: Number>(rng: &mut Rng) -> u32 {
    match rng.below(3) {
        0 => N::P + rng.below(3) as u32,
        1 => u32::MAX - rng.below(3) as u32,
        _ => N::P + rng.below((u32::MAX - N::P) as usize) as u32,
    }
}

/// Puts another number into a random place: mostly a residue, else often the same number with the prime added.
fn alter<N: Number>(rng: &mut Rng, list: &mut [u32]) {
    if list.is_empty() {
        return;
    }
    let place = rng.below(list.len());
    let raised = list[place].checked_add(N::P).filter(|_| rng.chance(50));
    list[place] = if rng.chance(60) { rng.edge::<N>().into() } else { raised.unwrap_or_else(|| above::<N>(rng)) };
}

/// Makes a list longer or shorter, by up to three numbers.
fn resize<N: Number>(rng: &mut Rng, list: &mut Vec<u32>) {
    let count = (list.len() + rng.below(7)).saturating_sub(3);
    list.resize_with(count, || rng.edge::<N>().into());
}

/// Puts such a constant into the row that it meets the column at the own point, where they are residues.
fn mend<N: Number>(deal: &mut Dealt) {
    let x = deal.lent().point(deal.i);
    let numbers = || deal.row.iter().chain(&deal.column).chain([&x]);
    if deal.row.is_empty() || 4 < deal.row.len().max(deal.column.len()) || numbers().any(|&c| N::P <= c) {
        return;
    }
    let away = N::sub(value::<N>(&deal.column, x), value::<N>(&deal.row, x));
    deal.row[0] = N::mul_add(1, away, deal.row[0]);
}

/// Any deal: half of them as they were, else with other numbers, lengths, table or lamp, half of those mended.
fn spoil<N: Number>(rng: &mut Rng, deal: &mut Dealt) {
    if rng.chance(50) {
        return;
    }
    for _ in 0..=rng.below(2) {
        match rng.below(8) {
            0 | 1 => alter::<N>(rng, &mut deal.row),
            2 => alter::<N>(rng, &mut deal.column),
            3 => resize::<N>(rng, &mut deal.row),
            4 => resize::<N>(rng, &mut deal.column),
            5 => alter::<N>(rng, &mut deal.table),
            6 => resize::<N>(rng, &mut deal.table),
            _ => deal.i = rng.below(20) as u8,
        }
    }
    if rng.chance(50) {
        mend::<N>(deal);
    }
}

/// What n lamps would say that agree with this deal, so that a changed one has ones too.
fn hear_again<N: Number>(hearing: &mut Hearing) {
    let deal = hearing.deal.lent();
    let lists = [deal.row, deal.column, deal.table];
    if 4 < deal.row.len().max(deal.column.len()) || lists.iter().any(|list| list.iter().any(|&c| N::P <= c)) {
        return;
    }
    hearing.firsts = (1..=hearing.n).map(|j| value::<N>(deal.column, deal.point(j))).collect();
    hearing.seconds = (1..=hearing.n).map(|j| value::<N>(deal.row, deal.point(j))).collect();
}

/// Any hearing: any deal, some lies among the pairs, sometimes other sizes or lengths.
pub fn any_hearing<N: Number>(rng: &mut Rng) -> Hearing {
    let (n, t) = any_size(rng);
    let table = if rng.chance(50) { lamps(n) } else { any_table::<N>(rng, n) };
    let f: Vec<N> = (0..(t + 1) * (t + 1)).map(|_| rng.edge()).collect();
    let mut hearing = shared(t as u8, lamp(rng, n as u8), &table, &f);
    spoil::<N>(rng, &mut hearing.deal);
    if rng.chance(50) {
        hear_again::<N>(&mut hearing);
    }
    for _ in 0..rng.below(6).saturating_sub(2) {
        let list = if rng.chance(50) { &mut hearing.firsts } else { &mut hearing.seconds };
        alter::<N>(rng, list);
    }
    match rng.below(16) {
        0 => {
            hearing.n = rng.below(20) as u8;
            hear_again::<N>(&mut hearing);
        }
        1 => hearing.n = rng.below(20) as u8,
        2 => resize::<N>(rng, &mut hearing.firsts),
        3 => resize::<N>(rng, &mut hearing.seconds),
        _ => {}
    }
    hearing
}

/// Any saying: any deal, to any lamp, itself and none among them, sometimes with room for more or less than a pair.
pub fn any_saying<N: Number>(rng: &mut Rng) -> Saying {
    let Hearing { n, deal, .. } = any_hearing::<N>(rng);
    let j = match rng.below(6) {
        0 => deal.i,
        1 => rng.below(256) as u8,
        _ => lamp(rng, n.max(1)),
    };
    Saying { deal, j, room: if rng.chance(10) { rng.below(4) } else { 2 } }
}
