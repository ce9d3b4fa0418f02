//! Dealing, and what a deal is checked for.

use super::field::{value, Number};
use super::tables;

pub fn sizes(n: u8, t: u8) -> bool {
    (1..=3).contains(&t) && 4 * t < n && n <= 16
}

pub fn residues<N: Number>(list: &[N]) -> bool {
    list.iter().all(|&x| x.is_sent())
}

/// The refusal that applies, or 0; the table, if there is one, is looked at behind the lengths.
#[inline(always)]
fn verdict<N: Number>(n: u8, t: u8, table: Option<&[N]>, f: &[N], room: usize) -> u8 {
    if !sizes(n, t) {
        return 1;
    }
    let width = usize::from(t) + 1;
    if f.len() != width * width || room != usize::from(n) * 2 * width {
        return 3;
    }
    let bad = table.map_or(0, |table| tables::refusal(n, table));
    if bad != 0 {
        return bad;
    }
    if !residues(f) {
        return 5;
    }
    0
}

/// How deals are written, each at its lamp's point.
trait Desk {
    fn write<N: Number>(t: u8, points: impl Iterator<Item = u32>, f: &[N], out: &mut [N]);
}

#[inline(always)]
fn dealt<D: Desk, N: Number>(n: u8, t: u8, f: &[N], out: &mut [N]) -> u8 {
    let answer = verdict(n, t, None, f, out.len());
    if answer == 0 {
        D::write(t, 1u32.., f, out);
    }
    answer
}

#[inline(always)]
fn dealt_with<D: Desk, N: Number>(n: u8, t: u8, table: &[N], f: &[N], out: &mut [N]) -> u8 {
    let answer = verdict(n, t, Some(table), f, out.len());
    if answer == 0 {
        D::write(t, table.iter().map(|&x| x.into()), f, out);
    }
    answer
}

pub fn deal<N: Number>(n: u8, t: u8, f: &[N], out: &mut [N]) -> u8 {
    dealt::<Proved, N>(n, t, f, out)
}

pub fn deal_with<N: Number>(n: u8, t: u8, table: &[N], f: &[N], out: &mut [N]) -> u8 {
    dealt_with::<Proved, N>(n, t, table, f, out)
}

pub fn deal_by_width<N: Number>(n: u8, t: u8, f: &[N], out: &mut [N]) -> u8 {
    dealt::<ByWidth, N>(n, t, f, out)
}

pub fn deal_by_width_with<N: Number>(n: u8, t: u8, table: &[N], f: &[N], out: &mut [N]) -> u8 {
    dealt_with::<ByWidth, N>(n, t, table, f, out)
}

/// The algorithm of the proved desk: each row by Horner's rule on its coefficients, each column by Horner's rule on
/// whole lists.
struct Proved;

impl Desk for Proved {
    #[inline(always)]
    fn write<N: Number>(t: u8, points: impl Iterator<Item = u32>, f: &[N], out: &mut [N]) {
        let width = usize::from(t) + 1;
        for (stretch, x) in out.chunks_exact_mut(2 * width).zip(points) {
            let (row, column) = stretch.split_at_mut(width);
            for (place, part) in row.iter_mut().zip(f.chunks_exact(width)) {
                *place = N::lent(value(part, x));
            }
            let (rest, top) = f.split_at(f.len() - width);
            column.copy_from_slice(top);
            for part in rest.chunks_exact(width).rev() {
                for (place, &c) in column.iter_mut().zip(part) {
                    *place = N::lent(N::mul_add(x, (*place).into(), c.into()));
                }
            }
        }
    }
}

/// The same with the width known to the compiler, which then unrolls every loop, and one reduction for each number.
struct ByWidth;

impl Desk for ByWidth {
    #[inline(always)]
    fn write<N: Number>(t: u8, points: impl Iterator<Item = u32>, f: &[N], out: &mut [N]) {
        match t {
            1 => of_width::<2, N>(points, f, out),
            2 => of_width::<3, N>(points, f, out),
            _ => of_width::<4, N>(points, f, out),
        }
    }
}

#[inline(always)]
fn of_width<const W: usize, N: Number>(points: impl Iterator<Item = u32>, f: &[N], out: &mut [N]) {
    let mut square = [[0u64; W]; W];
    for (row, part) in square.iter_mut().zip(f.chunks_exact(W)) {
        for (place, &c) in row.iter_mut().zip(part) {
            *place = u64::from(c.into());
        }
    }
    let reduced = |sum: u64| N::lent(N::reduced(sum));
    for (stretch, x) in out.chunks_exact_mut(2 * W).zip(points) {
        let x = u64::from(x);
        for u in 0..W {
            stretch[u] = reduced(square[u].iter().rev().fold(0, |sum, &c| N::folded(sum) * x + c));
        }
        for v in 0..W {
            stretch[W + v] = reduced(square.iter().rev().fold(0, |sum, row| N::folded(sum) * x + row[v]));
        }
    }
}
