//! What a lamp says to another, and its report on what it hears, from its deal at the points of a table. Numbers of either
//! prime have 32 bits here, as inside the library.

use super::field::Number;

/// No lamp's report: it would have a one for itself.
pub const NO_REPORT: u16 = u16::MAX;

/// Lamp i's row and column, and the table.
#[derive(Clone, Copy)]
pub struct Deal<'a> {
    pub table: &'a [u32],
    pub i: u8,
    pub row: &'a [u32],
    pub column: &'a [u32],
}

/// The value at x of at most four residues, by one reduction.
#[inline(always)]
pub fn value<N: Number>(f: &[u32], x: u32) -> u32 {
    let [a, b, c, d] = match *f {
        [a, b] => [a, b, 0, 0],
        [a, b, c] => [a, b, c, 0],
        [a, b, c, d] => [a, b, c, d],
        _ => [f.first().map_or(0, |&a| a), 0, 0, 0],
    };
    N::reduced(N::cubic_of([a, b, c, d], x))
}

/// Whether all numbers are residues.
#[inline(always)]
fn residues<N: Number>(list: &[u32]) -> bool {
    list.iter().all(|&x| x < N::P)
}

impl Deal<'_> {
    /// Lamp j's point; 0 behind the last, and the first for no lamp.
    #[inline(always)]
    pub fn point(&self, j: u8) -> u32 {
        self.table.get(usize::from(j).saturating_sub(1)).map_or(0, |&x| x)
    }

    /// What is asked of the lists: a table of residues, and row and column of at most four numbers.
    #[inline(always)]
    fn admitted<N: Number>(&self) -> bool {
        self.row.len() <= 4 && self.column.len() <= 4 && residues::<N>(self.table)
    }

    /// Whether all numbers are residues, and row and column meet at the own point.
    #[inline(always)]
    fn sound<N: Number>(&self) -> bool {
        let x = self.point(self.i);
        residues::<N>(self.row) && residues::<N>(self.column) && value::<N>(self.row, x) == value::<N>(self.column, x)
    }

    /// Writes the pair for lamp j, and answers 0; 1 where the lists are others than asked for.
    pub fn say<N: Number>(&self, j: u8, pair: &mut [u32]) -> u8 {
        let [first, second] = pair else {
            return 1;
        };
        if !self.admitted::<N>() {
            return 1;
        }
        if j == self.i || !self.sound::<N>() {
            (*first, *second) = (N::NOT_SENT.into(), N::NOT_SENT.into());
            return 0;
        }
        let x = self.point(j);
        (*first, *second) = (value::<N>(self.row, x), value::<N>(self.column, x));
        0
    }

    /// The report on n pairs, the first numbers in one list and the second ones in another.
    pub fn report<N: Number>(&self, n: u8, firsts: &[u32], seconds: &[u32]) -> u16 {
        let count = usize::from(n);
        let fits = (1..=n).contains(&self.i) && firsts.len() == count && seconds.len() == count;
        if 16 < n || !fits || !self.admitted::<N>() {
            return NO_REPORT;
        }
        if !self.sound::<N>() {
            return 0;
        }
        let mut bits = 0;
        for ((&first, &second), j) in firsts.iter().zip(seconds).zip(1u8..) {
            let x = self.point(j);
            if j != self.i && first == value::<N>(self.column, x) && second == value::<N>(self.row, x) {
                bits |= 1 << (j - 1);
            }
        }
        bits
    }
}
