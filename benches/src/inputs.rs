//! What the functions are given and what they answer, N being a lent number.

use crate::plain::pairs::Deal;

/// The reports of all lamps.
pub struct Reports(pub Vec<u16>);

/// The bytes of a record.
pub struct Bytes(pub Vec<u8>);

pub struct Dealing<N> {
    pub n: u8,
    pub t: u8,
    pub f: Vec<N>,
    /// How many numbers are lent for the deals.
    pub room: usize,
}

/// A question with the lamps' points in a table.
pub struct Tabled<N, I> {
    pub table: Vec<N>,
    pub question: I,
}

#[derive(Clone, PartialEq, Debug)]
pub struct Deals<N> {
    pub answer: u8,
    pub deals: [N; 128],
}

pub struct Shares<N> {
    pub n: u8,
    pub t: u8,
    pub shares: Vec<N>,
}

pub struct Points<N> {
    pub t: u8,
    pub xs: Vec<N>,
    pub ys: Vec<N>,
}

/// Lamp i's row and column, and the table; numbers of either prime have 32 bits here.
pub struct Dealt {
    pub table: Vec<u32>,
    pub i: u8,
    pub row: Vec<u32>,
    pub column: Vec<u32>,
}

impl Dealt {
    /// The same as lent lists.
    #[inline(always)]
    pub fn lent(&self) -> Deal<'_> {
        Deal { table: &self.table, i: self.i, row: &self.row, column: &self.column }
    }
}

/// A deal, and the lamp that a pair is said to.
pub struct Saying {
    pub deal: Dealt,
    pub j: u8,
    /// How many numbers are lent for the pair.
    pub room: usize,
}

/// What is answered, and the numbers lent for the pair.
#[derive(Clone, PartialEq, Debug)]
pub struct Said {
    pub answer: u8,
    pub pair: [u32; 4],
}

/// A deal, and the pairs heard: the first numbers, and the second ones.
pub struct Hearing {
    pub n: u8,
    pub deal: Dealt,
    pub firsts: Vec<u32>,
    pub seconds: Vec<u32>,
}

#[derive(Clone, PartialEq)]
pub struct Text {
    pub length: usize,
    pub bytes: [u8; 512],
}

impl std::fmt::Debug for Text {
    fn fmt(&self, f: &mut std::fmt::Formatter) -> std::fmt::Result {
        write!(f, "{}", String::from_utf8_lossy(&self.bytes[..self.length.min(512)]))
    }
}
