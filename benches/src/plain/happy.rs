//! What both searches for the happy set start from: the table of agreements, and a set with its size.

pub type Table = [[bool; 16]; 16];

/// Counts the calls of a search; `()` counts nothing and costs nothing.
pub trait Tally {
    fn call(&mut self);
}

impl Tally for () {
    #[inline(always)]
    fn call(&mut self) {}
}

impl Tally for u64 {
    #[inline(always)]
    fn call(&mut self) {
        *self += 1;
    }
}

#[derive(Clone, Copy, Default)]
pub struct Best {
    pub set: u16,
    pub size: u32,
}

impl Best {
    #[inline(always)]
    pub fn with(self, k: usize) -> Best {
        Best { set: self.set | 1 << k, size: self.size + 1 }
    }
}

/// Sixteen rows of sixteen: whether each has a one for the other. At most 16 reports.
#[inline]
pub fn agreements(reports: &[u16]) -> Table {
    let mut own = [0u16; 16];
    for (i, (place, &report)) in own.iter_mut().zip(reports).enumerate() {
        *place = report & !(1 << i);
    }
    let mut table = [[false; 16]; 16];
    for (i, row) in table.iter_mut().enumerate() {
        for (j, cell) in row.iter_mut().enumerate() {
            *cell = (own[i] >> j) & (own[j] >> i) & 1 != 0;
        }
    }
    table
}

/// Sixteen reports that do not straddle two lines of the cache: a copy that does is read back at half the speed.
#[repr(align(32))]
struct Own([u16; 16]);

/// The table as sixteen numbers: row i has bit j where each of i and j has a one for the other. At most 16 reports.
#[inline(always)]
pub fn rows(reports: &[u16]) -> [u16; 16] {
    let mut own = Own([0; 16]);
    own.0[..reports.len()].copy_from_slice(reports);
    let words: [u64; 4] =
        std::array::from_fn(|w| (0..4).fold(0, |word, r| word | u64::from(own.0[4 * w + r]) << (16 * r)));
    let across = transposed(words);
    let mut rows = [0; 16];
    for (w, four) in rows.chunks_exact_mut(4).enumerate() {
        let word = words[w] & across[w];
        for (r, row) in four.iter_mut().enumerate() {
            *row = (word >> (16 * r)) as u16 & !(1 << (4 * w + r));
        }
    }
    rows
}

/// Bit j of row i becomes bit i of row j, with four rows to a word: blocks of 8, 4, 2 and 1 change places across the
/// diagonal.
#[inline(always)]
fn transposed([mut a, mut b, mut c, mut d]: [u64; 4]) -> [u64; 4] {
    (a, c) = exchanged(a, c, 8, 0x00FF_00FF_00FF_00FF);
    (b, d) = exchanged(b, d, 8, 0x00FF_00FF_00FF_00FF);
    (a, b) = exchanged(a, b, 4, 0x0F0F_0F0F_0F0F_0F0F);
    (c, d) = exchanged(c, d, 4, 0x0F0F_0F0F_0F0F_0F0F);
    [a, b, c, d].map(|word| within(within(word, 30, 0x0000_0000_CCCC_CCCC), 15, 0x0000_AAAA_0000_AAAA))
}

/// The bits of x that are `by` places above those of the mask, and the bits of y under the mask, in each other's place.
#[inline(always)]
fn exchanged(x: u64, y: u64, by: u32, mask: u64) -> (u64, u64) {
    let change = (x >> by ^ y) & mask;
    (x ^ change << by, y ^ change)
}

/// The bits of x under the mask and those `by` places above them, in each other's place.
#[inline(always)]
fn within(x: u64, by: u32, mask: u64) -> u64 {
    let change = (x >> by ^ x) & mask;
    x ^ change ^ change << by
}

/// The parties from 0 to n - 1.
#[inline(always)]
pub fn first(n: usize) -> u16 {
    ((1u32 << n) - 1) as u16
}
