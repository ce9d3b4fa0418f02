//! The record, narrow or wide: its sizes, its directory, and its sections as parts of the bytes.

use super::deal::sizes;
use super::field::Number;
use std::marker::PhantomData;

pub struct Record<'a, N> {
    pub n: u8,
    pub t: u8,
    pub deals: &'a [u8],
    pub pairs: &'a [u8],
    pub reports: &'a [u8],
    pub shares: &'a [u8],
    numbers: PhantomData<N>,
}

/// The lengths of the four sections in bytes. Reports have two bytes in either.
pub fn lengths<N: Number>(n: u8, t: u8) -> [usize; 4] {
    let (n, width) = (usize::from(n), usize::from(t) + 1);
    [2 * N::BYTES * n * width, 2 * N::BYTES * n * n, 2 * n, N::BYTES * n]
}

/// Whether the first byte, if there is one, says that the record is wide.
pub fn is_wide(bytes: &[u8]) -> bool {
    bytes.first().is_some_and(|&head| u32::MARK <= head)
}

/// The record in these bytes, which is as wide as its numbers, or the number of the refusal.
pub fn read<N: Number>(bytes: &[u8]) -> Result<Record<'_, N>, u8> {
    let [head, t, ..] = *bytes else {
        return Err(6);
    };
    let n = head.wrapping_sub(N::MARK);
    if !sizes(n, t) {
        return Err(1);
    }
    let lengths = lengths::<N>(n, t);
    if bytes.len() != 18 + lengths.iter().sum::<usize>() {
        return Err(6);
    }
    let (head, rest) = bytes.split_at(18);
    let mut offset = 18;
    for (entry, length) in head[2..].chunks_exact(4).zip(lengths) {
        if usize::from(u16::read(entry)) != offset || usize::from(u16::read(&entry[2..])) != length {
            return Err(6);
        }
        offset += length;
    }
    let (deals, rest) = rest.split_at(lengths[0]);
    let (pairs, rest) = rest.split_at(lengths[1]);
    let (reports, shares) = rest.split_at(lengths[2]);
    Ok(Record { n, t, deals, pairs, reports, shares, numbers: PhantomData })
}

/// The numbers of a part, as far as the list reaches.
#[inline(always)]
pub fn numbers<N: Number, const COUNT: usize>(part: &[u8]) -> [N; COUNT] {
    let mut list = [N::from(0); COUNT];
    for (place, bytes) in list.iter_mut().zip(part.chunks_exact(N::BYTES)) {
        *place = N::read(bytes);
    }
    list
}
