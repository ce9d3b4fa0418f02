//! The record: two bytes for the size, a directory of four pairs of offset
//! and length, then four sections that fill the rest exactly. In a wide record
//! 128 is added to the first byte, and all numbers but reports have four bytes.

use crate::dealer::legal_size;
use crate::field::Width;

/// Bytes before the first section.
pub const HEAD: usize = 18;

#[derive(Clone, PartialEq, Eq, Debug)]
pub struct Record {
    pub width: Width,
    pub n: usize,
    pub t: usize,
    /// 2n(t+1) numbers: each party's row and column.
    pub deals: Vec<u32>,
    /// 2n² numbers: by receiver, then by sender, a pair.
    pub pairs: Vec<u32>,
    /// n numbers of 16 bits, whatever the width.
    pub reports: Vec<u16>,
    /// n numbers.
    pub shares: Vec<u32>,
}

/// The lengths in bytes of the four sections.
pub fn lengths(width: Width, n: usize, t: usize) -> [usize; 4] {
    let bytes = width.bytes();
    [2 * bytes * n * (t + 1), 2 * bytes * n * n, 2 * n, bytes * n]
}

/// Where sender's pair for receiver starts in `pairs`.
pub fn pair_place(n: usize, receiver: usize, sender: usize) -> usize {
    2 * ((receiver - 1) * n + (sender - 1))
}

/// The 16-bit number at a place, high byte first.
fn number_at(bytes: &[u8], place: usize) -> usize {
    usize::from(bytes[place]) * 256 + usize::from(bytes[place + 1])
}

/// The reports of a section.
fn reports(bytes: &[u8]) -> Vec<u16> {
    let numbers = Width::Narrow.read(bytes).into_iter();
    numbers.map(|number| number as u16).collect()
}

/// The directory's four pairs of offset and length, if they are as they must.
fn directory(bytes: &[u8], width: Width, n: usize, t: usize) -> Result<[(usize, usize); 4], u8> {
    if bytes.len() < HEAD {
        return Err(6);
    }
    let mut entries = [(0, 0); 4];
    let mut expected_offset = HEAD;
    for (k, expected_length) in lengths(width, n, t).into_iter().enumerate() {
        let offset = number_at(bytes, 2 + 4 * k);
        let length = number_at(bytes, 4 + 4 * k);
        if offset != expected_offset || length != expected_length {
            return Err(6);
        }
        entries[k] = (offset, length);
        expected_offset = offset + length;
    }
    if expected_offset != bytes.len() {
        return Err(6);
    }
    Ok(entries)
}

/// Reads a record from any bytes: too short for a size 6, then 1, then 6.
pub fn read(bytes: &[u8]) -> Result<Record, u8> {
    if bytes.len() < 2 {
        return Err(6);
    }
    let width = Width::of_byte(bytes[0]);
    let n = usize::from(bytes[0] - width.mark());
    let t = usize::from(bytes[1]);
    if !legal_size(n, t) {
        return Err(1);
    }
    let entries = directory(bytes, width, n, t)?;
    let section = |k: usize| {
        let (offset, length) = entries[k];
        &bytes[offset..offset + length]
    };
    Ok(Record {
        width,
        n,
        t,
        deals: width.read(section(0)),
        pairs: width.read(section(1)),
        reports: reports(section(2)),
        shares: width.read(section(3)),
    })
}

/// The head of a record with sections of the given lengths, one after the
/// other. Lengths too large for 16 bits are cut; only bad sizes have them.
pub fn head(width: Width, n: usize, t: usize, lengths: [usize; 4]) -> Vec<u8> {
    let mut bytes = vec![(n as u8).wrapping_add(width.mark()), t as u8];
    let mut offset = HEAD;
    for length in lengths {
        bytes.extend((offset as u16).to_be_bytes());
        bytes.extend((length as u16).to_be_bytes());
        offset += length;
    }
    bytes
}

/// Writes a record.
pub fn write(record: &Record) -> Vec<u8> {
    let width = record.width;
    let reports: Vec<u32> = record.reports.iter().map(|&r| r.into()).collect();
    let mut bytes = head(
        width,
        record.n,
        record.t,
        lengths(width, record.n, record.t),
    );
    for (width, section) in [
        (width, &record.deals),
        (width, &record.pairs),
        (Width::Narrow, &reports),
        (width, &record.shares),
    ] {
        for &number in section {
            bytes.extend(width.write(number));
        }
    }
    bytes
}
