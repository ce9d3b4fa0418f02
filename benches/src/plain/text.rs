//! The text of a record, in the proved library's way: every lamp is run on it, each with a search of its own.

use super::field::Number;
use super::lamp::{settle, Ways};
use super::letters::Letters;
use super::record::{is_wide, numbers, read, Record};

/// Writes the text over the front of the buffer and answers its length.
pub fn text<W: Ways>(bytes: &[u8], out: &mut [u8; 512]) -> usize {
    let mut letters = Letters { out, at: 0 };
    if is_wide(bytes) {
        put_bytes::<W, u32>(bytes, &mut letters);
    } else {
        put_bytes::<W, u16>(bytes, &mut letters);
    }
    letters.at
}

fn put_bytes<W: Ways, N: Number>(bytes: &[u8], letters: &mut Letters) {
    match read::<N>(bytes) {
        Err(refusal) => letters.put_line(b"record refused ", u16::from(refusal)),
        Ok(record) => put_record::<W, N>(&record, letters),
    }
}

fn put_record<W: Ways, N: Number>(record: &Record<N>, letters: &mut Letters) {
    let n = usize::from(record.n);
    let list: [u16; 16] = numbers(record.reports);
    let reports = &list[..n];
    let set = W::happy_set(reports);
    let accepted = u32::from(record.n - record.t) <= set.count_ones();
    letters.put(b"size ");
    letters.put_number(u16::from(record.n));
    letters.put_line(b" ", u16::from(record.t));
    put_verdict(accepted, set, n, letters);
    for i in 1..=record.n {
        letters.put(b"lamp ");
        letters.put_number(u16::from(i));
        match settle::<W, N>(record, i, reports, set) {
            Ok(share) => letters.put_line(b" share ", share),
            Err(refusal) => letters.put_line(b" refused ", u16::from(refusal)),
        }
    }
    put_last::<W, N>(record, accepted, letters);
}

fn put_verdict(accepted: bool, set: u16, n: usize, letters: &mut Letters) {
    if !accepted {
        return letters.put(b"dealer rejected\n");
    }
    letters.put(b"dealer accepted\nhappy");
    for k in 0..n as u16 {
        if set >> k & 1 == 1 {
            letters.put(b" ");
            letters.put_number(k + 1);
        }
    }
    letters.put(b"\n");
}

fn put_last<W: Ways, N: Number>(record: &Record<N>, accepted: bool, letters: &mut Letters) {
    if !accepted {
        return letters.put_line(b"opened refused ", 8u16);
    }
    let (n, t) = (usize::from(record.n), usize::from(record.t));
    let shares: [N; 16] = numbers(record.shares);
    match W::open(t, &N::ONE_TO[..n], &shares[..n]) {
        Some(f) => letters.put_line(b"opened ", f[0]),
        None => letters.put_line(b"opened refused ", 10u16),
    }
}
