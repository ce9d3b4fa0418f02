//! The four sections of a record that is not refused, and who confirms whom by its reports.
//! Lamps are counted by their places here, from 0: the lamp at place i has number i + 1.

pub struct Record {
    pub n: usize,
    pub t: usize,
    /// All arithmetic is modulo this prime, the first number that means "not sent".
    pub prime: u32,
    /// For each lamp its row, then its column, each of t + 1 numbers, constant first.
    pub deals: Vec<u32>,
    /// By receiver, then sender: the pair that the one heard from the other.
    pairs: Vec<u32>,
    pub reports: Vec<u16>,
    pub published: Vec<u32>,
}

/// The number at a place, of two bytes or of four, high byte first.
fn number(bytes: &[u8], at: usize, width: usize) -> Option<u32> {
    Some(bytes.get(at..at + width)?.iter().fold(0, |high, &byte| high << 8 | u32::from(byte)))
}

/// One of the four sections: its offset and its length stand in the directory, from byte 2 on.
fn section(bytes: &[u8], place: usize, count: usize, width: usize) -> Option<Vec<u32>> {
    let offset = number(bytes, 2 + 4 * place, 2)? as usize;
    let length = number(bytes, 4 + 4 * place, 2)? as usize;
    if length != width * count {
        return None;
    }
    (0..count).map(|k| number(bytes, offset + width * k, width)).collect()
}

impl Record {
    /// None for what the library would refuse; that is for it to say, and why.
    pub fn read(bytes: &[u8]) -> Option<Record> {
        let (first, t) = (usize::from(*bytes.first()?), usize::from(*bytes.get(1)?));
        // A wide record has 128 added to n, and numbers of four bytes but for the reports.
        let (n, width, prime) = if first < 128 { (first, 2, 65_521) } else { (first - 128, 4, 2_147_483_647) };
        Some(Record {
            n,
            t,
            prime,
            deals: section(bytes, 0, 2 * n * (t + 1), width)?,
            pairs: section(bytes, 1, 2 * n * n, width)?,
            reports: section(bytes, 2, n, 2)?.into_iter().map(|report| report as u16).collect(),
            published: section(bytes, 3, n, width)?,
        })
    }

    /// Whether its numbers have four bytes, and up to ten digits.
    pub fn is_wide(&self) -> bool {
        self.prime > 65_521
    }

    /// How wide its picture is: ten digits need more room beside the lamps than five.
    pub fn picture_width(&self) -> f64 {
        if self.is_wide() {
            900.0
        } else {
            crate::picture::WIDTH
        }
    }

    /// What the receiver heard from the sender in round two.
    pub fn heard(&self, receiver: usize, sender: usize) -> (u32, u32) {
        let place = 2 * (receiver * self.n + sender);
        (self.pairs[place], self.pairs[place + 1])
    }

    /// Whether the report of one lamp has no one for another.
    pub fn denies(&self, one: usize, other: usize) -> bool {
        one != other && self.reports[one] >> other & 1 == 0
    }

    /// Each two lamps once, the lower number first.
    pub fn couples(&self) -> impl Iterator<Item = (usize, usize)> + '_ {
        (0..self.n).flat_map(|i| (i + 1..self.n).map(move |j| (i, j)))
    }

    pub fn agree(&self, i: usize, j: usize) -> bool {
        i != j && !self.denies(i, j) && !self.denies(j, i)
    }
}

#[cfg(test)]
pub mod tests {
    use super::*;

    pub const EXAMPLE: &[u8] = include_bytes!("../../../crates/bench/stdin");

    /// The records of every kind that are stored, by their files' names.
    pub fn stored() -> impl Iterator<Item = (String, Vec<u8>)> {
        let folder = concat!(env!("CARGO_MANIFEST_DIR"), "/../../crates/cases/data");
        let paths = std::fs::read_dir(folder).unwrap().map(|entry| entry.unwrap().path());
        paths.map(|path| (path.display().to_string(), std::fs::read(&path).unwrap()))
    }

    /// A record that is not refused, but that the lamps with these numbers published nothing. What was published is its end.
    pub fn darkened(bytes: &[u8], numbers: impl IntoIterator<Item = usize>) -> Vec<u8> {
        let mut bytes = bytes.to_vec();
        let record = Record::read(&bytes).unwrap();
        let width = if record.is_wide() { 4 } else { 2 };
        let shares = bytes.len() - width * record.n;
        for number in numbers {
            bytes[shares + width * (number - 1)..shares + width * number].fill(255);
        }
        bytes
    }

    /// The lamps that are dark in the record of a winter: as many of sixteen as can be, as seven shares are needed where t is 3.
    pub const DARK: [usize; 9] = [2, 3, 4, 7, 8, 9, 12, 13, 14];

    pub fn winter() -> Vec<u8> {
        darkened(include_bytes!("../../../crates/cases/data/honest-16-3.rec"), DARK)
    }

    #[test]
    fn sections_of_the_example() {
        let record = Record::read(EXAMPLE).unwrap();
        assert_eq!((record.n, record.t), (5, 1));
        assert_eq!(record.deals[..4], [9, 7, 10, 6]);
        assert_eq!(record.deals[16..], [17, 23, 22, 22]);
        assert_eq!(record.reports, [30, 29, 27, 23, 15]);
        assert_eq!(record.published, [10, 13, 999, 19, 22]);
        // Lamp 5 hears row and column at 5 from lamps 1 and 2.
        assert_eq!(record.heard(4, 0), (44, 40));
        assert_eq!(record.heard(4, 1), (66, 63));
        assert_eq!(record.heard(0, 0), (65_535, 65_535));
    }

    #[test]
    fn cut_short_is_not_read() {
        for length in 0..EXAMPLE.len() {
            assert!(Record::read(&EXAMPLE[..length]).is_none());
        }
    }

    #[test]
    fn one_sided_is_a_disagreement() {
        let mut record = Record::read(EXAMPLE).unwrap();
        assert_eq!(record.couples().filter(|&(i, j)| record.agree(i, j)).count(), 10);
        // Lamp 1 takes back its one for lamp 2.
        record.reports[0] &= !0b10;
        assert!(record.denies(0, 1) && !record.denies(1, 0));
        assert!(!record.agree(0, 1) && !record.agree(1, 0));
        assert!(record.agree(0, 2) && record.agree(2, 1));
        assert!(!record.agree(3, 3) && !record.denies(3, 3));
    }
}
