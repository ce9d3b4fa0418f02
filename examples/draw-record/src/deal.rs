//! What a lamp was dealt, and what it has to say by it (docs/PROTOCOL.md, "A lamp", steps 1 and 2).

use crate::record::Record;

pub struct Deal<'a> {
    prime: u32,
    /// The lamp's point, its number.
    point: u32,
    row: &'a [u32],
    column: &'a [u32],
}

/// The value at a point of a polynomial, constant first.
fn value(prime: u32, coefficients: &[u32], point: u32) -> u32 {
    let step = |sum: u64, &number: &u32| (sum * u64::from(point) + u64::from(number)) % u64::from(prime);
    coefficients.iter().rev().fold(0, step) as u32
}

impl<'a> Deal<'a> {
    pub fn of(record: &'a Record, place: usize) -> Deal<'a> {
        let width = record.t + 1;
        let (row, column) = record.deals[2 * width * place..2 * width * (place + 1)].split_at(width);
        Deal { prime: record.prime, point: place as u32 + 1, row, column }
    }

    /// All numbers sent, and the row at the lamp's own point is the column there.
    pub fn is_sound(&self) -> bool {
        let sent = self.row.iter().chain(self.column).all(|&number| number < self.prime);
        sent && value(self.prime, self.row, self.point) == value(self.prime, self.column, self.point)
    }

    /// The pair that the lamp owes the lamp at another place: row and column there; with an unsound deal neither.
    pub fn pair_for(&self, place: usize) -> (u32, u32) {
        if !self.is_sound() {
            return (self.prime, self.prime);
        }
        let point = place as u32 + 1;
        (value(self.prime, self.row, point), value(self.prime, self.column, point))
    }

    /// Whether the row of one lamp crosses the column of another, or its own, where both lie on one F.
    fn crosses(&self, other: &Deal) -> bool {
        value(self.prime, self.row, other.point) == value(self.prime, other.column, self.point)
    }
}

/// Whether the deals of the lamps at these places fit together: all are sound, and each row crosses each column.
pub fn fit(record: &Record, places: impl Iterator<Item = usize>) -> bool {
    let deals: Vec<Deal> = places.map(|place| Deal::of(record, place)).collect();
    deals.iter().all(|one| one.is_sound() && deals.iter().all(|other| one.crosses(other)))
}

#[cfg(test)]
mod tests {
    use super::*;
    use crate::record::tests::EXAMPLE;

    #[test]
    fn deals_of_the_example() {
        let record = Record::read(EXAMPLE).unwrap();
        assert!(fit(&record, 0..5));
        // Row 9 + 7X and column 10 + 6Y of lamp 1, at 2; row 17 + 23X and column 22 + 22Y of lamp 5, at 1.
        assert_eq!(Deal::of(&record, 0).pair_for(1), (23, 22));
        assert_eq!(Deal::of(&record, 4).pair_for(0), (40, 44));
    }

    #[test]
    fn own_crossing_and_large_numbers() {
        let mut record = Record::read(EXAMPLE).unwrap();
        // 65,530 is 9 to one who counts modulo 65,521, but it was not sent.
        record.deals[0] = 65_530;
        assert!(
            !Deal::of(&record, 0).is_sound()
                && Deal::of(&record, 1).is_sound()
                && !fit(&record, 0..5)
                && fit(&record, 1..5)
        );
        record.deals[0] = 8;
        assert!(!Deal::of(&record, 0).is_sound());
        record.deals[0] = 9;
        assert!(fit(&record, 0..5));
    }

    #[test]
    fn a_sound_deal_may_not_fit() {
        let bytes = include_bytes!("../../../crates/cases/data/repair-foreign-deal.rec");
        let record = Record::read(bytes).unwrap();
        assert!((0..5).all(|place| Deal::of(&record, place).is_sound()));
        assert!(!fit(&record, 0..5));
    }

    #[test]
    fn the_trap_of_the_own_crossing() {
        let bytes = include_bytes!("../../../crates/cases/data/unsound-trap-honest.rec");
        let record = Record::read(bytes).unwrap();
        assert_eq!([0, 1, 2, 3, 4].map(|place| Deal::of(&record, place).is_sound()), [true, false, false, true, true]);
        let deals = [0, 1, 2].map(|place| Deal::of(&record, place));
        assert!(deals[1].crosses(&deals[2]) && deals[2].crosses(&deals[1]) && !deals[1].crosses(&deals[1]));
    }
}
