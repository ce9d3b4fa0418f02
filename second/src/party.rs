//! One party (a lamp) from waiting to holding. Every call answers with its
//! values or with the number of the first refusal that applies, in the order 1,
//! 2, 18, 3, 14, 4 and so on; a refused call changes nothing, except that 8 and
//! 9 close the party.

use crate::clique::{members, verdict};
use crate::dealer::legal_size;
use crate::field::Width;
use crate::fit::{fit, open_with, Point, Rule};
use crate::poly::{from_numbers, value};
use crate::stations::{check_table, one_to, point};

/// A size or a party's number that is larger counts as this one, which is none
/// either.
const LARGE: usize = 255;

#[derive(Clone, Copy, PartialEq, Eq, Debug)]
pub enum Stage {
    Waiting = 0,
    Dealt = 1,
    Reported = 2,
    Holding = 3,
    Closed = 4,
}

#[derive(Clone, PartialEq, Eq, Debug)]
pub struct Party {
    /// The width of its prime, for good.
    pub width: Width,
    pub n: usize,
    pub t: usize,
    pub number: usize,
    /// The points of all n parties, its own among them.
    pub table: Vec<u32>,
    pub stage: Stage,
    /// Row, then column, as dealt; a repair does not alter them.
    pub deal: Vec<u32>,
    /// The n pairs heard.
    pub pairs: Vec<u32>,
    pub report: u16,
    pub share: u32,
    pub happy: u16,
}

impl Party {
    /// The party made without a table: the points are 1 to n.
    pub fn make(width: Width, n: usize, t: usize, number: usize) -> (Party, Result<(), u8>) {
        Party::make_with(width, n, t, number, &one_to(n.min(LARGE)))
    }

    /// The party as made with a table. It exists also if the making is refused.
    /// With a bad size or number every later call is refused with 1 or 2. For a
    /// table of another length, refused with 3, it holds zeros; with those, or
    /// with entries refused with 14, every later call is refused with 14 if not
    /// with 2 or 3.
    pub fn make_with(
        width: Width,
        n: usize,
        t: usize,
        number: usize,
        table: &[u32],
    ) -> (Party, Result<(), u8>) {
        let [n, t, number] = [n, t, number].map(|small| small.min(LARGE));
        let right_length = table.len() == n;
        let party = Party {
            width,
            n,
            t,
            number,
            table: if right_length {
                table.to_vec()
            } else {
                vec![0; n]
            },
            stage: Stage::Waiting,
            deal: Vec::new(),
            pairs: Vec::new(),
            report: 0,
            share: 0,
            happy: 0,
        };
        let answer = party.check_making(right_length);
        (party, answer)
    }

    /// Refusals of a making, in their order.
    fn check_making(&self, right_length: bool) -> Result<(), u8> {
        self.check_made()?;
        if !right_length {
            return Err(3);
        }
        check_table(self.width, &self.table)
    }

    /// Refusals 1 and 2 of the state itself.
    pub fn check_made(&self) -> Result<(), u8> {
        if !legal_size(self.n, self.t) {
            return Err(1);
        }
        self.check_number(self.number)
    }

    /// Refusals 1, 2 and 18 of a call for numbers of this width: whoever calls
    /// for the other prime than the party's is told so before all else.
    pub fn check_width(&self, width: Width) -> Result<(), u8> {
        self.check_made()?;
        if self.width != width {
            return Err(18);
        }
        Ok(())
    }

    /// Refusal 2 of a party's number.
    fn check_number(&self, number: usize) -> Result<(), u8> {
        if number < 1 || number > self.n {
            return Err(2);
        }
        Ok(())
    }

    /// Refusals 1 to 4 and 14 of a call that lends a list, in their order: size
    /// and number first, then the length, then the table, then the stage.
    fn check_call(&self, lent: usize, length: usize, stage: Stage) -> Result<(), u8> {
        self.check_made()?;
        if lent != length {
            return Err(3);
        }
        check_table(self.width, &self.table)?;
        if self.stage != stage {
            return Err(4);
        }
        Ok(())
    }

    /// The row at party j's point.
    fn row_at(&self, j: usize) -> u32 {
        self.value_at(&self.deal[..=self.t], j)
    }

    /// The column at party j's point.
    fn column_at(&self, j: usize) -> u32 {
        self.value_at(&self.deal[self.t + 1..], j)
    }

    fn value_at(&self, numbers: &[u32], j: usize) -> u32 {
        let poly = from_numbers(self.width, numbers);
        value(self.width, &poly, point(&self.table, j)) as u32
    }

    /// Every number a field element, and the own crossing right.
    pub fn sound(&self) -> bool {
        self.deal.iter().all(|&c| self.width.is_sent(c))
            && self.row_at(self.number) == self.column_at(self.number)
    }

    pub fn take_deal(&mut self, list: &[u32]) -> Result<(), u8> {
        // The product is safe for any size: a bad one is refused before use.
        let length = self.t.saturating_add(1).saturating_mul(2);
        self.check_call(list.len(), length, Stage::Waiting)?;
        self.deal = list.to_vec();
        self.stage = Stage::Dealt;
        Ok(())
    }

    /// The pair for party j: row at j, column at j.
    pub fn say(&self, j: usize) -> Result<(u32, u32), u8> {
        self.check_made()?;
        self.check_number(j)?;
        check_table(self.width, &self.table)?;
        if self.stage == Stage::Waiting {
            return Err(4);
        }
        if j == self.number || !self.sound() {
            return Ok((self.width.not_sent(), self.width.not_sent()));
        }
        Ok((self.row_at(j), self.column_at(j)))
    }

    /// The report's bit for party j.
    fn confirms(&self, j: usize, first: u32, second: u32) -> bool {
        j != self.number && self.sound() && first == self.column_at(j) && second == self.row_at(j)
    }

    /// Takes the n pairs and answers the report.
    pub fn hear(&mut self, list: &[u32]) -> Result<u16, u8> {
        self.check_call(list.len(), self.n.saturating_mul(2), Stage::Dealt)?;
        self.pairs = list.to_vec();
        self.report = 0;
        for j in 1..=self.n {
            if self.confirms(j, list[2 * j - 2], list[2 * j - 1]) {
                self.report |= 1 << (j - 1);
            }
        }
        self.stage = Stage::Reported;
        Ok(self.report)
    }

    /// Takes all n reports. 7 leaves the party as it was, also where 8 or 9
    /// would be due.
    pub fn settle(&mut self, list: &[u16]) -> Result<(), u8> {
        self.check_call(list.len(), self.n, Stage::Reported)?;
        if list[self.number - 1] != self.report {
            return Err(7);
        }
        let (happy, accepted) = verdict(list, self.t);
        if !accepted {
            self.end(Stage::Closed, 0, 0);
            return Err(8);
        }
        if happy >> (self.number - 1) & 1 == 1 {
            self.end(Stage::Holding, self.deal[self.t + 1], happy);
            return Ok(());
        }
        match self.repaired_share(happy) {
            Some(share) => {
                self.end(Stage::Holding, share, happy);
                Ok(())
            }
            None => {
                self.end(Stage::Closed, 0, happy);
                Err(9)
            }
        }
    }

    /// The constant of the column that fits the first numbers heard from the
    /// happy parties. The dealt column plays no part.
    fn repaired_share(&self, happy: u16) -> Option<u32> {
        let points: Vec<Point> = members(happy)
            .into_iter()
            .map(|j| (point(&self.table, j), self.pairs[2 * (j - 1)]))
            .collect();
        fit(self.width, Rule::Column, &points, self.t).map(|column| column[0] as u32)
    }

    fn end(&mut self, stage: Stage, share: u32, happy: u16) {
        self.stage = stage;
        self.share = share;
        self.happy = happy;
    }

    /// Opens from n published shares, with the own share in the own place. It is
    /// below the prime, so it counts as sent.
    pub fn open(&self, list: &[u32]) -> Result<u32, u8> {
        self.check_call(list.len(), self.n, Stage::Holding)?;
        let mut published = list.to_vec();
        published[self.number - 1] = self.share;
        open_with(self.width, &self.table, &published, self.t)
    }
}
