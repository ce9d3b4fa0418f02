//! Seeded random numbers (splitmix64), so that a seed always gives the same.

use crate::field::{Width, P, WIDE_P};

pub struct Rng(u64);

impl Rng {
    pub fn new(seed: u64) -> Rng {
        Rng(seed)
    }

    pub fn next(&mut self) -> u64 {
        self.0 = self.0.wrapping_add(0x9E37_79B9_7F4A_7C15);
        let mut z = self.0;
        z = (z ^ (z >> 30)).wrapping_mul(0xBF58_476D_1CE4_E5B9);
        z = (z ^ (z >> 27)).wrapping_mul(0x94D0_49BB_1331_11EB);
        z ^ (z >> 31)
    }

    /// A number below `limit`. The slight bias of the remainder is no matter.
    pub fn below(&mut self, limit: usize) -> usize {
        (self.next() % limit as u64) as usize
    }

    /// A number from `low` to `high`, both included.
    pub fn between(&mut self, low: usize, high: usize) -> usize {
        low + self.below(high - low + 1)
    }

    pub fn chance(&mut self, percent: usize) -> bool {
        self.below(100) < percent
    }

    pub fn pick<T: Copy>(&mut self, list: &[T]) -> T {
        list[self.below(list.len())]
    }

    /// Any 16-bit number.
    pub fn word(&mut self) -> u16 {
        self.next() as u16
    }

    pub fn byte(&mut self) -> u8 {
        self.next() as u8
    }

    /// A width: of three, one is wide.
    pub fn width(&mut self) -> Width {
        self.pick(&[Width::Narrow, Width::Narrow, Width::Wide])
    }

    /// Any number of the width.
    pub fn number(&mut self, width: Width) -> u32 {
        width.cut(self.next() as u32)
    }

    /// A field element.
    pub fn element(&mut self, width: Width) -> u32 {
        self.below(width.prime() as usize) as u32
    }

    /// A field element other than 0.
    pub fn unit(&mut self, width: Width) -> u32 {
        self.between(1, width.prime() as usize - 1) as u32
    }

    /// A number that means "not sent", mostly not the customary one. Of the
    /// many wide ones the first and the last come often.
    pub fn not_sent(&mut self, width: Width) -> u32 {
        let (first, last) = (width.prime() as usize, width.not_sent() as usize);
        let number = match width {
            Width::Narrow => self.between(first, last),
            Width::Wide => match self.below(3) {
                0 => self.between(first, first + 3),
                1 => self.between(last - 3, last),
                _ => self.between(first, last),
            },
        };
        number as u32
    }

    /// A number at an edge: "not sent", or just below. Wide ones lie also
    /// around what would be an edge to a narrow reader.
    pub fn edge(&mut self, width: Width) -> u32 {
        let number = match width {
            Width::Narrow => self.between(P as usize - 1, 65_535),
            Width::Wide => match self.below(4) {
                0 => self.between(P as usize - 1, 65_537),
                1 => self.between(WIDE_P as usize - 2, WIDE_P as usize + 1),
                _ => return self.not_sent(width),
            },
        };
        number as u32
    }

    /// `count` different numbers from 1 to n, in random order.
    pub fn some_of(&mut self, n: usize, count: usize) -> Vec<usize> {
        let mut all: Vec<usize> = (1..=n).collect();
        for k in 0..count.min(n) {
            let other = self.between(k, n - 1);
            all.swap(k, other);
        }
        all.truncate(count);
        all
    }
}
