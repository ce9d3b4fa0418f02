//! Seeded random numbers (splitmix64): a seed always gives the same.

use crate::plain::field::Number;

pub struct Rng(u64);

impl Rng {
    pub fn new(seed: u64) -> Rng {
        Rng(seed)
    }

    pub fn word(&mut self) -> u64 {
        self.0 = self.0.wrapping_add(0x9E37_79B9_7F4A_7C15);
        let mut z = self.0;
        z = (z ^ (z >> 30)).wrapping_mul(0xBF58_476D_1CE4_E5B9);
        z = (z ^ (z >> 27)).wrapping_mul(0x94D0_49BB_1331_11EB);
        z ^ (z >> 31)
    }

    /// A number below `limit`. The slight bias of the remainder is no matter.
    pub fn below(&mut self, limit: usize) -> usize {
        (self.word() % limit as u64) as usize
    }

    pub fn chance(&mut self, percent: usize) -> bool {
        self.below(100) < percent
    }

    /// Any number of 16 bits.
    pub fn any(&mut self) -> u16 {
        self.word() as u16
    }

    /// A field element.
    pub fn element<N: Number>(&mut self) -> N {
        N::lent(self.below(N::P as usize) as u32)
    }

    pub fn elements<N: Number>(&mut self, count: usize) -> Vec<N> {
        (0..count).map(|_| self.element()).collect()
    }

    /// What a table may hold: a field element other than 0.
    pub fn point<N: Number>(&mut self) -> N {
        N::lent(1 + self.below(N::P as usize - 1) as u32)
    }

    /// A field element, often one next to 0, to either prime or to a power of 2 above it.
    pub fn edge<N: Number>(&mut self) -> N {
        let edges = [0, u16::P, 1 << 16, u32::P];
        let near = edges[self.below(4)].wrapping_add(self.below(5) as u32).wrapping_sub(2);
        if near < N::P && self.chance(50) {
            N::lent(near)
        } else {
            self.element()
        }
    }

    /// A number that is no field element: the prime, the next few, those at the other end, or any.
    pub fn above<N: Number>(&mut self) -> N {
        let most: u32 = N::NOT_SENT.into();
        let count = (most - N::P) as usize + 1;
        N::lent(match self.below(3) {
            0 => N::P + self.below(3) as u32,
            1 => most - self.below(3) as u32,
            _ => N::P + self.below(count) as u32,
        })
    }

    /// Points drawn until there are so many distinct ones, in the order in which they came.
    pub fn distinct<N: Number>(&mut self, count: usize, mut draw: impl FnMut(&mut Rng) -> N) -> Vec<N> {
        let mut list = Vec::new();
        while list.len() < count {
            let x = draw(self);
            if !list.contains(&x) {
                list.push(x);
            }
        }
        list
    }

    /// A table of any points, in any order.
    pub fn table<N: Number>(&mut self, count: usize) -> Vec<N> {
        self.distinct(count, Rng::point)
    }

    /// A field element other than the given one.
    pub fn wrong<N: Number>(&mut self, right: N) -> N {
        let right: u32 = right.into();
        N::lent(((right as usize + 1 + self.below(N::P as usize - 1)) % N::P as usize) as u32)
    }

    /// The numbers below n in random order.
    pub fn order(&mut self, n: usize) -> Vec<usize> {
        let mut all: Vec<usize> = (0..n).collect();
        for k in (1..n).rev() {
            all.swap(k, self.below(k + 1));
        }
        all
    }
}
