//! Arithmetic modulo 65,521 and modulo 2,147,483,647. Which is meant is said by the type of a lent number, u16 or u32, so
//! that all code is compiled for each prime by itself. Residues have 32 bits.

use std::fmt::Debug;

/// A number as it is lent, and the arithmetic of its prime: arguments are residues or the prime, answers residues.
pub trait Number: Copy + Ord + Debug + From<u16> + Into<u32> + 'static {
    const P: u32;
    /// What is added to n in the first byte of a record.
    const MARK: u8;
    /// The bytes of a number in a record.
    const BYTES: usize;
    /// What a sender writes for "not sent".
    const NOT_SENT: Self;
    /// The points of sixteen lamps without a table.
    const ONE_TO: &'static [Self; 16];

    /// A number that is small enough, as it is lent.
    fn lent(x: u32) -> Self;

    /// A number that is lent for a residue, as one.
    fn residue(self) -> u32;

    /// c + a b by one reduction.
    fn mul_add(a: u32, b: u32, c: u32) -> u32;

    /// A number with the same residue, small enough to be multiplied by a residue in 64 bits; of what a residue and such a
    /// number gave, with a residue added.
    fn folded(v: u64) -> u64;

    /// The number in front, high byte first.
    fn read(bytes: &[u8]) -> Self;

    fn write(self, bytes: &mut [u8]);

    /// The tenth, and the last digit.
    fn tenth(self) -> (Self, u8);

    /// Whether it is a residue; as a value, one that is none was not sent.
    #[inline(always)]
    fn is_sent(self) -> bool {
        self.into() < Self::P
    }

    #[inline(always)]
    fn mul(a: u32, b: u32) -> u32 {
        Self::mul_add(a, b, 0)
    }

    /// a - b, for residues.
    #[inline(always)]
    fn sub(a: u32, b: u32) -> u32 {
        let d = a.wrapping_sub(b);
        d.min(d.wrapping_add(Self::P))
    }

    #[inline(always)]
    fn reduced(v: u64) -> u32 {
        (v % u64::from(Self::P)) as u32
    }

    /// A number with the residue of a cubic's value: Horner's rule without a loop.
    #[inline(always)]
    fn cubic(f: [Self; 4], x: u32) -> u64 {
        Self::cubic_of(f.map(Self::into), x)
    }

    /// The same of coefficients that are residues of 32 bits for either prime.
    #[inline(always)]
    fn cubic_of(f: [u32; 4], x: u32) -> u64 {
        let ([a, b, c, d], x) = (f.map(u64::from), u64::from(x));
        Self::folded(Self::folded(d * x + c) * x + b) * x + a
    }

    /// The inverse of a residue, 0 for 0: each turn puts the remainder of the prime by d in the place of d.
    #[inline]
    fn inverse(a: u32) -> u32 {
        let mut d = a;
        if d == 0 {
            return 0;
        }
        let mut t = 1;
        while 1 < d {
            t = Self::mul(t, Self::P - Self::P / d);
            d = Self::P % d;
        }
        t
    }

    /// The same in fewer turns: each puts what the prime is above or below the nearest multiple of d in the place of d.
    /// 65,521 is 1 above a multiple of each number up to 16 but 11: these need no turn; so do half of them for the other.
    #[inline]
    fn inverse_by_nearest(a: u32) -> u32 {
        if a <= 1 {
            return a;
        }
        let p = Self::P;
        if p % a == 1 {
            return p - p / a;
        }
        let (mut d, mut t) = (a, 1);
        while 1 < d {
            let (q, above) = (p / d, p % d);
            let below = d - above;
            let (by, next) = if below < above { (q + 1, below) } else { (p - q, above) };
            t = Self::mul(t, by);
            d = next;
        }
        t
    }
}

impl Number for u16 {
    const P: u32 = 65_521;
    const MARK: u8 = 0;
    const BYTES: usize = 2;
    const NOT_SENT: u16 = u16::MAX;
    const ONE_TO: &'static [u16; 16] = &[1, 2, 3, 4, 5, 6, 7, 8, 9, 10, 11, 12, 13, 14, 15, 16];

    #[inline(always)]
    fn lent(x: u32) -> u16 {
        x as u16
    }

    #[inline(always)]
    fn residue(self) -> u32 {
        u32::from(self) % Self::P
    }

    #[inline(always)]
    fn mul_add(a: u32, b: u32, c: u32) -> u32 {
        (a * b + c) % Self::P
    }

    /// Products of four numbers of 16 bits, and what is added to them, fit 64 as they are.
    #[inline(always)]
    fn folded(v: u64) -> u64 {
        v
    }

    #[inline(always)]
    fn read(bytes: &[u8]) -> u16 {
        u16::from_be_bytes([bytes[0], bytes[1]])
    }

    fn write(self, bytes: &mut [u8]) {
        bytes[..2].copy_from_slice(&self.to_be_bytes());
    }

    #[inline(always)]
    fn tenth(self) -> (u16, u8) {
        (self / 10, (self % 10) as u8)
    }
}

impl Number for u32 {
    const P: u32 = 2_147_483_647;
    const MARK: u8 = 128;
    const BYTES: usize = 4;
    const NOT_SENT: u32 = u32::MAX;
    const ONE_TO: &'static [u32; 16] = &[1, 2, 3, 4, 5, 6, 7, 8, 9, 10, 11, 12, 13, 14, 15, 16];

    #[inline(always)]
    fn lent(x: u32) -> u32 {
        x
    }

    #[inline(always)]
    fn residue(self) -> u32 {
        self
    }

    /// What is folded once is below twice the prime.
    #[inline(always)]
    fn mul_add(a: u32, b: u32, c: u32) -> u32 {
        let v = Self::folded(u64::from(a) * u64::from(b) + u64::from(c)) as u32;
        v.min(v.wrapping_sub(Self::P))
    }

    /// Half as many bits: 2^31 is 1 modulo the prime.
    #[inline(always)]
    fn folded(v: u64) -> u64 {
        v % (1 << 31) + v / (1 << 31)
    }

    /// What is folded twice is at most 4 above the prime.
    #[inline(always)]
    fn reduced(v: u64) -> u32 {
        let v = Self::folded(Self::folded(v)) as u32;
        v.min(v.wrapping_sub(Self::P))
    }

    /// With 31 bits the turns are twice as many as with 16, so all go by the nearest multiple. Written out, that slows down
    /// the loops around it, in which most runs are 1.
    #[inline(never)]
    fn inverse(a: u32) -> u32 {
        Self::inverse_by_nearest(a)
    }

    #[inline(always)]
    fn read(bytes: &[u8]) -> u32 {
        u32::from_be_bytes([bytes[0], bytes[1], bytes[2], bytes[3]])
    }

    fn write(self, bytes: &mut [u8]) {
        bytes[..4].copy_from_slice(&self.to_be_bytes());
    }

    #[inline(always)]
    fn tenth(self) -> (u32, u8) {
        (self / 10, (self % 10) as u8)
    }
}

/// The value at x of at most four coefficients, which rows and columns have, by one reduction.
#[inline(always)]
pub fn value<N: Number>(f: &[N], x: u32) -> u32 {
    let none = N::from(0);
    match *f {
        [a, b] => N::reduced(N::cubic([a, b, none, none], x)),
        [a, b, c] => N::reduced(N::cubic([a, b, c, none], x)),
        [a, b, c, d] => N::reduced(N::cubic([a, b, c, d], x)),
        _ => f.iter().rev().fold(0, |v, &c| N::mul_add(x, v, c.into())),
    }
}
