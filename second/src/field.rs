//! Arithmetic modulo one of two primes, on u64 so that no product can overflow.
//! Which prime it is, and how many bits a number has, is the width.

/// Narrow: the prime 65,521 and numbers of 16 bits. Wide: the prime
/// 2,147,483,647 and numbers of 32 bits. All numbers are kept as u32.
#[derive(Clone, Copy, PartialEq, Eq, PartialOrd, Ord, Debug)]
pub enum Width {
    Narrow,
    Wide,
}

/// The narrow prime.
pub const P: u64 = 65_521;

/// The wide one.
pub const WIDE_P: u64 = 2_147_483_647;

/// What a narrow sender writes for "not sent".
pub const NOT_SENT: u32 = 65_535;

/// What a wide one writes.
pub const WIDE_NOT_SENT: u32 = 4_294_967_295;

impl Width {
    pub fn prime(self) -> u64 {
        match self {
            Width::Narrow => P,
            Width::Wide => WIDE_P,
        }
    }

    /// What a sender writes for "not sent": the largest number there is.
    pub fn not_sent(self) -> u32 {
        match self {
            Width::Narrow => NOT_SENT,
            Width::Wide => WIDE_NOT_SENT,
        }
    }

    pub fn other(self) -> Width {
        match self {
            Width::Narrow => Width::Wide,
            Width::Wide => Width::Narrow,
        }
    }

    /// How many bytes a number has.
    pub fn bytes(self) -> usize {
        match self {
            Width::Narrow => 2,
            Width::Wide => 4,
        }
    }

    /// What is added to a byte that also tells the width: a record's first, and
    /// that of a call's kind.
    pub fn mark(self) -> u8 {
        match self {
            Width::Narrow => 0,
            Width::Wide => 128,
        }
    }

    /// The width that such a byte tells.
    pub fn of_byte(byte: u8) -> Width {
        if byte < 128 {
            Width::Narrow
        } else {
            Width::Wide
        }
    }

    /// The number with no more bits than there are.
    pub fn cut(self, number: u32) -> u32 {
        number & self.not_sent()
    }

    /// The number's bytes, high byte first.
    pub fn write(self, number: u32) -> Vec<u8> {
        assert_eq!(self.cut(number), number, "a number with too many bits");
        number.to_be_bytes()[4 - self.bytes()..].to_vec()
    }

    /// The numbers of some bytes.
    pub fn read(self, bytes: &[u8]) -> Vec<u32> {
        let number = |b: &[u8]| b.iter().fold(0, |sum, &byte| sum << 8 | u32::from(byte));
        bytes.chunks(self.bytes()).map(number).collect()
    }

    /// A number of a message counts as sent only if it is a field element.
    pub fn is_sent(self, number: u32) -> bool {
        u64::from(number) < self.prime()
    }

    pub fn add(self, a: u64, b: u64) -> u64 {
        (a + b) % self.prime()
    }

    /// Both arguments are below the prime, so the sum never goes under `b`.
    pub fn sub(self, a: u64, b: u64) -> u64 {
        debug_assert!(a < self.prime() && b < self.prime());
        (a + self.prime() - b) % self.prime()
    }

    /// Both are below 2^32, so the product fits.
    pub fn mul(self, a: u64, b: u64) -> u64 {
        debug_assert!(a < 1 << 32 && b < 1 << 32);
        (a * b) % self.prime()
    }

    /// Square and multiply.
    pub fn pow(self, base: u64, exponent: u64) -> u64 {
        let mut result = 1;
        let mut square = base % self.prime();
        let mut left = exponent;
        while left > 0 {
            if left % 2 == 1 {
                result = self.mul(result, square);
            }
            square = self.mul(square, square);
            left /= 2;
        }
        result
    }

    /// Fermat: a^(p-1) = 1 for a other than 0, so a^(p-2) is the inverse.
    pub fn inverse(self, a: u64) -> u64 {
        assert!(a != 0 && a < self.prime(), "no unit of the field");
        self.pow(a, self.prime() - 2)
    }
}
