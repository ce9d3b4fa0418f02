//! Text put into a buffer of 512 bytes, more than any text has.

use super::field::Number;

pub struct Letters<'a> {
    pub out: &'a mut [u8; 512],
    pub at: usize,
}

impl Letters<'_> {
    #[inline(always)]
    pub fn put(&mut self, word: &[u8]) {
        self.out[self.at..self.at + word.len()].copy_from_slice(word);
        self.at += word.len();
    }

    pub fn put_number<N: Number>(&mut self, x: N) {
        let mut digits = [0u8; 10];
        let (mut x, mut from) = (x, 10);
        loop {
            from -= 1;
            let (rest, digit) = x.tenth();
            digits[from] = b'0' + digit;
            x = rest;
            if x == N::from(0) {
                break;
            }
        }
        self.put(&digits[from..]);
    }

    /// A word, a number and a line end.
    #[inline(always)]
    pub fn put_line<N: Number>(&mut self, word: &[u8], x: N) {
        self.put(word);
        self.put_number(x);
        self.put(b"\n");
    }
}
