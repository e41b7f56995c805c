//! Numbers up to 255, as bits.

#[derive(Clone, Copy, Default)]
pub struct Numbers([u64; 4]);

impl Numbers {
    /// Adds a number, and answers whether it was new.
    pub fn add(&mut self, number: u8) -> bool {
        let (word, bit) = (usize::from(number / 64), 1 << (number % 64));
        let is_new = self.0[word] & bit == 0;
        self.0[word] |= bit;
        is_new
    }

    pub fn has(&self, number: u8) -> bool {
        self.0[usize::from(number / 64)] >> (number % 64) & 1 == 1
    }

    pub fn remove(&mut self, number: u8) {
        self.0[usize::from(number / 64)] &= !(1 << (number % 64));
    }

    pub fn count(&self) -> usize {
        self.0.iter().map(|word| word.count_ones() as usize).sum()
    }

    /// The least number from this one on that isn't there, or 256.
    pub fn next_absent(&self, first: u8) -> usize {
        let mut at = usize::from(first);
        while at < 256 {
            let absent = !self.0[at / 64] >> (at % 64);
            if absent != 0 {
                return at + absent.trailing_zeros() as usize;
            }
            at = (at / 64 + 1) * 64;
        }
        256
    }

    /// The numbers, ascending.
    pub fn to_vec(self) -> Vec<u8> {
        let mut numbers = Vec::with_capacity(self.count());
        for (place, word) in self.0.iter().enumerate() {
            let mut left = *word;
            while left != 0 {
                numbers.push((64 * place) as u8 + left.trailing_zeros() as u8);
                left &= left - 1;
            }
        }
        numbers
    }
}
