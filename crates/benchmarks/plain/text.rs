//! A text in the making.

use crate::listing::{digits, list_units};

pub struct Text(pub Vec<u8>);

impl Text {
    #[inline]
    pub fn put(&mut self, words: &str) {
        self.0.extend_from_slice(words.as_bytes());
    }

    pub fn end(&mut self) {
        self.0.push(b'\n');
    }

    pub fn spaces(&mut self, count: usize) {
        self.0.extend_from_slice(&[b' '; 32][..count.min(32)]);
    }

    pub fn number(&mut self, number: usize) {
        if number < 10 {
            return self.0.push(b'0' + number as u8);
        }
        let (mut room, mut at, mut left) = ([0; 20], 20, number);
        loop {
            at -= 1;
            room[at] = b'0' + (left % 10) as u8;
            left /= 10;
            if left == 0 {
                break;
            }
        }
        self.0.extend_from_slice(&room[at..]);
    }

    /// `1 byte`, `2 bytes`.
    pub fn count(&mut self, number: usize, noun: &str) {
        self.number(number);
        self.put(" ");
        self.put(noun);
        if number != 1 {
            self.put("s");
        }
    }

    pub fn hex(&mut self, bytes: &[u8]) {
        for byte in bytes {
            self.0.extend_from_slice(&digits(*byte));
        }
    }

    pub fn byte(&mut self, byte: u8) {
        let [high, low] = digits(byte);
        self.0.extend_from_slice(&[b'0', b'x', high, low]);
    }

    pub fn word(&mut self, word: u16) {
        self.put("0x");
        self.hex(&word.to_be_bytes());
    }

    /// A release: `2.10`.
    pub fn release(&mut self, number: u16) {
        let [high, low] = number.to_be_bytes();
        let [first, second] = digits(high);
        if first != b'0' {
            self.0.push(first);
        }
        self.0.push(second);
        self.put(".");
        self.hex(&[low]);
    }

    /// `0x0210 (2.10)`.
    pub fn coded_release(&mut self, number: u16) {
        self.word(number);
        self.put(" (");
        self.release(number);
        self.put(")");
    }

    pub fn quoted(&mut self, units: &[u16]) {
        self.put("\"");
        list_units(units, &mut self.0);
        self.put("\"");
    }

    /// A meaning in parentheses, if there is one.
    pub fn meaning(&mut self, meaning: Option<&str>) {
        if let Some(words) = meaning {
            self.put(" (");
            self.put(words);
            self.put(")");
        }
    }
}
