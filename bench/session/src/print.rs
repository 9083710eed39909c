//! A report's line (compare/README.md), written over a vector that is kept: no allocation for a field, as none on the session's side.
use std::io::Write;

pub(crate) struct Line<'a>(pub &'a mut Vec<u8>);

impl Line<'_> {
    fn blank(&mut self) {
        if self.0.last() != Some(&b'(') {
            self.0.push(b' ');
        }
    }

    pub(crate) fn word(&mut self, word: &str) {
        self.blank();
        self.0.extend_from_slice(word.as_bytes());
    }

    pub(crate) fn count(&mut self, count: usize) {
        self.blank();
        let mut digits = [0u8; 20];
        let (mut at, mut left) = (20, count);
        loop {
            at -= 1;
            digits[at] = b'0' + (left % 10) as u8;
            left /= 10;
            if left == 0 {
                break;
            }
        }
        self.0.extend_from_slice(&digits[at..]);
    }

    /// The 16 hexadecimal digits of a double; every not-a-number has the same.
    pub(crate) fn double(&mut self, value: f64) {
        self.blank();
        let bits = if value.is_nan() { 0x7ff8_0000_0000_0000 } else { value.to_bits() };
        let mut digits = [0u8; 16];
        for (i, digit) in digits.iter_mut().enumerate() {
            *digit = b"0123456789abcdef"[(bits >> (60 - 4 * i)) as usize & 15];
        }
        self.0.extend_from_slice(&digits);
    }

    pub(crate) fn optional(&mut self, value: Option<f64>) {
        match value {
            Some(value) => self.double(value),
            None => self.word("none"),
        }
    }

    /// A code is its name in the source, which is what `Debug` derives.
    pub(crate) fn code(&mut self, code: impl std::fmt::Debug) {
        self.blank();
        write!(self.0, "{code:?}").expect("memory");
    }

    /// A record or list in brackets.
    pub(crate) fn group(&mut self, inside: impl FnOnce(&mut Self)) {
        self.blank();
        self.0.push(b'(');
        inside(self);
        self.0.push(b')');
    }

    /// A record that may be absent.
    pub(crate) fn present<T>(&mut self, value: Option<T>, inside: impl FnOnce(&mut Self, T)) {
        match value {
            Some(value) => self.group(|line| inside(line, value)),
            None => self.word("none"),
        }
    }
}
