//! A line of decimal numbers, built in a small array.

/// 'E', and five numbers of at most 10 digits with a space each, and '\n'.
const LONGEST: usize = 1 + 5 * 11 + 1;

pub(super) struct Line {
    text: [u8; LONGEST],
    length: usize,
}

impl Line {
    #[inline]
    pub fn new(letter: u8) -> Line {
        let mut text = [b' '; LONGEST];
        text[0] = letter;
        Line { text, length: 1 }
    }

    /// A space, then the number.
    #[inline]
    pub fn number(mut self, mut value: u32) -> Line {
        let digits = digit_count(value);
        let start = self.length + 1;
        for digit in self.text[start..start + digits].iter_mut().rev() {
            *digit = b'0' + (value % 10) as u8;
            value /= 10;
        }
        self.length = start + digits;
        self
    }

    #[inline]
    pub fn end(mut self, out: &mut Vec<u8>) {
        self.text[self.length] = b'\n';
        out.extend_from_slice(&self.text[..self.length + 1]);
    }
}

#[inline]
fn digit_count(value: u32) -> usize {
    match value {
        0..=9 => 1,
        10..=99 => 2,
        100..=999 => 3,
        1_000..=9_999 => 4,
        10_000..=99_999 => 5,
        100_000..=999_999 => 6,
        1_000_000..=9_999_999 => 7,
        10_000_000..=99_999_999 => 8,
        100_000_000..=999_999_999 => 9,
        _ => 10,
    }
}
