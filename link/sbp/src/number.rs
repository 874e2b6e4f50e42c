//! Numbers as text.

use std::io::Write;

pub const HEX: &[u8; 16] = b"0123456789abcdef";

/// In decimal. Most of a listing is numbers, and this is several times as fast as `write!`.
pub fn push(text: &mut Vec<u8>, number: impl Into<u64>) {
    let mut left = number.into();
    let mut digits = [0; 20];
    let mut at = digits.len();
    loop {
        at -= 1;
        digits[at] = b'0' + (left % 10) as u8;
        left /= 10;
        if left == 0 {
            break;
        }
    }
    text.extend_from_slice(&digits[at..]);
}

/// A line: a letter, and numbers after it.
pub fn push_line(text: &mut Vec<u8>, letter: u8, numbers: &[u64]) {
    text.push(letter);
    for &number in numbers {
        text.push(b' ');
        push(text, number);
    }
    text.push(b'\n');
}

pub fn push_signed(text: &mut Vec<u8>, number: impl Into<i64>) {
    let number = number.into();
    if number < 0 {
        text.push(b'-');
    }
    push(text, number.unsigned_abs());
}

/// A JSON value that comes back to the bit: the shortest decimal number that does, and for what has none (NaN patterns, infinities) the pattern
/// in hexadecimal, as a string.
pub fn push_double(text: &mut Vec<u8>, number: f64) {
    // Debug always has a point or an exponent, so that minus zero and whole numbers stay doubles for a reader. Writing to a Vec cannot fail.
    let _ = if number.is_finite() {
        write!(text, "{number:?}")
    } else {
        write!(text, "\"{:#018x}\"", number.to_bits())
    };
}

#[cfg(test)]
mod tests {
    use super::*;

    fn text(put: impl FnOnce(&mut Vec<u8>)) -> String {
        let mut text = Vec::new();
        put(&mut text);
        String::from_utf8(text).expect("it is ASCII")
    }

    #[test]
    fn whole_numbers() {
        for n in [0, 9, 10, 99, 100, 65535, 4294967295, u64::MAX] {
            assert_eq!(text(|t| push(t, n)), n.to_string());
        }
        for n in [0, -1, -10, i64::from(i32::MIN), i64::MAX, i64::MIN] {
            assert_eq!(text(|t| push_signed(t, n)), n.to_string());
        }
    }

    #[test]
    fn finite_doubles_as_json_has_them() {
        let pairs = [
            (0.0, "0.0"),
            (-0.0, "-0.0"),
            (37.7749, "37.7749"),
            (0.1 + 0.2, "0.30000000000000004"),
            (1e300, "1e300"),
            (-1.5e-300, "-1.5e-300"),
            (f64::MAX, "1.7976931348623157e308"),
            (f64::from_bits(1), "5e-324"),
        ];
        for (number, wanted) in pairs {
            assert_eq!(text(|t| push_double(t, number)), wanted);
        }
    }

    #[test]
    fn finite_doubles_come_back_to_the_bit() {
        // a walk over patterns of every exponent
        for bits in (0..2046u64).map(|e| e << 52 | e.wrapping_mul(0x9e37_79b9_7f4a_7c15) >> 12) {
            let number = f64::from_bits(bits | (bits & 1) << 63);
            let back: f64 = text(|t| push_double(t, number)).parse().expect("a number");
            assert_eq!(back.to_bits(), number.to_bits());
        }
    }

    #[test]
    fn patterns_without_a_number() {
        let patterns = [
            0x7ff0000000000000,
            0xfff0000000000000,
            0x7ff8000000000001,
            0x7ff0000000000001,
            0xffffffffffffffff,
        ];
        for bits in patterns {
            let wanted = format!("\"0x{bits:016x}\"");
            assert_eq!(text(|t| push_double(t, f64::from_bits(bits))), wanted);
        }
    }
}
