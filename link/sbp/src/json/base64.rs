//! Bytes in base64, padded (RFC 4648, section 4).

const DIGITS: &[u8; 64] = b"ABCDEFGHIJKLMNOPQRSTUVWXYZabcdefghijklmnopqrstuvwxyz0123456789+/";

pub fn push(text: &mut Vec<u8>, bytes: &[u8]) {
    let whole = bytes.chunks_exact(3);
    let rest = whole.remainder();
    for three in whole {
        text.extend_from_slice(&digits([three[0], three[1], three[2]]));
    }
    if !rest.is_empty() {
        let mut three = [0; 3];
        three[..rest.len()].copy_from_slice(rest);
        let mut four = digits(three);
        four[rest.len() + 1..].fill(b'=');
        text.extend_from_slice(&four);
    }
}

fn digits([a, b, c]: [u8; 3]) -> [u8; 4] {
    let bits = u32::from_be_bytes([0, a, b, c]);
    [18, 12, 6, 0].map(|shift| DIGITS[(bits >> shift & 63) as usize])
}

#[cfg(test)]
mod tests {
    use super::*;

    fn encoded(bytes: &[u8]) -> String {
        let mut text = Vec::new();
        push(&mut text, bytes);
        String::from_utf8(text).expect("it is ASCII")
    }

    /// RFC 4648, section 10.
    #[test]
    fn published_examples() {
        let pairs = [
            ("", ""),
            ("f", "Zg=="),
            ("fo", "Zm8="),
            ("foo", "Zm9v"),
            ("foob", "Zm9vYg=="),
            ("fooba", "Zm9vYmE="),
            ("foobar", "Zm9vYmFy"),
        ];
        for (plain, wanted) in pairs {
            assert_eq!(encoded(plain.as_bytes()), wanted);
        }
    }

    #[test]
    fn the_last_digits() {
        assert_eq!(encoded(&[0xff, 0xef, 0xbe]), "/+++");
        assert_eq!(encoded(&[0xff]), "/w==");
    }
}
