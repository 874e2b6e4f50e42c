//! Text that a device sent, as a JSON string. A byte that is no UTF-8 becomes \udc80 .. \udcff (Python's surrogateescape), so that nothing is lost.

use crate::number::HEX;

pub fn push(text: &mut Vec<u8>, bytes: &[u8]) {
    text.push(b'"');
    for chunk in bytes.utf8_chunks() {
        for &byte in chunk.valid().as_bytes() {
            push_byte(text, byte);
        }
        for &byte in chunk.invalid() {
            push_escape(text, b"\\udc", byte);
        }
    }
    text.push(b'"');
}

/// A byte of a UTF-8 text, escaped where JSON has to have it so.
fn push_byte(text: &mut Vec<u8>, byte: u8) {
    match byte {
        b'"' | b'\\' => text.extend_from_slice(&[b'\\', byte]),
        b'\n' => text.extend_from_slice(b"\\n"),
        b'\r' => text.extend_from_slice(b"\\r"),
        b'\t' => text.extend_from_slice(b"\\t"),
        0..0x20 => push_escape(text, b"\\u00", byte),
        _ => text.push(byte),
    }
}

fn push_escape(text: &mut Vec<u8>, start: &[u8], byte: u8) {
    text.extend_from_slice(start);
    text.push(HEX[usize::from(byte >> 4)]);
    text.push(HEX[usize::from(byte & 15)]);
}

#[cfg(test)]
mod tests {
    use super::*;

    fn quoted(bytes: &[u8]) -> String {
        let mut text = Vec::new();
        push(&mut text, bytes);
        String::from_utf8(text).expect("all else is escaped")
    }

    #[test]
    fn plain_text_is_itself() {
        assert_eq!(quoted(b""), r#""""#);
        assert_eq!(
            quoted("Höhe 5 m \u{7f}\u{1f6f0}".as_bytes()),
            "\"Höhe 5 m \u{7f}\u{1f6f0}\""
        );
    }

    #[test]
    fn what_json_escapes() {
        assert_eq!(
            quoted(b"a\"b\\c\n\r\t\0\x1f"),
            r#""a\"b\\c\n\r\t\u0000\u001f""#
        );
    }

    #[test]
    fn bytes_that_are_no_utf8() {
        assert_eq!(quoted(b"a\xffb\x80"), r#""a\udcffb\udc80""#);
        assert_eq!(quoted(b"\xe2\x82"), r#""\udce2\udc82""#);
        assert_eq!(quoted(b"\xe2\x82A"), r#""\udce2\udc82A""#);
        // the three bytes of a surrogate are no UTF-8 either
        assert_eq!(quoted(b"\xed\xb2\x80"), r#""\udced\udcb2\udc80""#);
    }
}
