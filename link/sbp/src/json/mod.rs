//! `sbp json`: an object a line for each frame.

mod base64;
mod fields;
mod text;

pub use fields::name as message_name;

use crate::input::{Reader, Totals};
use crate::number;
use yaqtumeer::Frame;

const PREAMBLE: u8 = 0x55;

pub struct Json;

impl Reader for Json {
    fn frame(&mut self, at: u64, frame: &Frame, text: &mut Vec<u8>) {
        let message = frame.message();
        let answer = message.as_ref().map_or_else(|r| r.number(), |_| 0);
        let name = fields::name(frame.kind).unwrap_or("UNKNOWN");
        text.extend_from_slice(b"{\"offset\":");
        number::push(text, at);
        push_number(text, "answer", answer);
        push_number(text, "preamble", PREAMBLE);
        push_number(text, "msg_type", frame.kind);
        push_quoted(text, "msg_name", |t| t.extend_from_slice(name.as_bytes()));
        push_number(text, "sender", frame.sender);
        push_number(text, "length", frame.payload.len() as u64);
        push_quoted(text, "payload", |t| base64::push(t, frame.payload));
        push_number(text, "crc", frame.crc);
        if let Ok(message) = message {
            fields::push(text, &message);
        }
        text.extend_from_slice(b"}\n");
    }

    fn end(&mut self, _totals: Option<&Totals>, _text: &mut Vec<u8>) {}
}

/// A key that is not its object's first.
fn push_key(text: &mut Vec<u8>, key: &str) {
    text.extend_from_slice(b",\"");
    text.extend_from_slice(key.as_bytes());
    text.extend_from_slice(b"\":");
}

/// A string that has nothing to escape.
fn push_quoted(text: &mut Vec<u8>, key: &str, push: impl FnOnce(&mut Vec<u8>)) {
    push_key(text, key);
    text.push(b'"');
    push(text);
    text.push(b'"');
}

fn push_number(text: &mut Vec<u8>, key: &str, value: impl Into<u64>) {
    push_key(text, key);
    number::push(text, value);
}
