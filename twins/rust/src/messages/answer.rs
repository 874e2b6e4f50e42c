//! A payload's answer: 0 when it reads, else 21, 22 or 23.

use super::Message;
use crate::numbers::No;

pub fn answer(msg_type: u16, payload: &[u8]) -> No {
    match Message::read(msg_type, payload) {
        Ok(_) => 0,
        Err(no) => no,
    }
}
