//! Questions in words.

use crate::json::message_name;
use yaqtumeer::Message;

#[derive(Clone, Copy, Debug, PartialEq, Eq)]
pub enum Question {
    /// How many frames of a type there are.
    Count { kind: u16 },
    /// Where the first frame of a type and sender is, at an offset or after it.
    First { kind: u16, sender: u16, offset: u64 },
}

impl Question {
    /// `TYPE`, `TYPE SENDER` (from the start on) or `TYPE SENDER OFFSET`.
    pub fn of_words(words: &[&str]) -> Option<Question> {
        match *words {
            [kind] => type_number(kind).map(|kind| Question::Count { kind }),
            [kind, sender] => Question::first(kind, sender, "0"),
            [kind, sender, offset] => Question::first(kind, sender, offset),
            _ => None,
        }
    }

    /// A line has all three words or the first alone.
    pub fn of_line(line: &[u8]) -> Option<Question> {
        let line = std::str::from_utf8(line).ok()?;
        let words: Vec<&str> = line.split_ascii_whitespace().collect();
        Question::of_words(&words).filter(|_| words.len() != 2)
    }

    fn first(kind: &str, sender: &str, offset: &str) -> Option<Question> {
        Some(Question::First {
            kind: type_number(kind)?,
            sender: number(sender)?.try_into().ok()?,
            offset: number(offset)?,
        })
    }
}

/// By a message's name, with or without MSG_, or as a number.
fn type_number(word: &str) -> Option<u16> {
    let named = |&kind: &u16| {
        message_name(kind).is_some_and(|name| [name, &name["MSG_".len()..]].contains(&word))
    };
    let kind = Message::KINDS.into_iter().find(named);
    kind.or_else(|| number(word)?.try_into().ok())
}

/// In decimal, or in hexadecimal after 0x; without a sign.
fn number(word: &str) -> Option<u64> {
    let (digits, radix) = match word.strip_prefix("0x") {
        Some(digits) => (digits, 16),
        None => (word, 10),
    };
    let all_digits = digits.chars().all(|one| one.is_digit(radix));
    u64::from_str_radix(digits, radix)
        .ok()
        .filter(|_| all_digits)
}

#[cfg(test)]
mod tests {
    use super::*;

    fn first(kind: u16, sender: u16, offset: u64) -> Option<Question> {
        Some(Question::First {
            kind,
            sender,
            offset,
        })
    }

    #[test]
    fn types_by_number_and_by_name() {
        let count = |kind| Some(Question::Count { kind });
        for word in ["513", "0x201", "0x0201", "POS_LLH", "MSG_POS_LLH"] {
            assert_eq!(Question::of_line(word.as_bytes()), count(0x0201));
        }
        assert_eq!(Question::of_words(&["0xFFff"]), count(0xffff));
        assert_eq!(Question::of_words(&["00073"]), count(73));
        for kind in Message::KINDS {
            let name = message_name(kind).expect("it has a reading");
            assert_eq!(Question::of_words(&[name]), count(kind));
        }
    }

    #[test]
    fn three_words() {
        let last = b" HEARTBEAT\t65535  0xffffffffffffffff\r\n";
        assert_eq!(Question::of_line(last), first(0xffff, 65535, u64::MAX));
        assert_eq!(
            Question::of_line(b"73 0 18446744073709551615"),
            first(73, 0, u64::MAX)
        );
    }

    #[test]
    fn the_offset_may_be_left_out_on_the_command_line_alone() {
        assert_eq!(Question::of_words(&["OBS", "7"]), first(73, 7, 0));
        assert_eq!(Question::of_line(b"OBS 7"), None);
    }

    #[test]
    fn all_else_is_no_question() {
        let lines = "|  |65536|-1|+1|1.5|0x|0x10000|x|0X10|0x+1|1_0|pos_llh|MSG_|MSG_MSG_OBS|MSG_73|UNKNOWN|1 2|1 2 3 4\
            |1 65536 0|1 0 18446744073709551616|1 0 0x10000000000000000|1 0 -1|1 OBS 0|1,2,3|\u{663}";
        for line in lines.split('|') {
            assert_eq!(Question::of_line(line.as_bytes()), None, "{line:?}");
        }
        assert_eq!(Question::of_line(b"73\xff"), None);
        assert_eq!(Question::of_line(b"73\0"), None);
        assert_eq!(Question::of_words(&["73 0 0"]), None);
        assert_eq!(Question::of_words(&[]), None);
    }
}
