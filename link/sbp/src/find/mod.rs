//! `sbp find`: questions answered by an index of a file, which may grow between them.

mod question;

pub use question::Question;

use crate::args::Source;
use crate::input::{self, Window};
use crate::number;
use crate::output::Output;
use std::fs::File;
use std::io::{self, BufRead, Read, Seek, SeekFrom};
use yaqtumeer::{Entry, Index, Refusal};

/// With its end. A longer one is no question, and is not kept.
const LONGEST_LINE: u64 = 4096;

/// Why no further question is answered.
#[derive(Debug)]
pub enum Stop {
    Capture(io::Error),
    Questions(io::Error),
    /// With the status where nobody reads any more.
    Write(io::Error, u8),
}

#[derive(Clone, Copy, Debug, PartialEq, Eq)]
enum Answer {
    First(Entry),
    NoFrame,
    Count(u64),
    Refused(Refusal),
    NoQuestion,
}

impl Answer {
    fn push(self, text: &mut Vec<u8>) {
        match self {
            Answer::First(e) => {
                let numbers = [e.offset, e.kind.into(), e.sender.into(), e.length.into()];
                number::push_line(text, b'F', &numbers);
            }
            Answer::NoFrame => number::push_line(text, b'N', &[]),
            Answer::Count(count) => number::push_line(text, b'C', &[count]),
            Answer::Refused(refusal) => number::push_line(text, b'R', &[refusal.number().into()]),
            Answer::NoQuestion => number::push_line(text, b'?', &[]),
        }
    }

    /// As grep has it: 0 where there is a frame, 1 where there is none, 2 for trouble.
    fn status(self) -> u8 {
        match self {
            Answer::First(_) => 0,
            Answer::NoFrame => 1,
            Answer::Count(count) => u8::from(count == 0),
            Answer::Refused(_) | Answer::NoQuestion => 2,
        }
    }
}

/// A capture and its index. Bytes that are read are not kept.
struct Capture {
    file: File,
    /// A file may; a pipe or a device has come to its end, and what another writer may put there is not waited for.
    grows: bool,
    window: Window,
    index: Index,
}

impl Capture {
    /// Opened, and indexed as far as it goes.
    fn open(source: &Source, out: &mut Output) -> io::Result<Capture> {
        let file = input::opened(source)?;
        let about = file.metadata()?;
        let mut capture = Capture {
            file,
            grows: about.is_file(),
            window: Window::new(input::WINDOW),
            index: Index::new(),
        };
        out.progress.begin(about.len());
        let read = capture.read_on(|position| out.progress.draw(position));
        out.progress.wipe();
        // An index of nothing has reached no position that a capture could be shorter than.
        read.map(|_| capture)
    }

    /// Reads what was appended; the library refuses a capture that has become too short.
    fn read_appended(&mut self) -> io::Result<Result<(), Refusal>> {
        if !self.grows {
            return Ok(Ok(()));
        }
        // What stands after the position reached may have been cut and written anew.
        let length = self.file.metadata()?.len();
        let start = SeekFrom::Start(self.index.reached().min(length));
        self.window.move_to(self.file.seek(start)?);
        self.read_on(|_| ())
    }

    /// Reads to the end, and tells of the position now and then.
    fn read_on(&mut self, mut tell: impl FnMut(u64)) -> io::Result<Result<(), Refusal>> {
        loop {
            let more = self.window.refill(&mut self.file)?;
            let extended = self
                .index
                .extend_after(self.window.offset, self.window.at_hand());
            if extended.is_err() || more == 0 {
                return Ok(extended);
            }
            tell(self.index.reached());
            let read = self.index.reached() - self.window.offset;
            self.window.forget(read as usize);
        }
    }

    fn answer(&self, question: Question) -> Answer {
        match question {
            Question::Count { kind } => self
                .index
                .count(kind)
                .map_or_else(Answer::Refused, Answer::Count),
            Question::First {
                kind,
                sender,
                offset,
            } => {
                let first = self.index.first(kind, sender, offset);
                first.map_or(Answer::NoFrame, Answer::First)
            }
        }
    }

    fn answer_line(&mut self, line: &[u8]) -> io::Result<Answer> {
        let Some(question) = Question::of_line(line) else {
            return Ok(Answer::NoQuestion);
        };
        let read = self.read_appended()?;
        Ok(read.map_or_else(Answer::Refused, |()| self.answer(question)))
    }
}

/// Answers one question, and says the status.
pub fn once(source: &Source, question: Question, out: &mut Output) -> Result<u8, Stop> {
    let answer = Capture::open(source, out)
        .map_err(Stop::Capture)?
        .answer(question);
    answer.push(&mut out.text);
    let written = out.flush();
    written.map_err(|failed| Stop::Write(failed, answer.status()))?;
    Ok(answer.status())
}

/// A line, or nothing in place of one that is too long for a question; false where none is left.
fn next_line(questions: &mut impl BufRead, line: &mut Vec<u8>) -> io::Result<bool> {
    line.clear();
    let read = questions.take(LONGEST_LINE).read_until(b'\n', line)?;
    if read as u64 == LONGEST_LINE && !line.ends_with(b"\n") {
        questions.skip_until(b'\n')?;
        line.clear();
    }
    Ok(read != 0)
}

/// Answers each line, and writes the answer before the next one is read.
pub fn lines(source: &Source, mut questions: impl BufRead, out: &mut Output) -> Result<(), Stop> {
    let mut capture = Capture::open(source, out).map_err(Stop::Capture)?;
    let mut line = Vec::new();
    while next_line(&mut questions, &mut line).map_err(Stop::Questions)? {
        let answer = capture.answer_line(&line).map_err(Stop::Capture)?;
        answer.push(&mut out.text);
        out.flush().map_err(|failed| Stop::Write(failed, 0))?;
    }
    Ok(())
}

#[cfg(test)]
mod tests {
    use super::*;

    #[test]
    fn lines_up_to_the_longest() {
        let longest = LONGEST_LINE as usize;
        for (length, kept) in [
            (0, true),
            (longest - 1, true),
            (longest, false),
            (9 * longest, false),
        ] {
            let mut questions = &[&vec![b' '; length][..], b"\n73"].concat()[..];
            let mut line = Vec::new();
            assert!(next_line(&mut questions, &mut line).expect("it is read"));
            assert_eq!(line.len(), if kept { length + 1 } else { 0 });
            assert!(next_line(&mut questions, &mut line).expect("it is read"));
            assert_eq!(line, b"73");
            assert!(!next_line(&mut questions, &mut line).expect("it is read"));
        }
    }
}
