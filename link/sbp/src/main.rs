//! `sbp`: captures of any length, by the proved library. What a frame, an answer, a field or an epoch is, the library says.

mod args;
mod epochs;
mod find;
mod help;
mod input;
mod json;
mod list;
mod number;
mod output;
mod progress;

use args::{Asked, Command, Source};
use find::Question;
use input::{Reader, Stop};
use output::Output;
use std::io::{self, ErrorKind, Write};
use std::process::ExitCode;

const TROUBLE: u8 = 1;
const WRONG_USE: u8 = 2;
/// As grep has it: 1 is for what is not found.
const FIND_TROUBLE: u8 = 2;

fn main() -> ExitCode {
    let status = match args::parse(std::env::args_os().skip(1)) {
        Ok(Asked::Help(pages)) => print(&pages.concat()),
        Ok(Asked::Version) => print(&help::version()),
        Ok(Asked::Run(command, sources)) => run(command, &sources),
        Ok(Asked::Find(source, question)) => find(&source, question),
        Err(wrong) => {
            say(&format!("{wrong}; see sbp --help"));
            WRONG_USE
        }
    };
    ExitCode::from(status)
}

fn run(command: Command, sources: &[Source]) -> u8 {
    // the line above a table where there are several
    let title = |source: &Source| (sources.len() > 1).then(|| name_bytes(source));
    match command {
        Command::List => read(sources, |_| list::List::new()),
        Command::Json => read(sources, |_| json::Json),
        Command::Epochs => read(sources, |source| epochs::Epochs::titled(title(source))),
    }
}

/// Each source as a capture of its own, with a reader of its own.
fn read<R: Reader>(sources: &[Source], reader: impl Fn(&Source) -> R) -> u8 {
    let mut out = Output::new();
    let mut status = 0;
    for source in sources {
        match input::read_source(source, &mut reader(source), &mut out) {
            Ok(()) => {}
            Err(Stop::Read(failed)) => {
                complain(&name(source), &failed);
                status = TROUBLE;
            }
            Err(Stop::Write(failed)) => return status.max(unwritten(&failed)),
        }
    }
    status
}

fn find(source: &Source, question: Option<Question>) -> u8 {
    let mut out = Output::new();
    let asked = match question {
        Some(question) => find::once(source, question, &mut out),
        None => find::lines(source, io::stdin().lock(), &mut out).map(|()| 0),
    };
    match asked {
        Ok(status) => return status,
        Err(find::Stop::Write(failed, status)) => {
            if unwritten(&failed) == 0 {
                return status;
            }
        }
        Err(find::Stop::Capture(failed)) => complain(&name(source), &failed),
        Err(find::Stop::Questions(failed)) => complain(&name(&Source::Standard), &failed),
    }
    FIND_TROUBLE
}

fn print(text: &str) -> u8 {
    let mut out = Output::new();
    out.text.extend_from_slice(text.as_bytes());
    out.flush().map_or_else(|failed| unwritten(&failed), |()| 0)
}

/// A pipe that its reader has closed wants no more, and that is all.
fn unwritten(failed: &io::Error) -> u8 {
    if failed.kind() == ErrorKind::BrokenPipe {
        return 0;
    }
    complain("standard output", failed);
    TROUBLE
}

fn name(source: &Source) -> String {
    String::from_utf8_lossy(&name_bytes(source)).into_owned()
}

/// A file's name as it is, which need not be UTF-8.
fn name_bytes(source: &Source) -> Vec<u8> {
    match source {
        Source::Standard => b"standard input".to_vec(),
        Source::File(path) => path.as_os_str().as_encoded_bytes().to_vec(),
    }
}

fn complain(about: &str, failed: &io::Error) {
    let text = failed.to_string();
    // what follows is the system's number of it
    let plain = text.split(" (os error").next().unwrap_or_default();
    say(&format!("{about}: {plain}"));
}

/// Where standard error takes nothing there is nobody to tell.
fn say(text: &str) {
    let _ = writeln!(io::stderr(), "sbp: {text}");
}
