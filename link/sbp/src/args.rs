//! What the words of the command line ask for.

use crate::find::Question;
use crate::help;
use std::ffi::OsString;
use std::path::PathBuf;

#[derive(Clone, Copy, Debug, PartialEq, Eq)]
pub enum Command {
    List,
    Json,
    Epochs,
}

#[derive(Debug, PartialEq, Eq)]
pub enum Source {
    Standard,
    File(PathBuf),
}

#[derive(Debug, PartialEq, Eq)]
pub enum Asked {
    Help(help::Pages),
    Version,
    Run(Command, Vec<Source>),
    /// One question, or those of standard input.
    Find(Source, Option<Question>),
}

/// What is asked for, or what is wrong with it.
pub fn parse(words: impl IntoIterator<Item = OsString>) -> Result<Asked, String> {
    let mut words = words.into_iter();
    let Some(first) = words.next() else {
        return Err("no command is given".into());
    };
    match first.to_str() {
        Some("--help" | "-h") => alone(Asked::Help(help::USAGE), words),
        Some("--version" | "-V") => alone(Asked::Version, words),
        Some("list") => files(Command::List, help::LIST, words),
        Some("json") => files(Command::Json, help::JSON, words),
        Some("epochs") => files(Command::Epochs, help::EPOCHS, words),
        Some("find") => find(words),
        _ => Err(format!(
            "no command is called '{}'",
            first.to_string_lossy()
        )),
    }
}

/// Nothing may follow.
fn alone(asked: Asked, mut words: impl Iterator<Item = OsString>) -> Result<Asked, String> {
    match words.next() {
        None => Ok(asked),
        Some(word) => Err(format!("'{}' is too much", word.to_string_lossy())),
    }
}

/// The words that are no options, or none where help is asked for.
fn operands(words: impl Iterator<Item = OsString>) -> Result<Option<Vec<OsString>>, String> {
    let mut operands = Vec::new();
    let mut options = true;
    for word in words {
        match word.to_str() {
            Some("--") if options => options = false,
            Some("--help" | "-h") if options => return Ok(None),
            Some("-") => operands.push(word),
            _ if options && word.as_encoded_bytes().starts_with(b"-") => {
                return Err(format!("there is no option '{}'", word.to_string_lossy()));
            }
            _ => operands.push(word),
        }
    }
    Ok(Some(operands))
}

fn source(word: &OsString) -> Source {
    match word.to_str() {
        Some("-") => Source::Standard,
        _ => Source::File(word.into()),
    }
}

fn files(
    command: Command,
    about: help::Pages,
    words: impl Iterator<Item = OsString>,
) -> Result<Asked, String> {
    let Some(names) = operands(words)? else {
        return Ok(Asked::Help(about));
    };
    let mut sources: Vec<Source> = names.iter().map(source).collect();
    if sources.is_empty() {
        sources.push(Source::Standard);
    }
    Ok(Asked::Run(command, sources))
}

fn find(words: impl Iterator<Item = OsString>) -> Result<Asked, String> {
    let Some(operands) = operands(words)? else {
        return Ok(Asked::Help(help::FIND));
    };
    let Some((file, question)) = operands.split_first() else {
        return Err("find needs a file".into());
    };
    let source = source(file);
    if question.is_empty() {
        return match source {
            Source::Standard => Err("standard input has the questions".into()),
            Source::File(_) => Ok(Asked::Find(source, None)),
        };
    }
    let words: Option<Vec<&str>> = question.iter().map(|word| word.to_str()).collect();
    let Some(asked) = words.and_then(|words| Question::of_words(&words)) else {
        let text = question.join(" ".as_ref());
        return Err(format!("'{}' is no question", text.to_string_lossy()));
    };
    Ok(Asked::Find(source, Some(asked)))
}

#[cfg(test)]
mod tests {
    use super::*;

    fn asked(line: &str) -> Result<Asked, String> {
        parse(line.split_whitespace().map(OsString::from))
    }

    fn file(name: &str) -> Source {
        Source::File(name.into())
    }

    #[test]
    fn no_file_is_standard_input() {
        let standard = || Ok(Asked::Run(Command::List, vec![Source::Standard]));
        assert_eq!(asked("list"), standard());
        assert_eq!(asked("list -"), standard());
        assert_eq!(asked("list --"), standard());
    }

    #[test]
    fn files_keep_their_order() {
        let three = vec![file("b"), Source::Standard, file("a")];
        assert_eq!(asked("json b - a"), Ok(Asked::Run(Command::Json, three)));
    }

    #[test]
    fn after_two_dashes_all_are_files() {
        let odd = vec![file("--help"), file("-x"), file("--")];
        let line = "epochs -- --help -x --";
        assert_eq!(asked(line), Ok(Asked::Run(Command::Epochs, odd)));
    }

    #[test]
    fn help_and_version() {
        assert_eq!(asked("--help"), Ok(Asked::Help(help::USAGE)));
        assert_eq!(asked("-V"), Ok(Asked::Version));
        assert_eq!(asked("json a --help"), Ok(Asked::Help(help::JSON)));
        assert_eq!(asked("find a OBS -h"), Ok(Asked::Help(help::FIND)));
    }

    #[test]
    fn one_question_or_those_of_standard_input() {
        assert_eq!(asked("find a"), Ok(Asked::Find(file("a"), None)));
        let count = Some(Question::Count { kind: 73 });
        assert_eq!(
            asked("find - OBS"),
            Ok(Asked::Find(Source::Standard, count))
        );
        let first = Some(Question::First {
            kind: 73,
            sender: 7,
            offset: 0,
        });
        assert_eq!(asked("find -- -a 73 7"), Ok(Asked::Find(file("-a"), first)));
    }

    #[test]
    fn wrong_use_says_what() {
        assert_eq!(asked(""), Err("no command is given".into()));
        assert_eq!(asked("lst a"), Err("no command is called 'lst'".into()));
        assert_eq!(
            asked("list --all"),
            Err("there is no option '--all'".into())
        );
        assert_eq!(asked("find"), Err("find needs a file".into()));
        let questions = "standard input has the questions";
        assert_eq!(asked("find -"), Err(questions.into()));
        assert_eq!(asked("find a OBS x"), Err("'OBS x' is no question".into()));
    }
}
