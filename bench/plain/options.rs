//! The words of the command line, and what they ask for.

use crate::labels::{self, Entry};
use crate::skip::Skip;

pub const READ_FAULT: &str = "19 ReadFault";
const BAD_OPTIONS: &str = "21 BadOptions";

#[derive(Clone, Copy)]
pub struct Options {
    pub threads: Option<usize>,
    pub atomic: bool,
    pub table: bool,
    pub all: bool,
}

/// The words after the name of the dump.
pub enum Words {
    /// Options, and the text of the list of fields, if it is given.
    Report(Options, Option<String>),
    /// The name of the file with the labels.
    Table(String),
}

/// What to print of the dump.
pub enum Task {
    /// The report, with these fields skipped.
    Report(Options, Skip),
    /// The table of labels.
    Table(Vec<Entry>),
}

/// The name of the dump, and the other words. None if the words are wrong.
pub fn arguments() -> Option<(String, Words)> {
    let mut words = std::env::args().skip(1);
    let file = words.next()?;
    let others: Vec<_> = words.collect();
    let words = match &others[..] {
        [option, labels] if option == "--labels" => Words::Table(labels.clone()),
        _ => report_words(others.into_iter())?,
    };
    Some((file, words))
}

fn report_words(mut words: impl Iterator<Item = String>) -> Option<Words> {
    let mut options = Options { threads: None, atomic: false, table: true, all: false };
    let mut skip = None;
    while let Some(word) = words.next() {
        if word == "--atomic" {
            options.atomic = true;
            continue;
        }
        match (word.as_str(), words.next()?.as_str()) {
            ("--threads", number) => {
                options.threads = Some(number.parse().ok().filter(|number| (1..=64).contains(number))?)
            }
            ("--references", "table") => options.table = true,
            ("--references", "bytes") => options.table = false,
            ("--count", "reachable") => options.all = false,
            ("--count", "all") => options.all = true,
            ("--skip", list) if skip.is_none() => skip = Some(list.to_owned()),
            _ => return None,
        }
    }
    Some(Words::Report(options, skip))
}

/// What `words` ask for, or the refusal of the list of fields or of the labels.
pub fn task_of(words: Words) -> Result<Task, &'static str> {
    match words {
        Words::Report(options, None) => Ok(Task::Report(options, Skip::default())),
        Words::Report(options, Some(list)) => Ok(Task::Report(options, Skip::new(&list).ok_or(BAD_OPTIONS)?)),
        Words::Table(name) => {
            let text = std::fs::read(name).map_err(|_| READ_FAULT)?;
            labels::entries(&text).map(Task::Table).ok_or(BAD_OPTIONS)
        }
    }
}
