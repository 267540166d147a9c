//! A feed: read from a file or a pipe, as text or as records, and known by its lines afterwards.

use crate::stop::Stop;
use crate::text;
use doors::records::{Fields, RECORD};
use std::ffi::OsStr;
use std::fs;
use std::io::{self, Read};
use std::path::Path;

#[derive(Clone, Copy, PartialEq, Eq)]
pub enum Form {
    Text,
    Records,
}

impl Form {
    pub fn name(self) -> &'static str {
        match self {
            Form::Text => "text",
            Form::Records => "records",
        }
    }
}

/// The bytes of a feed, not read yet.
pub struct Input {
    name: String,
    bytes: Vec<u8>,
}

impl Input {
    /// From a file, or from standard input for none and for `-`.
    pub fn from(file: Option<&OsStr>) -> Result<Input, Stop> {
        let mut bytes = Vec::new();
        let (name, outcome) = match file {
            Some(file) if file != "-" => (
                Path::new(file).display().to_string(),
                fs::read(file).map(|read| bytes = read),
            ),
            _ => (
                "standard input".to_string(),
                io::stdin().read_to_end(&mut bytes).map(drop),
            ),
        };
        match outcome {
            Ok(()) => Ok(Input { name, bytes }),
            Err(fault) => Err(Stop::file(name, fault)),
        }
    }

    /// A record's action is a byte that no text has. An empty feed may be either.
    fn looks(&self) -> Option<Form> {
        let control = |&byte: &u8| byte < b' ' && !b"\t\n\r".contains(&byte);
        match self.bytes.iter().any(control) {
            _ if self.bytes.is_empty() => None,
            true => Some(Form::Records),
            false => Some(Form::Text),
        }
    }

    /// The feed, for a command that reads both forms; `told` is the form that the command line names.
    pub fn feed(self, told: Option<Form>) -> Result<Feed, Stop> {
        match told.or(self.looks()) {
            Some(Form::Text) => Feed::of_text(self),
            _ => Ok(Feed {
                name: self.name,
                records: self.bytes,
                lines: None,
            }),
        }
    }

    /// The feed, for a command that reads only one form.
    pub fn only(self, form: Form, told: Option<Form>) -> Result<Feed, Stop> {
        match self.looks() {
            Some(other) if other != form && told.is_none() => {
                let (looks, form) = (other.name(), form.name());
                Err(Stop::Unusable(format!(
                    "{}: looks like {looks}; --{form} reads it as {form} all the same",
                    self.name
                )))
            }
            _ => self.feed(Some(form)),
        }
    }
}

pub struct Feed {
    name: String,
    pub records: Vec<u8>,
    /// Where the feed was text: the text, and for each record the number of its line, from 1.
    lines: Option<(String, Vec<usize>)>,
}

impl Feed {
    fn of_text(input: Input) -> Result<Feed, Stop> {
        let decoded = String::from_utf8_lossy(&input.bytes);
        // Some editors put a byte order mark in front.
        let text = decoded.trim_start_matches('\u{feff}').to_string();
        let (mut records, mut numbers) = (Vec::new(), Vec::new());
        for (line, number) in text.lines().zip(1..) {
            let said = text::record(line).map_err(|expected| unreadable(&input.name, number, line, expected))?;
            if let Some(record) = said {
                records.extend(record.bytes());
                numbers.push(number);
            }
        }
        Ok(Feed {
            name: input.name,
            records,
            lines: Some((text, numbers)),
        })
    }

    pub fn count(&self) -> usize {
        self.records.len() / RECORD
    }

    /// Which record of this feed it is, and what it says.
    pub fn record(&self, place: usize) -> String {
        match &self.lines {
            Some((text, numbers)) => {
                let number = numbers[place];
                let line = text.lines().nth(number - 1).unwrap_or_default();
                format!(
                    "record {place} (counted from 0), line {number} of {}: {}",
                    self.name,
                    printable(line)
                )
            }
            None => {
                let record = text::line(Fields::of(self.records.as_chunks::<RECORD>().0[place]));
                format!("record {place} (counted from 0) of {}: {record}", self.name)
            }
        }
    }

    /// The feed as a whole.
    pub fn whole(&self) -> String {
        format!("{}: {} bytes of records", self.name, self.records.len())
    }
}

fn unreadable(name: &str, number: usize, line: &str, expected: &str) -> Stop {
    let line = printable(line);
    Stop::Unusable(format!(
        "line {number} of {name} cannot be read: {line}\n  expected {expected}"
    ))
}

/// A line for a person's terminal: not without end, and without bytes that a terminal would obey.
fn printable(line: &str) -> String {
    const SHOWN: usize = 100;
    let shown = line
        .trim()
        .chars()
        .map(|c| if c.is_control() && c != '\t' { '\u{fffd}' } else { c });
    let mut words: String = shown.take(SHOWN).collect();
    if line.trim().chars().count() > SHOWN {
        words.push_str(" ...");
    }
    words
}
