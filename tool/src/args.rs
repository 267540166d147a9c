//! The command line behind the command's name.

use crate::feed::Form;
use crate::manual::{Choice, Command};
use crate::stop::Stop;
use std::ffi::{OsStr, OsString};

/// Far above what a ledger may have: which counts are refused is for the library to say.
const MOST_SLOTS: usize = 1 << 24;

#[derive(Default)]
pub struct Arguments {
    pub form: Option<Form>,
    pub to: Option<Form>,
    pub slots: Option<usize>,
    pub table: bool,
    pub quiet: bool,
    pub output: Option<OsString>,
    pub help: bool,
    pub operands: Vec<OsString>,
}

impl Arguments {
    pub fn read(command: &Command, words: impl IntoIterator<Item = OsString>) -> Result<Arguments, Stop> {
        let mut arguments = Arguments::default();
        let mut words = words.into_iter();
        while let Some(word) = words.next() {
            match word.to_str() {
                Some("--") => arguments.operands.extend(words.by_ref()),
                Some(option) if option.starts_with('-') && option != "-" => {
                    let (name, joined) = match option.split_once('=') {
                        Some((name, value)) => (name, Some(OsString::from(value))),
                        None => (option, None),
                    };
                    let choice = chosen(command, name)?;
                    match (choice.value, joined) {
                        (None, Some(_)) => return Err(Stop::usage(format!("{name} takes no value"))),
                        (None, None) => arguments.switch(choice.name),
                        (Some(value), joined) => {
                            let given = joined.or_else(|| words.next());
                            let given = given.ok_or_else(|| Stop::usage(format!("{name} wants {value} behind it")))?;
                            arguments.set(choice.name, given)?;
                        }
                    }
                }
                _ => arguments.operands.push(word),
            }
        }
        Ok(arguments)
    }

    fn switch(&mut self, name: &str) {
        match name {
            "--text" => self.form = Some(Form::Text),
            "--records" => self.form = Some(Form::Records),
            "--table" => self.table = true,
            "--quiet" => self.quiet = true,
            "--help" => self.help = true,
            _ => unreachable!("the manual has a switch {name} that nothing reads"),
        }
    }

    fn set(&mut self, name: &str, value: OsString) -> Result<(), Stop> {
        match name {
            "--to" => self.to = Some(form(&value)?),
            "--slots" => self.slots = Some(slots(&value)?),
            "--output" => self.output = Some(value),
            _ => unreachable!("the manual has an option {name} that nothing reads"),
        }
        Ok(())
    }

    /// The feed, where it is the only operand.
    pub fn file(&self) -> Result<Option<&OsStr>, Stop> {
        match &self.operands[..] {
            [] => Ok(None),
            [file] => Ok(Some(file)),
            [_, more, ..] => Err(Stop::usage(format!(
                "one feed at a time: {} is too many",
                more.display()
            ))),
        }
    }
}

fn chosen(command: &Command, name: &str) -> Result<&'static Choice, Stop> {
    Choice::named(name)
        .filter(|choice| choice.name == "--help" || command.options.contains(&choice.name))
        .ok_or_else(|| Stop::usage(format!("{} has no option {name}", command.name)))
}

fn form(value: &OsStr) -> Result<Form, Stop> {
    [Form::Text, Form::Records]
        .into_iter()
        .find(|form| value == form.name())
        .ok_or_else(|| Stop::usage(format!("--to wants `text` or `records`, not {}", value.display())))
}

fn slots(value: &OsStr) -> Result<usize, Stop> {
    let number = value.to_str().and_then(|digits| digits.parse().ok());
    number.filter(|&slots| slots <= MOST_SLOTS).ok_or_else(|| {
        Stop::usage(format!(
            "--slots wants a number from 0 to {MOST_SLOTS}, not {}",
            value.display()
        ))
    })
}
