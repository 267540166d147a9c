//! What both programs share: their options and how they end.

use crate::ours::{Fault, Ours};
use crate::verdict::{Check, Verdict};
use std::env;
use std::process::ExitCode;

pub struct Program {
    pub name: &'static str,
    pub checks: &'static [Check],
    /// The faults that this program has to find.
    pub faults: &'static [Fault],
    /// How many rounds are tried where the command line does not say.
    pub rounds: u64,
    /// Tries it all, and says in a few words what was tried.
    pub body: fn(&Options, &mut Verdict) -> String,
}

pub struct Options {
    pub seed: u64,
    pub rounds: u64,
    pub ours: Ours,
}

enum Task {
    Try(Options),
    Print(Vec<&'static str>),
}

impl Program {
    /// Ends with 0 if every check held, with 1 if one failed, and with 2 if the command line is wrong.
    pub fn main(&self) -> ExitCode {
        match self.task(env::args().skip(1)) {
            Ok(Task::Try(options)) => self.run(&options),
            Ok(Task::Print(names)) => {
                names.iter().for_each(|name| println!("{name}"));
                ExitCode::SUCCESS
            }
            Err(fault) => {
                let name = self.name;
                eprintln!(
                    "{name}: {fault}\nusage: {name} [--seed N] [--rounds N] [--plant FAULT] | --faults | --checks"
                );
                ExitCode::from(2)
            }
        }
    }

    fn run(&self, options: &Options) -> ExitCode {
        let mut verdict = Verdict::new(self.checks);
        let tried = (self.body)(options, &mut verdict);
        let failures = verdict.failures();
        for failure in &failures {
            eprintln!("{failure}");
        }
        if failures.is_empty() {
            println!("{}: seed {}: {tried}", self.name, options.seed);
            ExitCode::SUCCESS
        } else {
            eprintln!(
                "{}: seed {}: {} of {} checks failed",
                self.name,
                options.seed,
                failures.len(),
                self.checks.len()
            );
            ExitCode::FAILURE
        }
    }

    fn task(&self, mut arguments: impl Iterator<Item = String>) -> Result<Task, String> {
        let mut options = Options { seed: 1, rounds: self.rounds, ours: Ours::default() };
        while let Some(argument) = arguments.next() {
            let mut value = || arguments.next().ok_or(format!("{argument} wants a value"));
            match argument.as_str() {
                "--seed" => options.seed = number(&value()?)?,
                "--rounds" => options.rounds = number(&value()?)?,
                "--plant" => options.ours = Ours { fault: Some(self.fault(&value()?)?) },
                "--faults" => return Ok(Task::Print(self.faults.iter().map(|fault| fault.name()).collect())),
                "--checks" => return Ok(Task::Print(self.checks.to_vec())),
                _ => return Err(format!("there is no option {argument}")),
            }
        }
        Ok(Task::Try(options))
    }

    fn fault(&self, name: &str) -> Result<Fault, String> {
        self.faults
            .iter()
            .copied()
            .find(|fault| fault.name() == name)
            .ok_or(format!("there is no fault {name} to plant"))
    }
}

fn number(text: &str) -> Result<u64, String> {
    text.parse().map_err(|_| format!("{text} is no number"))
}
