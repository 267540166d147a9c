//! How the tool ends without an answer: in words on standard error, and with an exit status that tells why.

use std::fmt::Display;
use std::io::Write;
use std::process::ExitCode;

pub enum Stop {
    /// The proved library refused.
    Refused(String),
    /// The command line, a file or a line of text cannot be used, so that the library was not asked.
    Unusable(String),
}

impl Stop {
    pub fn usage(fault: impl Display) -> Stop {
        Stop::Unusable(format!("{fault}\n  `arvandish --help` says what can be asked"))
    }

    pub fn file(name: impl Display, fault: std::io::Error) -> Stop {
        Stop::Unusable(format!("{name}: {fault}"))
    }

    pub fn end(self) -> ExitCode {
        let (words, status) = match self {
            Stop::Refused(words) => (words, 1),
            Stop::Unusable(words) => (words, 2),
        };
        // A closed standard error is no reason for another exit status.
        let _ = writeln!(std::io::stderr(), "arvandish: {words}");
        ExitCode::from(status)
    }
}
