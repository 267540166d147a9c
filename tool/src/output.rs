//! Where answers go: a file, or standard output.

use crate::feed::Form;
use crate::stop::Stop;
use std::ffi::OsStr;
use std::fs;
use std::io::{self, ErrorKind, IsTerminal, Write};
use std::path::Path;

pub struct Output<'a> {
    file: Option<&'a OsStr>,
}

impl Output<'_> {
    /// Asked for before the feed is read, so that nobody waits for records that a terminal cannot show.
    pub fn to(file: Option<&OsStr>, form: Form) -> Result<Output<'_>, Stop> {
        match form {
            Form::Records if file.is_none() && io::stdout().is_terminal() => Err(Stop::usage(
                "records are no text for a terminal: name a file with -o, or use a pipe",
            )),
            _ => Ok(Output { file }),
        }
    }

    pub fn write(self, bytes: &[u8]) -> Result<(), Stop> {
        match self.file {
            Some(file) => fs::write(file, bytes).map_err(|fault| Stop::file(Path::new(file).display(), fault)),
            None => print(bytes),
        }
    }
}

/// To standard output. A reader that has seen enough and goes away is no fault.
pub fn print(bytes: &[u8]) -> Result<(), Stop> {
    let mut out = io::stdout().lock();
    match out.write_all(bytes).and_then(|()| out.flush()) {
        Err(fault) if fault.kind() != ErrorKind::BrokenPipe => Err(Stop::file("standard output", fault)),
        _ => Ok(()),
    }
}
