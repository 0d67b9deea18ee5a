//! The command `sailgarnet`: shows power tables of both versions, describes them as
//! text and writes them from it, converts them, plans requests and bring-ups, and
//! checks and traces lists of method calls.

#![forbid(unsafe_code)]

mod args;
mod backend;
mod commands;
mod consistency;
mod demo;
mod files;
mod grid;
mod help;
mod line;
mod objects;
mod printer;
mod reader;
mod refusals;
mod request;
mod resources;
mod show;
mod sleep;
mod subject;
mod svg;
mod tables;
mod trace;
mod words;

use std::env;
use std::io::{self, ErrorKind, Write};
use std::process::ExitCode;

/// The exit status of a refusal.
const REFUSED: u8 = 1;
/// The exit status of wrong usage, of a mistake in a text and of files that
/// cannot be read or written.
const FAILED: u8 = 2;

/// What a command has to say when it could do its work.
pub struct Report {
    /// The text for standard output.
    pub text: String,
    /// Whether the table, the station, the state, the request or the list was
    /// refused.
    pub refused: bool,
}

impl Report {
    /// A report without a refusal.
    pub fn done(text: String) -> Self {
        Self {
            text,
            refused: false,
        }
    }

    /// A refusal.
    pub fn refused(text: String) -> Self {
        Self {
            text,
            refused: true,
        }
    }
}

/// Why a command could not do its work, for standard error.
pub struct Failure(String);

impl Failure {
    /// A message after the name of the command.
    pub fn new(message: String) -> Self {
        Self(format!("sailgarnet: {message}"))
    }

    /// A message after a position in a file. Editors look for a position at the
    /// beginning of a line.
    pub fn at_position(message: String) -> Self {
        Self(message)
    }
}

fn main() -> ExitCode {
    let words = env::args_os().skip(1).collect();
    let report = match commands::run(words) {
        Ok(report) => report,
        Err(failure) => return fail(&failure),
    };
    match print(&report.text) {
        Ok(()) if report.refused => REFUSED.into(),
        Ok(()) => ExitCode::SUCCESS,
        Err(error) => fail(&Failure::new(format!("cannot write the output: {error}"))),
    }
}

fn fail(Failure(message): &Failure) -> ExitCode {
    // Nothing is left to do if standard error is closed too.
    let _ = writeln!(io::stderr(), "{message}");
    FAILED.into()
}

/// Writes to standard output. A reader that stops early is no error.
fn print(text: &str) -> io::Result<()> {
    let mut output = io::stdout().lock();
    let result = output.write_all(text.as_bytes());
    match result.and_then(|()| output.flush()) {
        Err(error) if error.kind() == ErrorKind::BrokenPipe => Ok(()),
        result => result,
    }
}
