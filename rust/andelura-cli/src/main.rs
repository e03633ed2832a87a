//! The command `andelura`: USX text from tape files, the check of finished text, names and identifiers.

#![forbid(unsafe_code)]

mod commands;
mod ids;
mod json;
mod options;
mod output;
mod report;
mod source;
mod text;
mod trouble;
mod work;

use std::io;
use std::process::ExitCode;

use options::{Asked, Options};
use report::{say, Reporter};

const HELP: &str = include_str!("help.txt");
const VERSION: &str = concat!("andelura ", env!("CARGO_PKG_VERSION"), "\n");

/// The exit status of a wrong call, and of input and output that failed.
const FAILED: u8 = 2;

fn main() -> ExitCode {
    let status = match options::parse(std::env::args_os().skip(1)) {
        Ok(Asked::Help) => print(HELP),
        Ok(Asked::Version) => print(VERSION),
        Ok(Asked::Work(options)) => start(&options),
        Err(fault) => wrong_call(&fault),
    };
    ExitCode::from(status)
}

/// Writes one text to standard output.
fn print(text: &str) -> u8 {
    match report::write_out(text.as_bytes()) {
        Ok(()) => 0,
        Err(error) => no_output(&error),
    }
}

/// Does all that was asked, once the folder for the texts is there.
fn start(options: &Options) -> u8 {
    match output::prepare(options) {
        Ok(()) => done(options),
        Err(fault) => {
            say(&fault);
            FAILED
        }
    }
}

/// Does every file, and gives the exit status.
fn done(options: &Options) -> u8 {
    let count = options.sources.len();
    let jobs = options.jobs.unwrap_or_else(work::processors);
    let mut reporter = Reporter::new(options.command, count);
    let mut broken = None;
    let run = work::in_order(
        count,
        jobs,
        |index| commands::run(&options.sources[index], options),
        |finished, due| reporter.take(finished, due).map_err(|error| broken = Some(error)).is_ok(),
    );
    match (run, broken) {
        (Err(error), _) => no_thread(&error),
        (Ok(()), Some(error)) => no_output(&error),
        (Ok(()), None) => reporter.finish(),
    }
}

fn wrong_call(fault: &str) -> u8 {
    say(fault);
    say("andelura --help says how it is called");
    FAILED
}

fn no_output(error: &io::Error) -> u8 {
    match error.kind() {
        io::ErrorKind::BrokenPipe => say("standard output: the reader closed it"),
        _ => say(&format!("standard output: {}", trouble::plain(error))),
    }
    FAILED
}

fn no_thread(error: &io::Error) -> u8 {
    say(&format!("no thread could be started: {}", trouble::plain(error)));
    FAILED
}
