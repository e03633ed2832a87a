//! What each command does with one file.

mod check;
mod ids;
mod names;
mod usx;

use crate::options::{Command, Options};
use crate::report::Outcome;
use crate::source::Source;

pub fn run(source: &Source, options: &Options) -> Outcome {
    let done = match options.command {
        Command::Usx => usx::run(source, options),
        Command::Check => check::run(source, options),
        Command::Names => names::run(source, options),
        Command::Ids => ids::run(source, options),
    };
    done.unwrap_or_else(|trouble| trouble.outcome(source, options.command, options.json))
}
