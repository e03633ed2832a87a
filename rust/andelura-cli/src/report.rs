//! What is said: results on standard output, messages on standard error, a progress line on a terminal, a summary.

use std::io::{self, IsTerminal, Write};

use crate::options::Command;

/// How a file ended.
#[derive(Clone, Copy, Debug, PartialEq, Eq)]
pub enum Ending {
    Well,
    /// A name breaks the proviso.
    Broken,
    Refused,
    NotRead,
    NotWritten,
}

impl Ending {
    /// As it stands in the summary and in JSON.
    pub fn word(self, command: Command) -> &'static str {
        match (self, command) {
            (Ending::Well, Command::Usx) => "written",
            (Ending::Well, Command::Check) => "accepted",
            (Ending::Well, Command::Names) => "kept",
            (Ending::Well, Command::Ids) => "listed",
            (Ending::Broken, _) => "broken",
            (Ending::Refused, _) => "refused",
            (Ending::NotRead, _) => "not read",
            (Ending::NotWritten, _) => "not written",
        }
    }

    /// The exit status that it alone would give.
    fn status(self) -> u8 {
        match self {
            Ending::Well => 0,
            Ending::Broken | Ending::Refused => 1,
            Ending::NotRead | Ending::NotWritten => 2,
        }
    }
}

/// What one file gave.
#[derive(Debug)]
pub struct Outcome {
    /// For standard output.
    pub out: Vec<u8>,
    /// For standard error.
    pub messages: Vec<String>,
    pub ending: Ending,
}

impl Outcome {
    pub fn well(out: impl Into<Vec<u8>>) -> Self {
        Outcome { out: out.into(), messages: Vec::new(), ending: Ending::Well }
    }
}

/// A message. Where standard error fails too there is nobody to tell.
pub fn say(message: &str) {
    let _ = io::stderr().write_all(format!("andelura: {message}\n").as_bytes());
}

pub fn write_out(bytes: &[u8]) -> io::Result<()> {
    let mut out = io::stdout().lock();
    out.write_all(bytes)?;
    out.flush()
}

/// Takes outcomes in the order of the files.
pub struct Reporter {
    command: Command,
    total: usize,
    endings: Vec<Ending>,
    progress: Progress,
}

impl Reporter {
    pub fn new(command: Command, total: usize) -> Self {
        let mut progress = Progress { on: total > 1 && io::stderr().is_terminal(), shown: 0 };
        progress.draw(0, total);
        Reporter { command, total, endings: Vec::new(), progress }
    }

    /// Says what is due, and how many files are done.
    pub fn take(&mut self, done: usize, due: Vec<Outcome>) -> io::Result<()> {
        self.progress.clear();
        for outcome in due {
            write_out(&outcome.out)?;
            outcome.messages.iter().for_each(|message| say(message));
            self.endings.push(outcome.ending);
        }
        if done < self.total {
            self.progress.draw(done, self.total);
        }
        Ok(())
    }

    /// The summary of several files, and the exit status of all.
    pub fn finish(self) -> u8 {
        if self.total > 1 {
            say(&self.summary());
        }
        self.endings.iter().map(|ending| ending.status()).max().unwrap_or(0)
    }

    fn summary(&self) -> String {
        let count = |wanted: Ending| self.endings.iter().filter(|ending| **ending == wanted).count();
        let part = |ending: Ending| format!("{} {}", count(ending), ending.word(self.command));
        let mut parts = vec![part(Ending::Well)];
        if self.command == Command::Names {
            parts.push(part(Ending::Broken));
        }
        parts.extend([part(Ending::Refused), part(Ending::NotRead)]);
        if count(Ending::NotWritten) > 0 {
            parts.push(part(Ending::NotWritten));
        }
        format!("{} files: {}", self.total, parts.join(", "))
    }
}

/// A line on a terminal that is written over and over.
struct Progress {
    on: bool,
    /// How many columns it has now.
    shown: usize,
}

impl Progress {
    fn draw(&mut self, done: usize, total: usize) {
        let line = format!("andelura: {done} of {total} files");
        self.show(&line, line.len());
    }

    fn clear(&mut self) {
        if self.shown > 0 {
            let blank = format!("{:1$}\r", "", self.shown);
            self.show(&blank, 0);
        }
    }

    fn show(&mut self, line: &str, columns: usize) {
        if self.on {
            let _ = io::stderr().write_all(format!("\r{line}").as_bytes());
            self.shown = columns;
        }
    }
}
