//! Why a file gave no result: what was found, and what to do.

use std::io;
use std::path::Path;

use andelura::{Fault, Refusal};

use crate::json::Object;
use crate::options::Command;
use crate::report::{Ending, Outcome};
use crate::source::{shown, visible, Source};

/// A byte from 0 and a line from 1.
#[derive(Clone, Copy, Debug)]
pub struct Place {
    pub byte: usize,
    pub line: usize,
}

#[derive(Debug)]
pub struct Trouble {
    ending: Ending,
    /// Of docs/REFUSALS.md; none where the command itself refuses.
    number: Option<u32>,
    place: Option<Place>,
    found: String,
    advice: String,
}

impl Trouble {
    fn refused(number: Option<u32>, found: impl Into<String>, advice: impl Into<String>) -> Self {
        Trouble { ending: Ending::Refused, number, place: None, found: found.into(), advice: advice.into() }
    }

    pub fn unread(error: io::Error) -> Self {
        let (found, advice) = match error.kind() {
            io::ErrorKind::IsADirectory => ("is a directory".to_string(), "name the files in it"),
            io::ErrorKind::OutOfMemory => ("is too long for the memory".to_string(), ""),
            _ => (plain(&error), ""),
        };
        Trouble { ending: Ending::NotRead, number: None, place: None, found, advice: advice.to_string() }
    }

    pub fn unwritten(out: &Path, error: &io::Error) -> Self {
        let found = format!("{} is not written: {}", shown(out.as_os_str()), plain(error));
        Trouble { ending: Ending::NotWritten, number: None, place: None, found, advice: String::new() }
    }

    /// A file of which not all was read, since no tape file is so long.
    pub fn endless(longest: usize) -> Self {
        let found = format!("The file is longer than any tape file, which has at most {longest} bytes.");
        Trouble::refused(None, found, "Export one book to a tape.")
    }

    pub fn tape(tape: &[u8], refusal: Refusal) -> Self {
        let found = if tape.is_empty() { "The file is empty." } else { refusal.found() };
        Trouble::refused(Some(refusal.number()), found, refusal.advice())
    }

    pub fn text(text: &[u8], fault: Fault) -> Self {
        let (found, advice) = match text.is_empty() {
            true => ("The text is empty.", "It was cut off, or never written: make it again."),
            false => (fault.rule.found(), fault.rule.advice()),
        };
        let place = Some(Place { byte: fault.place, line: fault.line });
        Trouble { place, ..Trouble::refused(Some(fault.number()), found, advice) }
    }

    /// The text of a tape that the checker refuses: a name of the tape is the cause.
    pub fn named(source: &Source, text: &[u8], fault: Fault) -> Self {
        let trouble = Trouble::text(text, fault);
        let found = format!("In the text of this tape: {}", trouble.found);
        let advice = format!("`andelura names {}` finds the name that is the cause.", visible(&source.name()));
        Trouble { found, advice, ..trouble }
    }

    /// A text that is longer than was asked for: the refusal that a short buffer gets.
    pub fn long(needed: usize, most: usize) -> Self {
        let number = Refusal::NoRoom { needed }.number();
        let found = format!("The text has {needed} bytes, and at most {most} are made.");
        Trouble::refused(Some(number), found, "Look for nodes whose spans overlap; if the text is wanted, give --most.")
    }

    pub fn no_memory(needed: usize) -> Self {
        let found = format!("there is no memory for a text of {needed} bytes");
        Trouble { ending: Ending::NotWritten, number: None, place: None, found, advice: String::new() }
    }

    pub fn outcome(self, source: &Source, command: Command, json: bool) -> Outcome {
        let out = if json { self.object(source, command) } else { String::new() };
        Outcome { out: out.into_bytes(), messages: vec![self.message(source)], ending: self.ending }
    }

    fn message(&self, source: &Source) -> String {
        let (file, found, advice) = (source.shown(), &self.found, &self.advice);
        let at = self.place.map(|place| format!(" at byte {}, line {}", place.byte, place.line)).unwrap_or_default();
        match (self.ending, self.number) {
            (Ending::Refused, Some(number)) => format!("{file}: refused by number {number}{at}: {found} {advice}"),
            (Ending::Refused, None) => format!("{file}: refused: {found} {advice}"),
            _ if advice.is_empty() => format!("{file}: {found}"),
            _ => format!("{file}: {found}: {advice}"),
        }
    }

    fn object(&self, source: &Source, command: Command) -> String {
        let mut object = Object::new(source, self.ending.word(command));
        if self.ending == Ending::Refused {
            object = object.maybe("number", self.number.map(|number| number as usize));
        }
        if let Some(Place { byte, line }) = self.place {
            object = object.number("byte", byte).number("line", line);
        }
        object = object.text("found", &self.found);
        if !self.advice.is_empty() {
            object = object.text("advice", &self.advice);
        }
        object.line()
    }
}

/// What the system says of an error, without its number.
pub fn plain(error: &io::Error) -> String {
    let said = error.to_string();
    match said.rsplit_once(" (os error ") {
        Some((words, _)) => words.to_string(),
        None => said,
    }
}
