//! The answers to tapes: one answer, the printing program, the stream.

use std::io::{self, BufRead, BufReader, Read, Write};
use std::panic::{self, AssertUnwindSafe};

use crate::loader::{self, Refusal};

/// The printing program's longest tape and its output buffer.
pub const PRINT_BYTES: usize = 65_536;

/// The number that stands for a panic in the stream of answers.
pub const PANIC: u8 = 255;

#[derive(Clone, PartialEq, Eq, Debug)]
pub enum Answer {
    Written(String),
    Refused(u8),
    Panicked,
}

impl Answer {
    pub fn number(&self) -> u8 {
        match self {
            Answer::Written(_) => 0,
            Answer::Refused(number) => *number,
            Answer::Panicked => PANIC,
        }
    }

    pub fn text(&self) -> &str {
        match self {
            Answer::Written(text) => text,
            _ => "",
        }
    }
}

/// The loader's refusal or the Rust's text.
pub fn answer(file: &[u8]) -> Answer {
    match loader::load(file) {
        Ok(document) => Answer::Written(document.to_usx()),
        Err(Refusal(number)) => Answer::Refused(number),
    }
}

/// As `answer`, a panic being an answer too.
pub fn answer_or_panic(file: &[u8]) -> Answer {
    panic::catch_unwind(AssertUnwindSafe(|| answer(file))).unwrap_or(Answer::Panicked)
}

/// What document 01's printing program prints for one file.
pub fn print(file: &[u8]) -> Vec<u8> {
    if file.len() > PRINT_BYTES {
        return refused(2, 0);
    }
    match answer(file) {
        Answer::Written(text) if text.len() > PRINT_BYTES => refused(8, text.len()),
        Answer::Written(text) => text.into_bytes(),
        other => refused(other.number(), 0),
    }
}

fn refused(number: u8, length: usize) -> Vec<u8> {
    format!("refused {number} {length}\n").into_bytes()
}

/// Answers a stream of tapes; both forms stand in the README.
pub fn stream(input: impl Read, mut output: impl Write) -> io::Result<()> {
    panic::set_hook(Box::new(|_| {}));
    let mut input = BufReader::with_capacity(1 << 16, input);
    let mut tape = Vec::new();
    while read_tape(&mut input, &mut tape)? {
        write_answer(&mut output, &answer_or_panic(&tape))?;
        // Nothing more is waiting: let the reader of the answers go on.
        if input.buffer().is_empty() {
            output.flush()?;
        }
    }
    output.flush()
}

/// Reads one tape of a stream into `tape`; false at the stream's end.
pub fn read_tape(input: &mut impl BufRead, tape: &mut Vec<u8>) -> io::Result<bool> {
    if input.fill_buf()?.is_empty() {
        return Ok(false);
    }
    let mut length = [0; 4];
    input.read_exact(&mut length)?;
    tape.resize(u32::from_le_bytes(length) as usize, 0);
    input.read_exact(tape)?;
    Ok(true)
}

/// Writes one tape of a stream.
pub fn write_tape(output: &mut impl Write, tape: &[u8]) -> io::Result<()> {
    output.write_all(&length_bytes(tape.len())?)?;
    output.write_all(tape)
}

fn write_answer(output: &mut impl Write, answer: &Answer) -> io::Result<()> {
    let text = answer.text().as_bytes();
    output.write_all(&[answer.number()])?;
    output.write_all(&length_bytes(text.len())?)?;
    output.write_all(text)
}

fn length_bytes(length: usize) -> io::Result<[u8; 4]> {
    let length = u32::try_from(length).map_err(io::Error::other)?;
    Ok(length.to_le_bytes())
}
