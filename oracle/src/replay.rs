//! What the program `replay` writes: of each tape what calls with buffers of several lengths give, by the Rust's text and document 01's rules for room.

use std::io::{self, BufReader, Read, Write};

use crate::answer::{Answer, answer, read_tape};

/// Answers a stream of tapes; the form of the lines stands in the README.
pub fn stream(input: impl Read, mut output: impl Write) -> io::Result<()> {
    let mut input = BufReader::with_capacity(1 << 16, input);
    let mut tape = Vec::new();
    while read_tape(&mut input, &mut tape)? {
        write_calls(&mut output, &answer(&tape))?;
    }
    output.flush()
}

fn write_calls(out: &mut impl Write, answer: &Answer) -> io::Result<()> {
    for room in rooms(answer.text().len()) {
        let (number, length, written) = call(answer, room);
        writeln!(out, "room {room}: number {number}, length {length}, {} unchanged", room - written.len())?;
        if number == 0 {
            writeln!(out, "{written}")?;
        }
    }
    writeln!(out)
}

/// No byte, one too few, just enough, more than enough; of a tape without text none and some.
fn rooms(length: usize) -> Vec<usize> {
    match length {
        0 => vec![0, 100],
        _ => vec![0, length - 1, length, length + 100],
    }
}

/// The number and the length that a call with a buffer of this length gives, and what it writes.
pub fn call(answer: &Answer, room: usize) -> (u8, usize, &str) {
    match answer {
        Answer::Written(text) if text.len() <= room => (0, text.len(), text),
        Answer::Written(text) => (8, text.len(), ""),
        refused => (refused.number(), 0, ""),
    }
}
