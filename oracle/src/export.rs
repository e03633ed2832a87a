//! Tapes that the exporter of rust/usfm3-tape makes of what the loader read, compared with the tapes.

use std::io::{self, BufReader, Read, Write};

use crate::answer::read_tape;
use crate::loader::{self, Refusal};
use crate::tapes::*;

/// What came of a tape that shows no difference.
#[derive(Clone, Copy, PartialEq, Eq, Debug)]
pub enum Outcome {
    /// The file came back.
    Same,
    /// The same nodes, entries, source and text came back; the names stood otherwise in the file.
    SameContent,
    /// The exporter's error has the number by which the loader refuses the tape.
    Reported,
    /// The Rust's types have no value for what the file says.
    NotHeld,
}

/// Checks a stream of tapes; what is written stands in the README.
pub fn check(input: impl Read, mut output: impl Write) -> io::Result<()> {
    let mut input = BufReader::with_capacity(1 << 16, input);
    let mut tape = Vec::new();
    let mut outcomes = Vec::new();
    while read_tape(&mut input, &mut tape)? {
        let number = outcomes.len();
        outcomes.push(outcome(&tape).map_err(|what| io::Error::other(format!("tape {number}: {what}")))?);
    }
    let count = |of: Outcome| outcomes.iter().filter(|&&outcome| outcome == of).count();
    let [same, content] = [Outcome::Same, Outcome::SameContent].map(count);
    let [reported, not_held] = [Outcome::Reported, Outcome::NotHeld].map(count);
    writeln!(output, "{} tapes, {} exported, no difference", outcomes.len(), same + content)?;
    writeln!(output, "{same} byte for byte, {content} in content, {reported} reported, {not_held} not held")?;
    output.flush()
}

/// Exports one tape. What is meant is the tape as the exporter lays it out, or the loader's refusal of that.
pub fn outcome(tape: &[u8]) -> Result<Outcome, String> {
    let loaded = loader::load(tape).ok();
    let admitted = loaded.is_some();
    let Some(document) = loaded.or_else(|| loader::held(tape)) else { return Ok(Outcome::NotHeld) };
    let meant = laid_out(tape);
    match (loader::load(&meant), document.to_tape_file()) {
        (Ok(_), Ok(file)) if file != meant => Err(difference(&file, &meant)),
        (Ok(_), Ok(file)) if file == tape => Ok(Outcome::Same),
        (Ok(again), Ok(_)) if !admitted || document.to_usx() == again.to_usx() => Ok(Outcome::SameContent),
        (Ok(_), Ok(_)) => Err("the exported file has another text".into()),
        (Err(Refusal(number)), Err(error)) if error.refusal() == Some(number) => Ok(Outcome::Reported),
        (Err(Refusal(number)), Err(error)) => Err(format!("refused {number}, and the exporter says {error:?}")),
        (Err(Refusal(number)), Ok(_)) => Err(format!("refused {number}, and exported")),
        (Ok(_), Err(error)) => Err(format!("admitted, and the exporter says {error:?}")),
    }
}

/// The tape with its names one behind the other in the order of the entries.
fn laid_out(tape: &[u8]) -> Vec<u8> {
    let Parts { nodes, entries, names, source } = Parts::read(tape);
    let mut parts = Parts { nodes, source, ..Parts::default() };
    for entry in entries {
        let name = &names[entry.start as usize..][..usize::from(entry.length)];
        parts.entries.push(Entry { start: parts.names.len() as u32, ..entry });
        parts.names.extend(name);
    }
    parts.file()
}

/// The first byte that differs, or the length.
fn difference(file: &[u8], meant: &[u8]) -> String {
    match (0..meant.len()).find(|&i| file.get(i) != Some(&meant[i])) {
        Some(at) => format!("byte {at} is {:?}, not {}", file.get(at), meant[at]),
        None => format!("{} bytes, not {}", file.len(), meant.len()),
    }
}
