//! The text of a tape.

use andelura::Verdict;

use crate::source::Source;
use crate::trouble::Trouble;

/// The text, if it has at most `most` bytes. A first buffer as long as the tape has room for nearly every text, and then one walk writes it.
pub fn written(tape: &[u8], most: usize) -> Result<Vec<u8>, Trouble> {
    let refused = |refusal| Trouble::tape(tape, refusal);
    let mut text = room(tape.len().min(most))?;
    let whole = andelura::window(tape, 0, &mut text).map_err(refused)?.whole;
    if whole > most {
        return Err(Trouble::long(whole, most));
    }
    if whole > text.len() {
        text = room(whole)?;
        andelura::window(tape, 0, &mut text).map_err(refused)?;
    }
    text.truncate(whole);
    Ok(text)
}

fn room(length: usize) -> Result<Vec<u8>, Trouble> {
    let mut bytes = Vec::new();
    bytes.try_reserve_exact(length).map_err(|_| Trouble::no_memory(length))?;
    bytes.resize(length, 0);
    Ok(bytes)
}

/// The text, if the checker accepts it too.
pub fn accepted(source: &Source, tape: &[u8], most: usize) -> Result<Vec<u8>, Trouble> {
    let text = written(tape, most)?;
    match andelura::check(&text) {
        Verdict::Accepted { .. } => Ok(text),
        Verdict::Refused(fault) => Err(Trouble::named(source, &text, fault)),
    }
}
