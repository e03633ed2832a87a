//! The text of a tape: whole, measured, or a window of it.

use crate::{ffi, Refusal};

/// How long a tape file may be: header, nodes, entries, names and source at their limits. A longer
/// one is refused.
pub const LONGEST_TAPE: usize = 36 + 16 * 262_144 + 8 * 1_024 + 16_384 + 4_194_304;

/// So many zero bytes, or [`Refusal::NoRoom`] where that memory cannot be had.
pub(crate) fn room(len: usize) -> Result<Vec<u8>, Refusal> {
    let mut bytes = Vec::new();
    bytes
        .try_reserve_exact(len)
        .map_err(|_| Refusal::NoRoom { needed: len })?;
    bytes.resize(len, 0);
    Ok(bytes)
}

/// Gives the USX text of a tape file.
///
/// The text may be far longer than the tape, since spans may overlap. Where memory for it cannot be
/// had the answer is [`Refusal::NoRoom`]; for tapes from elsewhere ask [`measure`] first, or read
/// the text by a [`TextReader`](crate::TextReader).
///
/// ```
/// let tape = include_bytes!("../../../examples/listing.tape");
/// let text = andelura::serialize(tape)?;
/// assert_eq!(text, include_bytes!("../../../examples/listing.usx"));
/// # Ok::<(), andelura::Refusal>(())
/// ```
pub fn serialize(tape: &[u8]) -> Result<Vec<u8>, Refusal> {
    // Most texts are no longer than their tapes. A window from the first byte with room for all is
    // the text, by one walk; where this guess is too short, or cannot be had, the length is told.
    let mut text = room(tape.len().min(LONGEST_TAPE)).unwrap_or_default();
    let whole = window(tape, 0, &mut text)?.whole;
    if whole > text.len() {
        text = room(whole)?;
        window(tape, 0, &mut text)?;
    }
    text.truncate(whole);
    Ok(text)
}

/// Writes the USX text of a tape file to the front of a buffer; gives its length.
///
/// No byte behind the text is written, and a refusal writes none at all. A buffer that is too short
/// is refused by [`Refusal::NoRoom`], which tells the length needed.
///
/// ```
/// use andelura::Refusal;
///
/// let tape = include_bytes!("../../../examples/listing.tape");
/// let mut buffer = [0; 256];
/// assert_eq!(andelura::serialize_into(tape, &mut buffer), Ok(232));
///
/// let short = andelura::serialize_into(tape, &mut buffer[..100]);
/// assert_eq!(short, Err(Refusal::NoRoom { needed: 232 }));
/// ```
pub fn serialize_into(tape: &[u8], out: &mut [u8]) -> Result<usize, Refusal> {
    let mut numbers = [0];
    let answer = ffi::serialize(tape, out, &mut numbers);
    Refusal::answer(answer, numbers[0])?;
    Ok(numbers[0] as usize)
}

/// Gives the length of a tape's text; nothing is written.
///
/// ```
/// let tape = include_bytes!("../../../examples/listing.tape");
/// assert_eq!(andelura::measure(tape), Ok(232));
/// ```
pub fn measure(tape: &[u8]) -> Result<usize, Refusal> {
    window(tape, 0, &mut []).map(|shown| shown.whole)
}

/// How much of a text a [`window`] shows.
#[derive(Clone, Copy, Debug, PartialEq, Eq, Hash)]
pub struct Shown {
    /// How many bytes are shown.
    pub bytes: usize,
    /// How long the whole text is.
    pub whole: usize,
}

/// Shows the bytes of a tape's text from byte number `from` on, as many as the buffer has room for.
///
/// No other byte of the buffer is written, and a refusal writes none at all; it is never
/// [`Refusal::NoRoom`]. A start at the text's end or past it shows nothing. Every call walks the
/// whole tape, so take buffers as large as you can.
///
/// ```
/// use andelura::Shown;
///
/// let tape = include_bytes!("../../../examples/listing.tape");
/// let mut screen = [0; 16];
/// assert_eq!(andelura::window(tape, 5, &mut screen), Ok(Shown { bytes: 16, whole: 232 }));
/// assert_eq!(&screen, b"version=\"3.0\">\n ");
/// ```
pub fn window(tape: &[u8], from: usize, out: &mut [u8]) -> Result<Shown, Refusal> {
    let mut numbers = [0; 2];
    Refusal::answer(ffi::window(tape, from, out, &mut numbers), 0)?;
    let [bytes, whole] = numbers.map(|n| n as usize);
    Ok(Shown { bytes, whole })
}

#[cfg(test)]
mod tests {
    use super::*;

    #[test]
    fn memory_that_cannot_be_had_is_a_refusal() {
        assert_eq!(
            room(usize::MAX),
            Err(Refusal::NoRoom { needed: usize::MAX })
        );
        assert_eq!(room(3), Ok(vec![0; 3]));
    }
}
