//! The text of a tape piece by piece.

use std::io::{self, BufRead, Read};
use std::iter::FusedIterator;

use crate::text::{measure, room, window};
use crate::Refusal;

/// Gives the text of a tape in windows of `size` bytes, the last one shorter; 0 is taken as 1.
/// Joined, they are the text.
///
/// A tape that is refused gives its refusal and nothing more. Every window walks the whole tape, so
/// take `size` as large as you can.
///
/// ```
/// let tape = include_bytes!("../../../examples/listing.tape");
/// let mut text = Vec::new();
/// for window in andelura::windows(tape, 100) {
///     text.extend(window?);
/// }
/// assert_eq!(text, include_bytes!("../../../examples/listing.usx"));
/// # Ok::<(), andelura::Refusal>(())
/// ```
pub fn windows(tape: &[u8], size: usize) -> Windows<'_> {
    Windows {
        tape,
        size: size.max(1),
        from: 0,
        whole: None,
        ended: false,
    }
}

/// The windows of a tape's text that follow one another, by [`windows`].
#[derive(Clone, Debug)]
pub struct Windows<'t> {
    tape: &'t [u8],
    size: usize,
    /// Where the next window starts.
    from: usize,
    /// The length of the text, once it is measured.
    whole: Option<usize>,
    /// Whether the last window or a refusal was given.
    ended: bool,
}

impl Windows<'_> {
    /// The next window, none at the text's end.
    fn shown(&mut self) -> Result<Option<Vec<u8>>, Refusal> {
        let whole = match self.whole {
            Some(whole) => whole,
            None => measure(self.tape)?,
        };
        self.whole = Some(whole);
        let len = self.size.min(whole - self.from);
        if len == 0 {
            return Ok(None);
        }
        let mut bytes = room(len)?;
        self.from += window(self.tape, self.from, &mut bytes)?.bytes;
        Ok(Some(bytes))
    }
}

impl Iterator for Windows<'_> {
    type Item = Result<Vec<u8>, Refusal>;

    fn next(&mut self) -> Option<Self::Item> {
        if self.ended {
            return None;
        }
        let item = self.shown().transpose();
        self.ended = !matches!(item, Some(Ok(_)));
        item
    }
}

impl FusedIterator for Windows<'_> {}

/// The most that a reader holds; for each piece of this length the tape is walked once.
const HELD: usize = 256 * 1024;

/// Reads the text of a tape, through windows: what it holds is short, however long the text is.
///
/// ```
/// use std::io::Read;
///
/// let tape = include_bytes!("../../../examples/listing.tape");
/// let mut text = String::new();
/// andelura::TextReader::new(tape)?.read_to_string(&mut text)?;
/// assert_eq!(text, include_str!("../../../examples/listing.usx"));
/// # Ok::<(), Box<dyn std::error::Error>>(())
/// ```
#[derive(Clone, Debug)]
pub struct TextReader<'t> {
    tape: &'t [u8],
    whole: usize,
    /// Where the next window starts.
    from: usize,
    /// The last window.
    held: Vec<u8>,
    /// How many bytes of it were read.
    taken: usize,
}

impl<'t> TextReader<'t> {
    /// Judges the tape and measures its text; nothing is read yet.
    ///
    /// ```
    /// use andelura::{Refusal, TextReader};
    ///
    /// assert_eq!(TextReader::new(b"no tape").err(), Some(Refusal::NotATape));
    /// ```
    pub fn new(tape: &'t [u8]) -> Result<Self, Refusal> {
        let whole = measure(tape)?;
        let mut held = room(whole.min(HELD))?;
        held.clear();
        Ok(TextReader {
            tape,
            whole,
            from: 0,
            held,
            taken: 0,
        })
    }

    /// The length of the whole text, whatever was read.
    ///
    /// ```
    /// let tape = include_bytes!("../../../examples/listing.tape");
    /// assert_eq!(andelura::TextReader::new(tape)?.len(), 232);
    /// # Ok::<(), andelura::Refusal>(())
    /// ```
    pub fn len(&self) -> usize {
        self.whole
    }

    /// Whether the text is empty, which no text is.
    ///
    /// ```
    /// let tape = include_bytes!("../../../examples/listing.tape");
    /// assert!(!andelura::TextReader::new(tape)?.is_empty());
    /// # Ok::<(), andelura::Refusal>(())
    /// ```
    pub fn is_empty(&self) -> bool {
        self.whole == 0
    }

    /// How many bytes are still to be read.
    ///
    /// ```
    /// use std::io::Read;
    ///
    /// let tape = include_bytes!("../../../examples/listing.tape");
    /// let mut reader = andelura::TextReader::new(tape)?;
    /// reader.read_exact(&mut [0; 32])?;
    /// assert_eq!(reader.remaining(), 200);
    /// # Ok::<(), Box<dyn std::error::Error>>(())
    /// ```
    pub fn remaining(&self) -> usize {
        self.whole - self.from + self.held.len() - self.taken
    }

    /// Holds the next window in place of the one that was read.
    fn turn(&mut self) -> Result<(), Refusal> {
        self.held.clear();
        self.taken = 0;
        self.held.resize(HELD.min(self.whole - self.from), 0);
        let shown = window(self.tape, self.from, &mut self.held);
        self.held.truncate(shown.map_or(0, |shown| shown.bytes));
        self.from += self.held.len();
        shown.map(|_| ())
    }
}

impl BufRead for TextReader<'_> {
    fn fill_buf(&mut self) -> io::Result<&[u8]> {
        if self.taken == self.held.len() && self.from < self.whole {
            self.turn().map_err(io::Error::other)?;
        }
        Ok(&self.held[self.taken..])
    }

    fn consume(&mut self, amount: usize) {
        self.taken = self.held.len().min(self.taken.saturating_add(amount));
    }
}

impl Read for TextReader<'_> {
    fn read(&mut self, out: &mut [u8]) -> io::Result<usize> {
        // A long buffer gets its window at once.
        if self.taken == self.held.len() && out.len() >= HELD {
            let shown = window(self.tape, self.from, out).map_err(io::Error::other)?;
            self.from += shown.bytes;
            return Ok(shown.bytes);
        }
        let len = self.fill_buf()?.read(out)?;
        self.consume(len);
        Ok(len)
    }
}
