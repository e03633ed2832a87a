//! Writing a tape step by step.

use std::fmt;
use std::mem;

use crate::draft::{Draft, Entry, Kind, Node, Step};
use crate::ffi::{self, State};
use crate::text::{room, LONGEST_TAPE};
use crate::{Category, Close, Element, Flags, Refusal, Span};

/// The length of the first buffer.
const FIRST_ROOM: usize = 16 * 1024;

/// Writes a tape file step by step, for importers of other formats. What it finishes is always a
/// tape that [`serialize`](crate::serialize) admits; that is proved.
///
/// Entries come first: each gives a marker its name and category. Source pieces may come at any
/// time, and a node's span must lie in what was added by then. The nodes between an
/// [`open`](TapeWriter::open) and its [`close`](TapeWriter::close) stand in that container. A step
/// that is refused changes nothing, and another may follow. `docs/WRITER.md` says which step gives
/// which refusal.
///
/// The buffer grows as it must, so that no step is refused by [`Refusal::NoRoom`] unless memory
/// cannot be had.
///
/// ```
/// use andelura::{Category, Close, Element, Flags, TapeWriter};
///
/// let mut tape = TapeWriter::new();
/// let p = tape.marker("p", Category::Paragraph, Element::Other)?;
/// let marker = tape.piece("\\p")?;
/// let words = tape.piece(" Sing")?;
/// tape.open(Flags::NONE, p, marker)?;
/// tape.text(Flags::NONE, words)?;
/// tape.close(Close::BlockEnd, Flags::SYNTHETIC, p, (7, 0))?;
/// let file = tape.finish()?;
///
/// let text = andelura::serialize(&file)?;
/// assert_eq!(text, b"<usx version=\"3.0\">\n  <para style=\"p\">Sing</para>\n</usx>");
/// # Ok::<(), andelura::Refusal>(())
/// ```
#[derive(Clone)]
pub struct TapeWriter {
    state: State,
    buf: Vec<u8>,
    // The steps want one buffer from start to finish, so a longer one is written anew from what is
    // kept here.
    draft: Draft,
}

impl TapeWriter {
    /// A marker number that no entry has.
    pub const UNKNOWN: u16 = u16::MAX;

    /// Begins a tape.
    ///
    /// ```
    /// let file = andelura::TapeWriter::new().finish()?;
    /// assert_eq!(andelura::serialize(&file)?, b"<usx version=\"3.0\">\n</usx>");
    /// # Ok::<(), andelura::Refusal>(())
    /// ```
    pub fn new() -> TapeWriter {
        let mut state = [0; 8];
        let mut buf = vec![0; FIRST_ROOM];
        let answer = ffi::start(&mut state, &mut buf);
        debug_assert_eq!(answer, 0, "52 bytes are enough for a start");
        TapeWriter {
            state,
            buf,
            draft: Draft::default(),
        }
    }

    /// Begins a tape in a buffer of at least so many bytes, so that it need not grow: 52, 16 a
    /// node, 8 an entry, and the name and source bytes.
    ///
    /// ```
    /// let mut tape = andelura::TapeWriter::with_room(2_000_000)?;
    /// assert_eq!(tape.finish()?.len(), 52);
    /// # Ok::<(), andelura::Refusal>(())
    /// ```
    pub fn with_room(bytes: usize) -> Result<TapeWriter, Refusal> {
        let mut writer = TapeWriter::new();
        writer.grow(bytes.min(LONGEST_TAPE))?;
        Ok(writer)
    }

    /// Adds an entry before the first node: name bytes behind those added so far, and where its own
    /// name stands among them all. An entry may share the bytes of another, and bring none. For a
    /// name of its own [`marker`](TapeWriter::marker) is shorter.
    ///
    /// ```
    /// use andelura::{Category, Element, TapeWriter};
    ///
    /// let mut tape = TapeWriter::new();
    /// tape.entry(b"tr", 0, 2, Category::Paragraph, Element::Row)?;
    /// tape.entry(b"", 0, 1, Category::Other, Element::Other)?; // named t
    /// assert_eq!((tape.entries(), tape.names_len()), (2, 2));
    /// # Ok::<(), andelura::Refusal>(())
    /// ```
    pub fn entry(
        &mut self,
        names: &[u8],
        start: u32,
        len: u16,
        category: Category,
        element: Element,
    ) -> Result<(), Refusal> {
        self.take(Step::Entry(
            names,
            Entry {
                start,
                len,
                category,
                element,
            },
        ))
    }

    /// Adds an entry with a name of its own; gives its marker number.
    ///
    /// ```
    /// use andelura::{Category, Element, Refusal, TapeWriter};
    ///
    /// let mut tape = TapeWriter::new();
    /// assert_eq!(tape.marker("id", Category::Identification, Element::Other), Ok(0));
    /// assert_eq!(tape.marker("p", Category::Paragraph, Element::Other), Ok(1));
    /// assert_eq!(tape.marker("a b", Category::Paragraph, Element::Other), Err(Refusal::BadTable));
    /// ```
    pub fn marker(
        &mut self,
        name: &str,
        category: Category,
        element: Element,
    ) -> Result<u16, Refusal> {
        let number = self.entries() as u16;
        // A name whose length needs more than 16 bits is over the limits.
        let len = u16::try_from(name.len()).unwrap_or(u16::MAX);
        self.entry(name.as_bytes(), self.names_len(), len, category, element)?;
        Ok(number)
    }

    /// Adds bytes behind the source; they must be UTF-8 by themselves.
    ///
    /// ```
    /// use andelura::{Refusal, TapeWriter};
    ///
    /// let mut tape = TapeWriter::new();
    /// tape.source(b"\\p Sing")?;
    /// assert_eq!(tape.source_len(), 7);
    /// assert_eq!(tape.source(b"\xFF"), Err(Refusal::NotUtf8));
    /// # Ok::<(), Refusal>(())
    /// ```
    pub fn source(&mut self, piece: &[u8]) -> Result<(), Refusal> {
        self.take(Step::Source(piece))
    }

    /// Adds a text behind the source; gives its span.
    ///
    /// ```
    /// let mut tape = andelura::TapeWriter::new();
    /// tape.piece("\\p")?;
    /// assert_eq!(tape.piece(" Sing")?, (2, 5).into());
    /// # Ok::<(), andelura::Refusal>(())
    /// ```
    pub fn piece(&mut self, piece: &str) -> Result<Span, Refusal> {
        let start = self.source_len();
        self.source(piece.as_bytes())?;
        Ok(Span {
            start,
            len: self.source_len() - start,
        })
    }

    /// Adds a MarkerOpen: the nodes that follow stand in it, until it is closed. At most 64 may be
    /// open.
    ///
    /// ```
    /// use andelura::{Flags, TapeWriter};
    ///
    /// let mut tape = TapeWriter::new();
    /// tape.source(b"\\p")?;
    /// tape.open(Flags::NONE, TapeWriter::UNKNOWN, (0, 2))?;
    /// assert_eq!(tape.depth(), 1);
    /// # Ok::<(), andelura::Refusal>(())
    /// ```
    pub fn open(
        &mut self,
        flags: Flags,
        marker: u16,
        span: impl Into<Span>,
    ) -> Result<(), Refusal> {
        self.node(Kind::Open, flags, marker, 0, span.into())
    }

    /// Closes the innermost open container by a BlockEnd or a MarkerClose.
    ///
    /// ```
    /// use andelura::{Close, Flags, Refusal, TapeWriter};
    ///
    /// let mut tape = TapeWriter::new();
    /// tape.source(b"\\nd \\nd*")?;
    /// tape.open(Flags::NONE, TapeWriter::UNKNOWN, (0, 4))?;
    /// tape.close(Close::MarkerClose, Flags::NONE, TapeWriter::UNKNOWN, (4, 4))?;
    /// let again = tape.close(Close::MarkerClose, Flags::NONE, TapeWriter::UNKNOWN, (4, 4));
    /// assert_eq!(again, Err(Refusal::BadNesting));
    /// # Ok::<(), Refusal>(())
    /// ```
    pub fn close(
        &mut self,
        by: Close,
        flags: Flags,
        marker: u16,
        span: impl Into<Span>,
    ) -> Result<(), Refusal> {
        self.node(Kind::Close(by), flags, marker, 0, span.into())
    }

    /// Adds a MarkerOpen that holds nothing and is not closed: it links to itself.
    ///
    /// ```
    /// use andelura::{Category, Element, Flags, TapeWriter};
    ///
    /// let mut tape = TapeWriter::new();
    /// let b = tape.marker("b", Category::Paragraph, Element::Other)?;
    /// let span = tape.piece("\\b")?;
    /// tape.leaf(Flags::NONE, b, span)?;
    /// assert_eq!(tape.depth(), 0);
    /// # Ok::<(), andelura::Refusal>(())
    /// ```
    pub fn leaf(
        &mut self,
        flags: Flags,
        marker: u16,
        span: impl Into<Span>,
    ) -> Result<(), Refusal> {
        self.node(Kind::Leaf, flags, marker, 0, span.into())
    }

    /// Adds a Text.
    ///
    /// ```
    /// use andelura::{Flags, Refusal, TapeWriter};
    ///
    /// let mut tape = TapeWriter::new();
    /// tape.source("é".as_bytes())?;
    /// tape.text(Flags::NONE, (0, 2))?;
    /// assert_eq!(tape.text(Flags::NONE, (0, 1)), Err(Refusal::BadNode)); // inside a character
    /// # Ok::<(), Refusal>(())
    /// ```
    pub fn text(&mut self, flags: Flags, span: impl Into<Span>) -> Result<(), Refusal> {
        self.node(Kind::Text, flags, Self::UNKNOWN, 0, span.into())
    }

    /// Adds an Attribute.
    ///
    /// ```
    /// use andelura::{Flags, TapeWriter};
    ///
    /// let mut tape = TapeWriter::new();
    /// let span = tape.piece("|lemma=\"sing\"")?;
    /// tape.attribute(Flags::NONE, span)?;
    /// # Ok::<(), andelura::Refusal>(())
    /// ```
    pub fn attribute(&mut self, flags: Flags, span: impl Into<Span>) -> Result<(), Refusal> {
        self.node(Kind::Attribute, flags, Self::UNKNOWN, 0, span.into())
    }

    /// Adds an Error: what the importer could make nothing of.
    ///
    /// ```
    /// use andelura::{Flags, TapeWriter};
    ///
    /// let mut tape = TapeWriter::new();
    /// let span = tape.piece("\\")?;
    /// tape.error(Flags::NONE, span)?;
    /// # Ok::<(), andelura::Refusal>(())
    /// ```
    pub fn error(&mut self, flags: Flags, span: impl Into<Span>) -> Result<(), Refusal> {
        self.node(Kind::Error, flags, Self::UNKNOWN, 0, span.into())
    }

    /// Adds a Chapter with its number.
    ///
    /// ```
    /// use andelura::{Category, Element, Flags, TapeWriter};
    ///
    /// let mut tape = TapeWriter::new();
    /// let c = tape.marker("c", Category::Chapter, Element::Other)?;
    /// let span = tape.piece("\\c 2")?;
    /// tape.chapter(Flags::NONE, c, 2, span)?;
    /// # Ok::<(), andelura::Refusal>(())
    /// ```
    pub fn chapter(
        &mut self,
        flags: Flags,
        marker: u16,
        number: u32,
        span: impl Into<Span>,
    ) -> Result<(), Refusal> {
        self.node(Kind::Chapter, flags, marker, number, span.into())
    }

    /// Adds a Verse. The label that is written is read from the span; the number is kept in the
    /// tape.
    ///
    /// ```
    /// use andelura::{Category, Element, Flags, TapeWriter};
    ///
    /// let mut tape = TapeWriter::new();
    /// let v = tape.marker("v", Category::Verse, Element::Other)?;
    /// let span = tape.piece("\\v 1-3")?;
    /// tape.verse(Flags::NONE, v, 1, span)?;
    /// # Ok::<(), andelura::Refusal>(())
    /// ```
    pub fn verse(
        &mut self,
        flags: Flags,
        marker: u16,
        number: u32,
        span: impl Into<Span>,
    ) -> Result<(), Refusal> {
        self.node(Kind::Verse, flags, marker, number, span.into())
    }

    /// Finishes the tape; gives the file. What is still open refuses it, and may then be closed.
    /// Behind it every step is [`Refusal::OutOfStep`].
    ///
    /// ```
    /// use andelura::{Refusal, TapeWriter};
    ///
    /// let mut tape = TapeWriter::new();
    /// let file = tape.finish()?;
    /// assert_eq!(andelura::measure(&file), Ok(26));
    /// assert_eq!(tape.finish(), Err(Refusal::OutOfStep));
    /// # Ok::<(), Refusal>(())
    /// ```
    pub fn finish(&mut self) -> Result<Vec<u8>, Refusal> {
        let answer = ffi::finish(&mut self.state, &mut self.buf);
        Refusal::answer(answer, self.state[7])?;
        self.draft = Draft::default();
        let mut file = mem::take(&mut self.buf);
        file.truncate(self.state[7] as usize);
        Ok(file)
    }

    /// How many nodes were added; Root is not counted.
    ///
    /// ```
    /// assert_eq!(andelura::TapeWriter::new().nodes(), 0);
    /// ```
    pub fn nodes(&self) -> u32 {
        self.state[1] as u32
    }

    /// How many entries were added.
    ///
    /// ```
    /// assert_eq!(andelura::TapeWriter::new().entries(), 0);
    /// ```
    pub fn entries(&self) -> u32 {
        self.state[2] as u32
    }

    /// How many name bytes were added.
    ///
    /// ```
    /// assert_eq!(andelura::TapeWriter::new().names_len(), 0);
    /// ```
    pub fn names_len(&self) -> u32 {
        self.state[3] as u32
    }

    /// How many source bytes were added.
    ///
    /// ```
    /// assert_eq!(andelura::TapeWriter::new().source_len(), 0);
    /// ```
    pub fn source_len(&self) -> u32 {
        self.state[4] as u32
    }

    /// How many containers are open.
    ///
    /// ```
    /// assert_eq!(andelura::TapeWriter::new().depth(), 0);
    /// ```
    pub fn depth(&self) -> u32 {
        self.state[6] as u32
    }

    fn node(
        &mut self,
        kind: Kind,
        flags: Flags,
        marker: u16,
        number: u32,
        span: Span,
    ) -> Result<(), Refusal> {
        self.take(Step::Node(Node {
            kind,
            flags,
            marker,
            number,
            span,
        }))
    }

    /// Takes a step; where the buffer is too short, in a longer one.
    fn take(&mut self, step: Step<'_>) -> Result<(), Refusal> {
        self.draft.reserve(step)?;
        match step.take(&mut self.state, &mut self.buf) {
            Err(Refusal::NoRoom { needed }) => {
                self.grow(needed)?;
                step.take(&mut self.state, &mut self.buf)?;
            }
            answer => answer?,
        }
        self.draft.keep(step);
        Ok(())
    }

    /// Writes all that was added into a buffer of at least so many bytes; a buffer that doubles is
    /// seldom written anew.
    fn grow(&mut self, needed: usize) -> Result<(), Refusal> {
        let doubled = (2 * self.buf.len()).min(LONGEST_TAPE);
        let mut buf = room(needed.max(doubled))?;
        self.state = self.draft.write(&mut buf)?;
        self.buf = buf;
        Ok(())
    }
}

impl Default for TapeWriter {
    fn default() -> TapeWriter {
        TapeWriter::new()
    }
}

impl fmt::Debug for TapeWriter {
    fn fmt(&self, f: &mut fmt::Formatter<'_>) -> fmt::Result {
        f.debug_struct("TapeWriter")
            .field("nodes", &self.nodes())
            .field("entries", &self.entries())
            .field("names_len", &self.names_len())
            .field("source_len", &self.source_len())
            .field("depth", &self.depth())
            .finish_non_exhaustive()
    }
}
