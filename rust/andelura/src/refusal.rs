//! Why a tape, or a step of writing one, is refused.

use std::error::Error;
use std::fmt;

/// Why a tape file, or a step of a [`TapeWriter`](crate::TapeWriter), is refused: the lowest number
/// that applies.
///
/// The words of [`found`](Refusal::found) and [`advice`](Refusal::advice) are those of
/// `docs/REFUSALS.md`.
///
/// ```
/// let refusal = andelura::serialize(b"no tape").unwrap_err();
/// assert_eq!(refusal, andelura::Refusal::NotATape);
/// assert!(refusal.to_string().starts_with("refused by number 1: The file is shorter"));
/// ```
#[derive(Clone, Copy, Debug, PartialEq, Eq, Hash)]
#[non_exhaustive]
pub enum Refusal {
    /// 1: the header, the sections or the file's length are not as laid out.
    NotATape,
    /// 2: no node, or too many nodes, entries, name bytes or source bytes.
    OverLimits,
    /// 3: the source is not UTF-8.
    NotUtf8,
    /// 4: a name byte or an entry is at fault.
    BadTable,
    /// 5: a node's kind, flags, place or span is at fault.
    BadNode,
    /// 6: over 64 containers are open.
    TooDeep,
    /// 7: the nesting is wrong.
    BadNesting,
    /// 8: the output buffer is shorter than the text, or memory for it cannot be had.
    NoRoom {
        /// The length that is needed, in bytes.
        needed: usize,
    },
    /// 16: a step of a tape writer at a time when it may not be taken.
    OutOfStep,
}

impl Refusal {
    /// What a function of the library answers: 0 is no refusal. Of the numbers it gives, 16 is the
    /// one above 8.
    pub(crate) fn answer(number: u32, needed: u64) -> Result<(), Refusal> {
        Err(match number {
            0 => return Ok(()),
            1 => Refusal::NotATape,
            2 => Refusal::OverLimits,
            3 => Refusal::NotUtf8,
            4 => Refusal::BadTable,
            5 => Refusal::BadNode,
            6 => Refusal::TooDeep,
            7 => Refusal::BadNesting,
            8 => Refusal::NoRoom {
                needed: needed as usize,
            },
            _ => Refusal::OutOfStep,
        })
    }

    /// The number that `docs/REFUSALS.md` lists it by.
    ///
    /// ```
    /// assert_eq!(andelura::Refusal::NoRoom { needed: 26 }.number(), 8);
    /// ```
    pub fn number(self) -> u32 {
        match self {
            Refusal::NotATape => 1,
            Refusal::OverLimits => 2,
            Refusal::NotUtf8 => 3,
            Refusal::BadTable => 4,
            Refusal::BadNode => 5,
            Refusal::TooDeep => 6,
            Refusal::BadNesting => 7,
            Refusal::NoRoom { .. } => 8,
            Refusal::OutOfStep => 16,
        }
    }

    /// What was found.
    ///
    /// ```
    /// let found = andelura::Refusal::TooDeep.found();
    /// assert_eq!(found, "Before some node over 64 containers are open.");
    /// ```
    pub fn found(self) -> &'static str {
        match self {
            Refusal::NotATape => {
                "The file is shorter than the header of 36 bytes, its format is not 1, an offset \
                 is not where the section before it ends, or the file is longer or shorter than \
                 its sections."
            }
            Refusal::OverLimits => {
                "There is no node, or there are over 262,144 nodes, 1,024 entries, 16,384 name \
                 bytes or 4,194,304 source bytes."
            }
            Refusal::NotUtf8 => {
                "The source is not UTF-8: a sequence is cut short, overlong, a surrogate, or above \
                 U+10FFFF."
            }
            Refusal::BadTable => {
                "A name byte lies outside 21..7E, an entry's name reaches past the names, a \
                 category is over 7 or an element over 3."
            }
            Refusal::BadNode => {
                "A node's kind is over 8 or its flags over 3; Root stands elsewhere than at node \
                 0, or node 0 is no Root; a span reaches past the source or starts or ends inside \
                 a character; a Chapter or Verse has an entry for a sidebar, periph or row; a \
                 verse number that is glued to its marker would be cut inside a character."
            }
            Refusal::TooDeep => "Before some node over 64 containers are open.",
            Refusal::BadNesting => {
                "Nesting is wrong: a container's link is no later close; a close is the link of \
                 none, of two, or of a container and of Root; containers cross; Root's link is \
                 neither the node count nor a last BlockEnd."
            }
            Refusal::NoRoom { .. } => {
                "The output buffer is shorter than the text. The length needed is given."
            }
            Refusal::OutOfStep => {
                "A step before `start` or after `finish`, a second `start`, an entry after the \
                 first node; or a state that fits no such buffer."
            }
        }
    }

    /// What to do.
    ///
    /// ```
    /// assert!(andelura::Refusal::NotUtf8.advice().starts_with("Convert the project to UTF-8"));
    /// ```
    pub fn advice(self) -> &'static str {
        match self {
            Refusal::NotATape => {
                "The file was cut off, padded, or is no tape: export it again, and check that it \
                 was copied as bytes."
            }
            Refusal::OverLimits => {
                "Export one book to a tape. An exporter that writes no Root is at fault."
            }
            Refusal::NotUtf8 => {
                "Convert the project to UTF-8 before it is parsed; look for a legacy encoding in \
                 pasted text."
            }
            Refusal::BadTable => {
                "The exporter's table of markers is at fault: names are ASCII without spaces."
            }
            Refusal::BadNode => {
                "The exporter counted characters where bytes are meant, or its tape and source do \
                 not belong together."
            }
            Refusal::TooDeep => {
                "The project nests markers deeper than any USFM text does: look for a marker that \
                 is opened again and again and never closed."
            }
            Refusal::BadNesting => {
                "The exporter is at fault; no text can be written from such a tree."
            }
            Refusal::NoRoom { .. } => {
                "Call again with a buffer of that length, or ask for windows of the text."
            }
            Refusal::OutOfStep => {
                "Hand each step the state that the last one gave, and the same buffer. Add all \
                 entries before the first node."
            }
        }
    }
}

impl fmt::Display for Refusal {
    /// One line: the number, the length where one is needed, what was found, what to do.
    fn fmt(&self, f: &mut fmt::Formatter<'_>) -> fmt::Result {
        write!(f, "refused by number {}", self.number())?;
        if let Refusal::NoRoom { needed } = self {
            write!(f, ", {needed} bytes are needed")?;
        }
        write!(f, ": {} {}", self.found(), self.advice())
    }
}

impl Error for Refusal {}
