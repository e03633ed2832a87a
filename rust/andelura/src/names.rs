//! Names that would break the identifiers of a text.

use std::fmt;

use crate::{ffi, Refusal};

/// Looks for the first book code, verse label, marker name or attribute key of a tape that holds
/// `&`, `<`, `>` or `"`.
///
/// Where none does, the text of the tape is accepted by [`check`](crate::check), and every start
/// and its end name the same chapter or verse; both are proved. `docs/IDENTIFIERS.md` says what
/// follows for an importer.
///
/// ```
/// let tape = include_bytes!("../../../examples/listing.tape");
/// assert_eq!(andelura::find_names(tape), Ok(andelura::Names::Kept));
/// ```
pub fn find_names(tape: &[u8]) -> Result<Names<'_>, Refusal> {
    let mut numbers = [0; 5];
    Refusal::answer(ffi::find_names(tape, &mut numbers), 0)?;
    let [what, node, start, len, line] = numbers;
    let Some(what) = NameKind::told(what) else {
        return Ok(Names::Kept);
    };
    let (start, len) = (start as usize, len as usize);
    let bytes = source(tape)
        .get(start..)
        .and_then(|rest| rest.get(..len))
        .unwrap_or_default();
    Ok(Names::Broken(BrokenName {
        what,
        node: node as u32,
        start,
        line: line as usize,
        bytes,
    }))
}

/// The source of an admitted tape: the last section, whose offset is the header's last number.
fn source(tape: &[u8]) -> &[u8] {
    let Some(&[a, b, c, d]) = tape.get(32..36) else {
        return &[];
    };
    tape.get(u32::from_le_bytes([a, b, c, d]) as usize..)
        .unwrap_or_default()
}

/// What is said of a tape's names.
#[derive(Clone, Copy, Debug, PartialEq, Eq, Hash)]
pub enum Names<'t> {
    /// No name holds one of the four bytes.
    Kept,
    /// The first name that does.
    Broken(BrokenName<'t>),
}

impl fmt::Display for Names<'_> {
    /// One line: `kept`, or `found` and the name with its place.
    fn fmt(&self, f: &mut fmt::Formatter<'_>) -> fmt::Result {
        match self {
            Names::Kept => f.write_str("kept"),
            Names::Broken(name) => write!(f, "found {name}"),
        }
    }
}

/// A name that holds `&`, `<`, `>` or `"`, and where it stands.
#[derive(Clone, Copy, Debug, PartialEq, Eq, Hash)]
pub struct BrokenName<'t> {
    /// What the name is.
    pub what: NameKind,
    /// The number of its node; Root is 0.
    pub node: u32,
    /// The byte of the source where it starts, from 0.
    pub start: usize,
    /// The line of the source where it starts, from 1.
    pub line: usize,
    /// Its bytes, a part of the tape's source.
    pub bytes: &'t [u8],
}

impl fmt::Display for BrokenName<'_> {
    /// One line: what the name is, its node, its place in the source and its bytes, control
    /// characters escaped.
    fn fmt(&self, f: &mut fmt::Formatter<'_>) -> fmt::Result {
        let BrokenName {
            what,
            node,
            start,
            line,
            bytes,
        } = self;
        write!(
            f,
            "{what} in node {node}, at byte {start}, line {line} of the source: "
        )?;
        for c in String::from_utf8_lossy(bytes).chars() {
            if c.is_control() {
                write!(f, "{}", c.escape_default())?;
            } else {
                write!(f, "{c}")?;
            }
        }
        Ok(())
    }
}

/// What a name is.
#[derive(Clone, Copy, Debug, PartialEq, Eq, Hash)]
pub enum NameKind {
    /// The first word of an `\id`.
    BookCode,
    /// The number of a verse, as it stands in the source.
    VerseLabel,
    /// The name of a marker.
    MarkerName,
    /// The key of an attribute.
    AttributeKey,
}

impl NameKind {
    /// What a number of the library stands for; 0 is none, and of the numbers it gives 4 is the
    /// last.
    fn told(number: u64) -> Option<NameKind> {
        match number {
            0 => None,
            1 => Some(NameKind::BookCode),
            2 => Some(NameKind::VerseLabel),
            3 => Some(NameKind::MarkerName),
            _ => Some(NameKind::AttributeKey),
        }
    }
}

impl fmt::Display for NameKind {
    fn fmt(&self, f: &mut fmt::Formatter<'_>) -> fmt::Result {
        f.write_str(match self {
            NameKind::BookCode => "book code",
            NameKind::VerseLabel => "verse label",
            NameKind::MarkerName => "marker name",
            NameKind::AttributeKey => "attribute key",
        })
    }
}
