//! What nodes and entries of a tape hold: spans, flags, categories, elements.

/// A part of the source, in bytes. A pair `(start, len)` may stand for it.
///
/// ```
/// use andelura::Span;
///
/// assert_eq!(Span::from((3, 6)), Span { start: 3, len: 6 });
/// ```
#[derive(Clone, Copy, Debug, Default, PartialEq, Eq, Hash)]
pub struct Span {
    /// The byte of the source where it starts, from 0.
    pub start: u32,
    /// How many bytes it has.
    pub len: u32,
}

impl From<(u32, u32)> for Span {
    fn from((start, len): (u32, u32)) -> Span {
        Span { start, len }
    }
}

/// The flags of a node.
#[derive(Clone, Copy, Debug, Default, PartialEq, Eq, Hash)]
pub struct Flags {
    /// The node stands for nothing in the source.
    pub synthetic: bool,
    /// The marker is nested: it has a `+`.
    pub nested: bool,
}

impl Flags {
    /// No flag.
    pub const NONE: Flags = Flags {
        synthetic: false,
        nested: false,
    };

    /// Synthetic alone.
    pub const SYNTHETIC: Flags = Flags {
        synthetic: true,
        nested: false,
    };

    /// Nested alone.
    pub const NESTED: Flags = Flags {
        synthetic: false,
        nested: true,
    };

    /// The byte of a tape.
    pub(crate) fn bits(self) -> u8 {
        u8::from(self.synthetic) + 2 * u8::from(self.nested)
    }
}

/// The category of a marker.
#[derive(Clone, Copy, Debug, PartialEq, Eq, Hash)]
#[repr(u8)]
pub enum Category {
    /// `\id`, `\ide`, `\h`.
    Identification = 0,
    /// `\c`.
    Chapter = 1,
    /// `\v`.
    Verse = 2,
    /// `\p`, `\q1`, `\m`.
    Paragraph = 3,
    /// `\nd`, `\w`, `\add`.
    Character = 4,
    /// `\f`, `\x`.
    Note = 5,
    /// `\ts`, `\qt-s`.
    Milestone = 6,
    /// Any other, such as `\esb`.
    Other = 7,
}

/// What element a marker is, besides its category.
#[derive(Clone, Copy, Debug, Default, PartialEq, Eq, Hash)]
#[repr(u8)]
pub enum Element {
    /// None of those below.
    #[default]
    Other = 0,
    /// A sidebar.
    Sidebar = 1,
    /// A periph.
    Periph = 2,
    /// A row of a table.
    Row = 3,
}

/// The node that closes a container.
#[derive(Clone, Copy, Debug, PartialEq, Eq, Hash)]
pub enum Close {
    /// A BlockEnd.
    BlockEnd,
    /// A MarkerClose.
    MarkerClose,
}
