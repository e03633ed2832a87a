//! What the Rust's lib.rs gives the serializer: `Document` and `Version`, without the parser.

use crate::cst::Cursor;
use crate::marker::TapeTable;
use crate::serialize::tape_file::{self, ExportError};
use crate::tape::{Node, NodeKind, Tape};

/// marker.rs names its tables by version; a tape brings its own table.
#[allow(dead_code)]
#[derive(Clone, Copy)]
pub(crate) enum Version {
    V3_1,
    V3_2,
}

/// A tape with its source and its marker table. usx.rs adds `to_usx`, which asks for an admitted one.
pub struct Document<'src> {
    source: &'src str,
    table: TapeTable,
    tape: Tape,
}

impl<'src> Document<'src> {
    pub(crate) fn new(source: &'src str, table: TapeTable, tape: Tape) -> Self {
        Self { source, table, tape }
    }

    /// The chapter at the start: 1 if the tape has no Chapter node, else 0 (lib.rs).
    pub(crate) fn implicit_chapter(&self) -> u16 {
        let has_chapter = self.tape.nodes.iter().any(|n| n.kind == NodeKind::Chapter);
        if has_chapter { 0 } else { 1 }
    }

    /// The tape file that the exporter makes of this.
    pub fn to_tape_file(&self) -> Result<Vec<u8>, ExportError> {
        tape_file::export(&self.tape, self.table.table(), self.source)
    }

    /// A cursor at Root.
    pub(crate) fn cursor(&self) -> Cursor<'_> {
        Cursor::new(&self.tape, self.source, self.table.table(), 0)
    }

    pub(crate) fn source(&self) -> &'src str {
        self.source
    }

    pub(crate) fn nodes(&self) -> &[Node] {
        &self.tape.nodes
    }

    /// A cursor at each node, in order.
    pub(crate) fn cursors(&self) -> impl Iterator<Item = Cursor<'_>> {
        (0..self.tape.nodes.len() as u32).map(|i| Cursor::new(&self.tape, self.source, self.table.table(), i))
    }
}
