//! What the Rust's cursor says of every node of a tape, a line a node.

use std::io::{self, BufReader, Read, Write};

use crate::Document;
use crate::answer::read_tape;
use crate::cst::Cursor;
use crate::loader;
use crate::tape::{Node, NodeKind};

/// Dumps a stream of tapes; the form of a line stands in the README. A refused tape gives its number alone.
pub fn stream(input: impl Read, output: impl Write) -> io::Result<()> {
    each_node(input, output, |out, document, c| write_line(out, document.nodes(), c))
}

/// Writes of each node what `write` does, and an empty line behind each tape.
pub(crate) fn each_node<W: Write>(
    input: impl Read,
    output: W,
    write: fn(&mut W, &Document<'_>, Cursor<'_>) -> io::Result<()>,
) -> io::Result<()> {
    each_tape(input, output, |out, document| document.cursors().try_for_each(|cursor| write(out, document, cursor)))
}

/// Writes of each tape what `write` does, or its refusal, and an empty line behind each.
pub(crate) fn each_tape<W: Write>(
    input: impl Read,
    mut output: W,
    write: impl Fn(&mut W, &Document<'_>) -> io::Result<()>,
) -> io::Result<()> {
    let mut input = BufReader::with_capacity(1 << 16, input);
    let mut tape = Vec::new();
    while read_tape(&mut input, &mut tape)? {
        match loader::load(&tape) {
            Ok(document) => write(&mut output, &document)?,
            Err(refusal) => writeln!(output, "refused {}", refusal.0)?,
        }
        output.write_all(b"\n")?;
    }
    output.flush()
}

fn write_line(out: &mut impl Write, nodes: &[Node], c: Cursor<'_>) -> io::Result<()> {
    let place = |other: Option<Cursor<'_>>| other.map_or("-".to_string(), |o| index(nodes, o).to_string());
    write!(out, "{} {} ", index(nodes, c), kind_code(c.kind()))?;
    write!(out, "{}{} ", c.is_synthetic() as u8, c.is_nested() as u8)?;
    write!(out, "{} ", c.number().unwrap_or(0))?;
    match c.marker_info() {
        Some(info) => write!(out, "{} {} ", info.category as u8, element_code(info.usx_element))?,
        None => write!(out, "- - ")?,
    }
    write!(out, "{} {} {} ", place(c.first_child()), place(c.next_sibling()), place(c.matching_close()))?;
    let entry = c.marker_info().map_or("", |info| info.name);
    writeln!(out, "{entry}|{}|{}", c.marker_name(), c.text())
}

/// A cursor does not tell its index, but its node is an element of the tape.
pub(crate) fn index(nodes: &[Node], c: Cursor<'_>) -> usize {
    (std::ptr::from_ref(c.node()).addr() - nodes.as_ptr().addr()) / size_of::<Node>()
}

/// The kind's number in the tape file.
fn kind_code(kind: NodeKind) -> u8 {
    match kind {
        NodeKind::Root => 0,
        NodeKind::Text => 1,
        NodeKind::Attribute => 2,
        NodeKind::MarkerOpen => 3,
        NodeKind::MarkerClose => 4,
        NodeKind::BlockEnd => 5,
        NodeKind::Chapter => 6,
        NodeKind::Verse => 7,
        NodeKind::Error => 8,
    }
}

fn element_code(element: &str) -> u8 {
    match element {
        "sidebar" => 1,
        "periph" => 2,
        "row" => 3,
        _ => 0,
    }
}
