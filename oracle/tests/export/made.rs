//! Tapes, marker tables and sources put together from the Rust's own types.

use crate::marker::{Category, MarkerId, MarkerTable, TapeEntry, TapeTable};
use crate::tape::{Node, NodeKind, Tape};

/// A category with the element of its USX.
pub type Family = (Category, &'static str);

pub const PARA: Family = (Category::Paragraph, "para");
pub const VERSE: Family = (Category::Verse, "verse");

/// What a parser could hand over.
#[derive(Default)]
pub struct Made {
    nodes: Vec<Node>,
    entries: Vec<(String, Family)>,
    source: String,
}

impl Made {
    pub fn new(nodes: &[Node]) -> Made {
        Made { nodes: nodes.to_vec(), ..Made::default() }
    }

    pub fn entry(mut self, name: &str, family: Family) -> Made {
        self.entries.push((name.into(), family));
        self
    }

    pub fn source(self, source: &str) -> Made {
        Made { source: source.into(), ..self }
    }

    /// Hands it to an exporter.
    pub fn with<T>(&self, export: impl FnOnce(&Tape, &MarkerTable, &str) -> T) -> T {
        let names: String = self.entries.iter().map(|(name, _)| name.as_str()).collect();
        let mut start = 0;
        let mut entries = Vec::new();
        for (name, (category, usx_element)) in &self.entries {
            entries.push(TapeEntry { name: start..start + name.len(), category: *category, usx_element });
            start += name.len();
        }
        let table = TapeTable::new(&names, &entries);
        export(&Tape { nodes: self.nodes.clone() }, table.table(), &self.source)
    }

    /// The file of it that asks for nothing, rows being the entries named `tr`.
    pub fn unasked(&self) -> Vec<u8> {
        let mut parts = oracle::tapes::Parts { source: self.source.clone().into(), ..Default::default() };
        for (name, (category, element)) in &self.entries {
            let element = ["sidebar", "periph"].iter().position(|e| e == element).map_or(0, |at| at as u8 + 1);
            parts.add_entry(name, *category as u8, if name == "tr" { 3 } else { element });
        }
        parts.nodes = self.nodes.iter().map(in_file).collect();
        parts.file()
    }
}

/// The kinds in the order of a file's codes.
const KINDS: [NodeKind; 9] = {
    use NodeKind::*;
    [Root, Text, Attribute, MarkerOpen, MarkerClose, BlockEnd, Chapter, Verse, Error]
};

/// The node in a file; flags are those of 0 or of none that a file knows.
fn in_file(node: &Node) -> oracle::tapes::Node {
    let kind = KINDS.iter().position(|&kind| kind == node.kind).unwrap() as u8;
    let Node { flags, link, start, len: length, .. } = *node;
    oracle::tapes::Node { kind, flags, marker: node.marker.0, link, start, length }
}

pub fn node(kind: NodeKind) -> Node {
    Node { kind, flags: 0, marker: MarkerId::UNKNOWN, start: 0, len: 0, link: 0 }
}

pub fn root(link: u32) -> Node {
    Node { link, ..node(NodeKind::Root) }
}

pub fn open(link: u32, marker: u16) -> Node {
    Node { link, ..node(NodeKind::MarkerOpen).of(marker) }
}

impl Node {
    pub fn of(self, marker: u16) -> Node {
        Node { marker: MarkerId(marker), ..self }
    }

    pub fn over(self, start: u32, len: u32) -> Node {
        Node { start, len, ..self }
    }
}
