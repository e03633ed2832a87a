//! Tapes laid out by hand, so that damaged ones can be made, and the listing of document 01.

#![allow(dead_code)] // each test uses some of it

pub const TAPE: &[u8] = include_bytes!("../../../../examples/listing.tape");
pub const TEXT: &[u8] = include_bytes!("../../../../examples/listing.usx");

/// The kinds of nodes.
pub const ROOT: u8 = 0;
pub const TEXT_NODE: u8 = 1;
pub const OPEN: u8 = 3;
pub const BLOCK_END: u8 = 5;

/// The listing's offsets.
pub const NODES_AT: usize = 36;
pub const ENTRIES_AT: usize = 180;
pub const NAMES_AT: usize = 212;
pub const SOURCE_AT: usize = 217;

/// The parts of a tape file.
#[derive(Clone, Default)]
pub struct Parts {
    pub nodes: Vec<[u8; 16]>,
    pub entries: Vec<[u8; 8]>,
    pub names: Vec<u8>,
    pub source: Vec<u8>,
}

impl Parts {
    /// The file: header and sections.
    pub fn file(&self) -> Vec<u8> {
        let sections = [
            (self.nodes.len(), self.nodes.concat()),
            (self.entries.len(), self.entries.concat()),
            (self.names.len(), self.names.clone()),
            (self.source.len(), self.source.clone()),
        ];
        let mut header = vec![1];
        let mut at = 36;
        for (count, bytes) in &sections {
            header.extend([*count as u32, at]);
            at += bytes.len() as u32;
        }
        let header = header.into_iter().flat_map(u32::to_le_bytes);
        header
            .chain(sections.into_iter().flat_map(|(_, bytes)| bytes))
            .collect()
    }
}

/// A node of 16 bytes.
pub fn node(kind: u8, flags: u8, marker: u16, link: u32, start: u32, len: u32) -> [u8; 16] {
    let mut bytes = [0; 16];
    bytes[0] = kind;
    bytes[1] = flags;
    bytes[2..4].copy_from_slice(&marker.to_le_bytes());
    bytes[4..8].copy_from_slice(&link.to_le_bytes());
    bytes[8..12].copy_from_slice(&start.to_le_bytes());
    bytes[12..].copy_from_slice(&len.to_le_bytes());
    bytes
}

/// The listing with one byte changed.
pub fn listing_with(at: usize, byte: u8) -> Vec<u8> {
    let mut tape = TAPE.to_vec();
    assert_ne!(tape[at], byte);
    tape[at] = byte;
    tape
}
