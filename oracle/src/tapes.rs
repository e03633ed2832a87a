//! Tape files put together: as parts, or from nested items.

pub const ROOT: u8 = 0;
pub const TEXT: u8 = 1;
pub const ATTRIBUTE: u8 = 2;
pub const OPEN: u8 = 3;
pub const CLOSE: u8 = 4;
pub const BLOCK_END: u8 = 5;
pub const CHAPTER: u8 = 6;
pub const VERSE: u8 = 7;
pub const ERROR: u8 = 8;

pub const SYNTHETIC: u8 = 1;
pub const NESTED: u8 = 2;

/// A marker number that no table of at most 1,024 entries knows.
pub const UNKNOWN: u16 = u16::MAX;

/// A node as it stands in a tape file.
#[derive(Clone, Copy, PartialEq, Eq, Debug)]
pub struct Node {
    pub kind: u8,
    pub flags: u8,
    pub marker: u16,
    pub link: u32,
    pub start: u32,
    pub length: u32,
}

impl Node {
    pub fn bytes(&self) -> [u8; 16] {
        let mut out = [0; 16];
        out[0] = self.kind;
        out[1] = self.flags;
        out[2..4].copy_from_slice(&self.marker.to_le_bytes());
        out[4..8].copy_from_slice(&self.link.to_le_bytes());
        out[8..12].copy_from_slice(&self.start.to_le_bytes());
        out[12..].copy_from_slice(&self.length.to_le_bytes());
        out
    }

    /// Nodes that stand one behind the other.
    pub fn read_all(bytes: &[u8]) -> Vec<Node> {
        let read = |b: &[u8]| Node {
            kind: b[0],
            flags: b[1],
            marker: u16_at(b, 2),
            link: u32_at(b, 4),
            start: u32_at(b, 8),
            length: u32_at(b, 12),
        };
        bytes.chunks_exact(16).map(read).collect()
    }
}

/// An entry as it stands in a tape file.
#[derive(Clone, Copy, PartialEq, Eq, Debug)]
pub struct Entry {
    pub start: u32,
    pub length: u16,
    pub category: u8,
    pub element: u8,
}

impl Entry {
    pub fn bytes(&self) -> [u8; 8] {
        let mut out = [0; 8];
        out[..4].copy_from_slice(&self.start.to_le_bytes());
        out[4..6].copy_from_slice(&self.length.to_le_bytes());
        out[6] = self.category;
        out[7] = self.element;
        out
    }

    /// Entries that stand one behind the other.
    pub fn read_all(bytes: &[u8]) -> Vec<Entry> {
        let read = |b: &[u8]| Entry { start: u32_at(b, 0), length: u16_at(b, 4), category: b[6], element: b[7] };
        bytes.chunks_exact(8).map(read).collect()
    }
}

fn u16_at(bytes: &[u8], at: usize) -> u16 {
    u16::from_le_bytes([bytes[at], bytes[at + 1]])
}

fn u32_at(bytes: &[u8], at: usize) -> u32 {
    u32::from_le_bytes([bytes[at], bytes[at + 1], bytes[at + 2], bytes[at + 3]])
}

/// The four sections of a tape file.
#[derive(Clone, PartialEq, Eq, Debug, Default)]
pub struct Parts {
    pub nodes: Vec<Node>,
    pub entries: Vec<Entry>,
    pub names: Vec<u8>,
    pub source: Vec<u8>,
}

impl Parts {
    /// The nine header words of the file.
    pub fn header(&self) -> [u32; 9] {
        let counts = [self.nodes.len(), self.entries.len(), self.names.len(), self.source.len()];
        let mut words = [1; 9];
        let mut at = 36;
        for (i, (count, width)) in counts.into_iter().zip([16, 8, 1, 1]).enumerate() {
            words[1 + 2 * i] = count as u32;
            words[2 + 2 * i] = at as u32;
            at += count * width;
        }
        words
    }

    pub fn file(&self) -> Vec<u8> {
        let mut out = Vec::new();
        out.extend(self.header().iter().flat_map(|w| w.to_le_bytes()));
        out.extend(self.nodes.iter().flat_map(Node::bytes));
        out.extend(self.entries.iter().flat_map(Entry::bytes));
        out.extend(&self.names);
        out.extend(&self.source);
        out
    }

    /// The sections of a file that is laid out right.
    pub fn read(file: &[u8]) -> Parts {
        let offset = |section: usize| u32_at(file, 8 + 8 * section) as usize;
        let [nodes, entries, names, source] = [0, 1, 2, 3].map(offset);
        Parts {
            nodes: Node::read_all(&file[nodes..entries]),
            entries: Entry::read_all(&file[entries..names]),
            names: file[names..source].to_vec(),
            source: file[source..].to_vec(),
        }
    }

    /// Adds an entry with a name of its own.
    pub fn add_entry(&mut self, name: &str, category: u8, element: u8) {
        let (start, length) = (self.names.len() as u32, name.len() as u16);
        self.entries.push(Entry { start, length, category, element });
        self.names.extend(name.bytes());
    }

    /// Adds a node whose text is put at the source's end; gives its index.
    pub fn add_node(&mut self, kind: u8, flags: u8, marker: u16, link: u32, text: &str) -> usize {
        let (start, length) = (self.source.len() as u32, text.len() as u32);
        self.nodes.push(Node { kind, flags, marker, link, start, length });
        self.source.extend(text.bytes());
        self.nodes.len() - 1
    }
}

/// Name, category and element of an entry.
pub type EntryOf<'a> = (&'a str, u8, u8);

/// One node without children, or a container with its children and its close.
#[derive(Clone, Debug)]
pub enum Item {
    Single {
        kind: u8,
        flags: u8,
        marker: u16,
        link: u32,
        text: String,
    },
    /// A MarkerOpen that links to itself.
    Leaf {
        flags: u8,
        marker: u16,
        text: String,
    },
    Container {
        flags: u8,
        marker: u16,
        text: String,
        children: Vec<Item>,
        close: Shut,
    },
}

/// The close of a container.
#[derive(Clone, Debug)]
pub struct Shut {
    pub kind: u8,
    pub flags: u8,
    pub text: String,
}

impl Shut {
    pub fn new(kind: u8) -> Shut {
        Shut { kind, flags: 0, text: String::new() }
    }
}

pub fn single(kind: u8, marker: u16, link: u32, text: &str) -> Item {
    Item::Single { kind, flags: 0, marker, link, text: text.into() }
}

pub fn text(text: &str) -> Item {
    single(TEXT, UNKNOWN, 0, text)
}

pub fn attribute(text: &str) -> Item {
    single(ATTRIBUTE, UNKNOWN, 0, text)
}

pub fn leaf(marker: u16, text: &str) -> Item {
    Item::Leaf { flags: 0, marker, text: text.into() }
}

/// A container closed by a node of kind `close`.
pub fn container(marker: u16, text: &str, close: u8, children: Vec<Item>) -> Item {
    Item::Container { flags: 0, marker, text: text.into(), children, close: Shut::new(close) }
}

/// The tape of these items under Root; spans follow each other in the source. With `root_end` Root has a BlockEnd.
pub fn tape(items: &[Item], entries: &[EntryOf<'_>], root_end: bool) -> Parts {
    let mut parts = Parts::default();
    for &(name, category, element) in entries {
        parts.add_entry(name, category, element);
    }
    parts.add_node(ROOT, SYNTHETIC, UNKNOWN, 0, "");
    add_items(&mut parts, items);
    let end = parts.nodes.len() as u32;
    if root_end {
        parts.add_node(BLOCK_END, SYNTHETIC, UNKNOWN, 0, "");
    }
    parts.nodes[0].link = end;
    parts
}

fn add_items(parts: &mut Parts, items: &[Item]) {
    for item in items {
        match item {
            Item::Single { kind, flags, marker, link, text } => {
                parts.add_node(*kind, *flags, *marker, *link, text);
            }
            Item::Leaf { flags, marker, text } => {
                let own = parts.nodes.len() as u32;
                parts.add_node(OPEN, *flags, *marker, own, text);
            }
            Item::Container { flags, marker, text, children, close } => {
                let open = parts.add_node(OPEN, *flags, *marker, 0, text);
                add_items(parts, children);
                let end = parts.add_node(close.kind, close.flags, *marker, 0, &close.text);
                parts.nodes[open].link = end as u32;
            }
        }
    }
}
