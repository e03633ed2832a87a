//! A parsed document as a tape file (docs/01-scope.md of Andelura, "The tape file"). The serializer admits every file that
//! is exported; a document that no file can hold is reported.

use std::fmt;

use super::render::is_table_row;
use crate::cst::Cursor;
use crate::marker::{Category, MarkerId, MarkerInfo, MarkerTable};
use crate::tape::{Node, NodeKind, Tape, flags};

// The most that a file holds.
const MAX_NODES: usize = 262_144;
const MAX_ENTRIES: usize = 1_024;
const MAX_NAME_BYTES: usize = 16_384;
const MAX_SOURCE_BYTES: usize = 4_194_304;
const MAX_OPEN: i64 = 64;

/// The tape file of a tape, of the marker table that its marker numbers mean, and of the source that was parsed.
pub fn export(tape: &Tape, table: &MarkerTable, source: &str) -> Result<Vec<u8>, ExportError> {
    let parsed = Parsed { tape, table, source };
    within_limits(parsed)?;
    printable_names(table)?;
    sound_nodes(parsed)?;
    let elements = elements(parsed)?;
    sound_milestones(parsed, &elements)?;
    not_too_deep(&tape.nodes)?;
    nested(&tape.nodes)?;
    Ok(file(parsed, &elements))
}

/// What the parser hands over.
#[derive(Clone, Copy)]
struct Parsed<'a> {
    tape: &'a Tape,
    table: &'a MarkerTable,
    source: &'a str,
}

impl<'a> Parsed<'a> {
    fn nodes(self) -> impl Iterator<Item = (usize, &'a Node)> {
        self.tape.nodes.iter().enumerate()
    }

    fn cursor(self, node: usize) -> Cursor<'a> {
        Cursor::new(self.tape, self.source, self.table, node as u32)
    }
}

// --- the file ---------------------------------------------------------------

const FORMAT: u32 = 1;
const HEADER_BYTES: usize = 36;
const NODE_BYTES: usize = 16;
const ENTRY_BYTES: usize = 8;

/// Header, nodes, entries, names, source. The names stand one behind the other in the order of the entries.
fn file(parsed: Parsed<'_>, elements: &[Element]) -> Vec<u8> {
    let names: String = parsed.table.entries().iter().map(|info| info.name).collect();
    let mut out = header([parsed.tape.len(), parsed.table.len(), names.len(), parsed.source.len()]);
    parsed.tape.nodes.iter().for_each(|node| put_node(&mut out, node));
    put_entries(&mut out, parsed.table, elements);
    out.extend_from_slice(names.as_bytes());
    out.extend_from_slice(parsed.source.as_bytes());
    out
}

/// The format, then count and offset of each section. The limits keep all of them far below 2^32.
fn header(counts: [usize; 4]) -> Vec<u8> {
    let mut words = vec![FORMAT];
    let mut offset = HEADER_BYTES;
    for (count, width) in counts.into_iter().zip([NODE_BYTES, ENTRY_BYTES, 1, 1]) {
        words.extend([count as u32, offset as u32]);
        offset += count * width;
    }
    words.iter().flat_map(|word| word.to_le_bytes()).collect()
}

fn put_node(out: &mut Vec<u8>, node: &Node) {
    out.extend([kind_code(node.kind), flag_bits(node.flags)]);
    out.extend(node.marker.0.to_le_bytes());
    out.extend([node.link, node.start, node.len].iter().flat_map(|number| number.to_le_bytes()));
}

fn put_entries(out: &mut Vec<u8>, table: &MarkerTable, elements: &[Element]) {
    let mut start = 0;
    for (info, &element) in table.entries().iter().zip(elements) {
        out.extend((start as u32).to_le_bytes());
        out.extend((info.name.len() as u16).to_le_bytes());
        out.extend([category_code(info.category), element as u8]);
        start += info.name.len();
    }
}

fn kind_code(kind: NodeKind) -> u8 {
    match kind {
        NodeKind::Root => 0,
        NodeKind::Text => 1,
        NodeKind::Attribute => 2,
        NodeKind::MarkerOpen => 3,
        NodeKind::MarkerClose => 4,
        NodeKind::BlockEnd => 5,
        NodeKind::Chapter => 6,
        NodeKind::Verse => 7,
        NodeKind::Error => 8,
    }
}

fn category_code(category: Category) -> u8 {
    match category {
        Category::Identification => 0,
        Category::Chapter => 1,
        Category::Verse => 2,
        Category::Paragraph => 3,
        Category::Character => 4,
        Category::Note => 5,
        Category::Milestone => 6,
        Category::Other => 7,
    }
}

/// The flags that no text depends on; a file has no place for them.
const LEFT_OUT: u8 = flags::SELF_CLOSING | flags::HAS_ATTRS | flags::HAS_ERROR;

fn flag_bits(node_flags: u8) -> u8 {
    let bit = |flag: u8, code: u8| if node_flags & flag != 0 { code } else { 0 };
    bit(flags::SYNTHETIC, 1) | bit(flags::NESTED, 2)
}

// --- limits and names -------------------------------------------------------

fn within_limits(parsed: Parsed<'_>) -> Result<(), ExportError> {
    let (nodes, entries, source) = (parsed.tape.len(), parsed.table.len(), parsed.source.len());
    demand(nodes > 0, ExportError::NoNodes)?;
    demand(nodes <= MAX_NODES, ExportError::TooManyNodes { nodes })?;
    demand(entries <= MAX_ENTRIES, ExportError::TooManyEntries { entries })?;
    let mut names = 0;
    for (entry, info) in parsed.table.entries().iter().enumerate() {
        let length = info.name.len();
        demand(u16::try_from(length).is_ok(), ExportError::LongName { entry, length })?;
        names += length;
    }
    demand(names <= MAX_NAME_BYTES, ExportError::TooManyNameBytes { bytes: names })?;
    demand(source <= MAX_SOURCE_BYTES, ExportError::LongSource { bytes: source })
}

fn printable_names(table: &MarkerTable) -> Result<(), ExportError> {
    for (entry, info) in table.entries().iter().enumerate() {
        if let Some(byte) = info.name.bytes().find(|byte| !(0x21..=0x7E).contains(byte)) {
            return Err(ExportError::NameByte { entry, byte });
        }
    }
    Ok(())
}

// --- the nodes, each by itself ----------------------------------------------

fn sound_nodes(parsed: Parsed<'_>) -> Result<(), ExportError> {
    for (at, node) in parsed.nodes() {
        let known = flags::SYNTHETIC | flags::NESTED | LEFT_OUT;
        demand(node.flags & !known == 0, ExportError::UnknownFlags { node: at, flags: node.flags })?;
        let is_root = node.kind == NodeKind::Root;
        demand(at > 0 || is_root, ExportError::NoRoot { kind: node.kind })?;
        demand(at == 0 || !is_root, ExportError::SecondRoot { node: at })?;
        sound_span(at, node, parsed.source)?;
    }
    Ok(())
}

fn sound_span(at: usize, node: &Node, source: &str) -> Result<(), ExportError> {
    let (start, length) = (node.start, node.len);
    let end = start.checked_add(length).ok_or(ExportError::SpanPastU32 { node: at, start, length })?;
    demand(end as usize <= source.len(), ExportError::SpanPastSource { node: at, end, source: source.len() })?;
    for byte in [start, end] {
        demand(source.is_char_boundary(byte as usize), ExportError::SpanInCharacter { node: at, byte })?;
    }
    Ok(())
}

/// Chapters and verses: their entries' elements, and the labels that `verse_label` cuts from the marker's name.
fn sound_milestones(parsed: Parsed<'_>, elements: &[Element]) -> Result<(), ExportError> {
    for (at, node) in parsed.nodes() {
        if matches!(node.kind, NodeKind::Chapter | NodeKind::Verse) {
            let element = elements.get(usize::from(node.marker.0)).map_or("", |element| element.name());
            demand(element.is_empty(), ExportError::MilestoneElement { node: at, kind: node.kind, element })?;
        }
        if node.kind == NodeKind::Verse {
            demand(has_whole_label(parsed.cursor(at)), ExportError::LabelCut { node: at })?;
        }
    }
    Ok(())
}

/// A label is the second word, else the marker's name past the length of the entry's.
fn has_whole_label(verse: Cursor<'_>) -> bool {
    let (name, cut) = (verse.marker_name(), verse.marker_info().map_or(0, |info| info.name.len()));
    verse.text().split_whitespace().nth(1).is_some() || cut >= name.len() || name.is_char_boundary(cut)
}

// --- the elements of the entries --------------------------------------------

/// What the serializer takes a marker for at block level.
#[derive(Clone, Copy)]
enum Element {
    Other = 0,
    Sidebar = 1,
    Periph = 2,
    Row = 3,
}

impl Element {
    /// A row comes first, as in `usx_blocks`.
    fn new(info: &MarkerInfo, is_row: bool) -> Element {
        match info.usx_element {
            _ if is_row => Element::Row,
            "sidebar" => Element::Sidebar,
            "periph" => Element::Periph,
            _ => Element::Other,
        }
    }

    /// Empty for what is none of the three.
    fn name(self) -> &'static str {
        match self {
            Element::Other => "",
            Element::Sidebar => "sidebar",
            Element::Periph => "periph",
            Element::Row => "row",
        }
    }
}

/// The element of each entry; rows are those of `is_table_row`.
fn elements(parsed: Parsed<'_>) -> Result<Vec<Element>, ExportError> {
    let answers = rows_of_nodes(parsed)?;
    let each = parsed.table.iter().zip(answers);
    Ok(each.map(|((id, info), row)| Element::new(info, row.unwrap_or_else(|| is_row(parsed.table, id)))).collect())
}

/// For each entry what `is_table_row` says of its MarkerOpens; none where the tape has none.
fn rows_of_nodes(parsed: Parsed<'_>) -> Result<Vec<Option<bool>>, ExportError> {
    let mut answers = vec![None; parsed.table.len()];
    for (at, node) in parsed.nodes() {
        let row = is_table_row(parsed.cursor(at));
        let entry = usize::from(node.marker.0);
        match answers.get_mut(entry).filter(|_| node.kind == NodeKind::MarkerOpen) {
            Some(answer) => demand(*answer.get_or_insert(row) == row, ExportError::MixedRows { node: at, entry })?,
            None => demand(!row, ExportError::StrayRow { node: at })?,
        }
    }
    Ok(answers)
}

/// What `is_table_row` says of a MarkerOpen of that entry.
fn is_row(table: &MarkerTable, marker: MarkerId) -> bool {
    let open = Node { kind: NodeKind::MarkerOpen, flags: 0, marker, start: 0, len: 0, link: 0 };
    is_table_row(Cursor::new(&Tape { nodes: vec![open] }, "", table, 0))
}

// --- the tree ---------------------------------------------------------------

fn is_close(node: &Node) -> bool {
    matches!(node.kind, NodeKind::MarkerClose | NodeKind::BlockEnd)
}

/// A MarkerOpen that links to itself is a leaf, any other a container.
fn is_container(at: usize, node: &Node) -> bool {
    node.kind == NodeKind::MarkerOpen && node.link as usize != at
}

/// The containers as index and link, in order.
fn containers(nodes: &[Node]) -> impl Iterator<Item = (usize, usize)> + '_ {
    let all = nodes.iter().enumerate();
    all.filter(|&(at, node)| is_container(at, node)).map(|(at, node)| (at, node.link as usize))
}

fn not_too_deep(nodes: &[Node]) -> Result<(), ExportError> {
    let mut open = 0;
    for (at, node) in nodes.iter().enumerate() {
        demand(open <= MAX_OPEN, ExportError::TooDeep { node: at })?;
        open += i64::from(is_container(at, node)) - i64::from(is_close(node));
    }
    Ok(())
}

fn nested(nodes: &[Node]) -> Result<(), ExportError> {
    root_ends_last(nodes)?;
    containers(nodes).try_for_each(|(at, link)| links_to_later_close(nodes, at, link))?;
    closes_belong_to_one(nodes)?;
    containers_do_not_cross(nodes)
}

fn root_ends_last(nodes: &[Node]) -> Result<(), ExportError> {
    let (link, last) = (nodes[0].link as usize, nodes.len() - 1);
    let own_end = link == last && nodes[last].kind == NodeKind::BlockEnd;
    demand(own_end || link == nodes.len(), ExportError::RootLink { link, nodes: nodes.len() })
}

fn links_to_later_close(nodes: &[Node], node: usize, link: usize) -> Result<(), ExportError> {
    demand(link > node, ExportError::LinkBack { node, link })?;
    let target = nodes.get(link).ok_or(ExportError::LinkPastEnd { node, link })?;
    demand(is_close(target), ExportError::LinkToNoClose { node, link, kind: target.kind })
}

/// All links are known to lie in the tape, Root's at most at its end.
fn closes_belong_to_one(nodes: &[Node]) -> Result<(), ExportError> {
    let mut owners = vec![0_usize; nodes.len() + 1];
    owners[nodes[0].link as usize] += 1;
    containers(nodes).for_each(|(_, link)| owners[link] += 1);
    for (at, _) in nodes.iter().enumerate().filter(|(_, node)| is_close(node)) {
        demand(owners[at] > 0, ExportError::StrayClose { node: at })?;
        demand(owners[at] == 1, ExportError::SharedClose { node: at })?;
    }
    Ok(())
}

fn containers_do_not_cross(nodes: &[Node]) -> Result<(), ExportError> {
    let mut ends: Vec<usize> = Vec::new();
    for (at, link) in containers(nodes) {
        while ends.last().is_some_and(|&end| end < at) {
            ends.pop();
        }
        demand(ends.last().is_none_or(|&end| link < end), ExportError::Crossing { node: at, link })?;
        ends.push(link);
    }
    Ok(())
}

// --- what no file can hold --------------------------------------------------

/// Gives the error unless `fine`.
fn demand(fine: bool, error: ExportError) -> Result<(), ExportError> {
    if fine { Ok(()) } else { Err(error) }
}

/// A shape that no tape file can hold. Nodes and entries count from 0.
#[derive(Clone, Copy, PartialEq, Eq, Debug)]
#[non_exhaustive]
pub enum ExportError {
    /// A tape without a node.
    NoNodes,
    /// Over 262,144 nodes.
    TooManyNodes { nodes: usize },
    /// Over 1,024 entries in the marker table.
    TooManyEntries { entries: usize },
    /// A name whose length is no u16.
    LongName { entry: usize, length: usize },
    /// Names that have over 16,384 bytes in sum.
    TooManyNameBytes { bytes: usize },
    /// A source over 4,194,304 bytes.
    LongSource { bytes: usize },
    /// A name with a byte outside 21..7E.
    NameByte { entry: usize, byte: u8 },
    /// A node with a flag that tape.rs does not name.
    UnknownFlags { node: usize, flags: u8 },
    /// A first node that is no Root.
    NoRoot { kind: NodeKind },
    /// A Root behind the first node.
    SecondRoot { node: usize },
    /// A span whose end is no u32.
    SpanPastU32 { node: usize, start: u32, length: u32 },
    /// A span that ends past the source.
    SpanPastSource { node: usize, end: u32, source: usize },
    /// A span that starts or ends inside a character.
    SpanInCharacter { node: usize, byte: u32 },
    /// A row that is no MarkerOpen of an entry.
    StrayRow { node: usize },
    /// Two MarkerOpens of one entry, of which one is a row.
    MixedRows { node: usize, entry: usize },
    /// A Chapter or Verse whose entry is for a sidebar, periph or row.
    MilestoneElement { node: usize, kind: NodeKind, element: &'static str },
    /// A Verse whose label starts inside a character.
    LabelCut { node: usize },
    /// Over 64 containers open before a node.
    TooDeep { node: usize },
    /// A Root that links neither to the node count nor to a last BlockEnd.
    RootLink { link: usize, nodes: usize },
    /// A container that links to a node before it.
    LinkBack { node: usize, link: usize },
    /// A container that links past the last node.
    LinkPastEnd { node: usize, link: usize },
    /// A container that links to a node that is no close.
    LinkToNoClose { node: usize, link: usize, kind: NodeKind },
    /// A close that neither a container nor Root links to.
    StrayClose { node: usize },
    /// A close that two containers, or a container and Root, link to.
    SharedClose { node: usize },
    /// A container that ends behind the one it starts in.
    Crossing { node: usize, link: usize },
}

use ExportError::*;

const BAD_TREE: &str = "report the source to the parser's authors: such a tree has no text";

impl ExportError {
    /// The number by which the serializer refuses a file of that shape; none where no such file can be written.
    pub fn refusal(&self) -> Option<u8> {
        match self {
            NoNodes | TooManyNodes { .. } | TooManyEntries { .. } => Some(2),
            LongName { .. } | TooManyNameBytes { .. } | LongSource { .. } => Some(2),
            NameByte { .. } => Some(4),
            UnknownFlags { .. } | NoRoot { .. } | SecondRoot { .. } => Some(5),
            SpanPastU32 { .. } | SpanPastSource { .. } | SpanInCharacter { .. } => Some(5),
            MilestoneElement { .. } | LabelCut { .. } => Some(5),
            StrayRow { .. } | MixedRows { .. } => None,
            TooDeep { .. } => Some(6),
            RootLink { .. } | LinkBack { .. } | LinkPastEnd { .. } | LinkToNoClose { .. } => Some(7),
            StrayClose { .. } | SharedClose { .. } | Crossing { .. } => Some(7),
        }
    }

    /// What to do.
    pub fn advice(&self) -> &'static str {
        match self {
            NoNodes | NoRoot { .. } | SecondRoot { .. } => "hand over the tape as the parser made it, Root in front",
            TooManyNodes { .. } | LongSource { .. } => "export one book to a file",
            TooManyEntries { .. } | TooManyNameBytes { .. } => "leave markers out of data/markers.toml",
            LongName { .. } | NameByte { .. } => "mend the name in data/markers.toml: few bytes, ASCII, no space",
            UnknownFlags { .. } => "name the flag in LEFT_OUT if no text depends on it, else the format has to change",
            SpanPastU32 { .. } | SpanPastSource { .. } => "hand over the very source that was parsed",
            SpanInCharacter { .. } => "hand over the very source that was parsed; spans count bytes",
            StrayRow { .. } | MixedRows { .. } => "a file has one answer for each entry: its format has to change",
            MilestoneElement { .. } => "give chapters and verses entries of their own in data/markers.toml",
            LabelCut { .. } => "put a space before the verse's number in the source",
            TooDeep { .. } => "look in the source for a marker that is opened again and again and never closed",
            RootLink { .. } | LinkBack { .. } | LinkPastEnd { .. } | LinkToNoClose { .. } => BAD_TREE,
            StrayClose { .. } | SharedClose { .. } | Crossing { .. } => BAD_TREE,
        }
    }

    fn found(&self, f: &mut fmt::Formatter<'_>) -> fmt::Result {
        match self {
            NoNodes => write!(f, "the tape has no node"),
            TooManyNodes { nodes } => write!(f, "the tape has {nodes} nodes, over 262,144"),
            TooManyEntries { entries } => write!(f, "the marker table has {entries} entries, over 1,024"),
            LongName { entry, length } => write!(f, "the name of entry {entry} has {length} bytes, over 65,535"),
            TooManyNameBytes { bytes } => write!(f, "the marker table's names have {bytes} bytes, over 16,384"),
            LongSource { bytes } => write!(f, "the source has {bytes} bytes, over 4,194,304"),
            NameByte { entry, byte } => write!(f, "the name of entry {entry} holds byte {byte:02X}, outside 21..7E"),
            UnknownFlags { node, flags } => write!(f, "node {node} has flags {flags:08b}, one of them unknown"),
            NoRoot { kind } => write!(f, "node 0 is no Root but a {kind:?}"),
            SecondRoot { node } => write!(f, "node {node} is a second Root"),
            SpanPastU32 { node, start, length } => write!(f, "node {node} ends past u32: {length} bytes from {start}"),
            SpanPastSource { node, end, source } => write!(f, "node {node} ends at {end}, past a source of {source}"),
            SpanInCharacter { node, byte } => write!(f, "node {node} starts or ends at {byte}, inside a character"),
            StrayRow { node } => write!(f, "node {node} is a row and no MarkerOpen of an entry"),
            MixedRows { node, entry } => write!(f, "of node {node} and another of entry {entry} one is a row"),
            MilestoneElement { node, kind, element } => write!(f, "node {node} is a {kind:?} with a {element}'s entry"),
            LabelCut { node } => write!(f, "the label of verse node {node} starts inside a character"),
            TooDeep { node } => write!(f, "over 64 containers are open before node {node}"),
            RootLink { link, nodes } => write!(f, "Root links to {link}, not to the end of {nodes} nodes"),
            LinkBack { node, link } => write!(f, "container node {node} links back to {link}"),
            LinkPastEnd { node, link } => write!(f, "container node {node} links to {link}, past the last node"),
            LinkToNoClose { node, link, kind } => write!(f, "node {node} links to {link}, a {kind:?} and no close"),
            StrayClose { node } => write!(f, "close node {node} belongs to no container"),
            SharedClose { node } => write!(f, "close node {node} belongs to two"),
            Crossing { node, link } => write!(f, "container node {node} ends at {link}, behind the one it starts in"),
        }
    }
}

impl fmt::Display for ExportError {
    fn fmt(&self, f: &mut fmt::Formatter<'_>) -> fmt::Result {
        self.found(f)?;
        write!(f, ": {}", self.advice())
    }
}

impl std::error::Error for ExportError {}
