//! Reads a tape file by document 01, "The tape file": refusals 1 to 7, the lowest that applies, else the tape.

use crate::Document;
use crate::marker::{Category, MarkerId, TapeEntry, TapeTable};
use crate::tape::{Node, NodeKind, Tape, flags};

pub const HEADER_BYTES: u64 = 36;
pub const NODE_BYTES: u64 = 16;
pub const ENTRY_BYTES: u64 = 8;

pub const MAX_NODES: u32 = 262_144;
pub const MAX_ENTRIES: u32 = 1_024;
pub const MAX_NAMES: u32 = 16_384;
pub const MAX_SOURCE: u32 = 4_194_304;
pub const MAX_OPEN: i64 = 64;

/// A refusal's number, 1 to 7.
#[derive(Clone, Copy, PartialEq, Eq, Debug)]
pub struct Refusal(pub u8);

/// Gives the refusal `number` unless `fine`.
fn demand(fine: bool, number: u8) -> Result<(), Refusal> {
    if fine { Ok(()) } else { Err(Refusal(number)) }
}

pub fn load(file: &[u8]) -> Result<Document<'_>, Refusal> {
    let sections = laid_out(file)?;
    within_limits(&sections)?;
    let source = utf8_source(sections.source)?;
    let (names, entries) = good_entries(&sections)?;
    let nodes = good_nodes(&sections, source, &entries)?;
    not_too_deep(&nodes)?;
    nested(&nodes)?;
    Ok(for_rust(source, names, &entries, &nodes))
}

fn for_rust<'a>(source: &'a str, names: &str, entries: &[TapeEntry], nodes: &[RawNode]) -> Document<'a> {
    let tape = Tape { nodes: nodes.iter().map(RawNode::for_rust).collect() };
    Document::new(source, TapeTable::new(names, entries), tape)
}

/// The Rust's tape of a file, admitted or not; none where the Rust's types cannot hold what the file says.
pub(crate) fn held(file: &[u8]) -> Option<Document<'_>> {
    let sections = laid_out(file).ok()?;
    let source = utf8_source(sections.source).ok()?;
    let names = std::str::from_utf8(sections.names).ok()?;
    let entries = all_entries(&sections, names).ok()?;
    let records = sections.nodes.chunks_exact(NODE_BYTES as usize);
    let nodes = records.map(|r| raw_node(r).ok()).collect::<Option<Vec<_>>>()?;
    let whole = entries.iter().all(|e| names.get(e.name.clone()).is_some());
    whole.then(|| for_rust(source, names, &entries, &nodes))
}

// --- 1: the layout ---------------------------------------------------------

/// The four sections of a file that is laid out right.
struct Sections<'a> {
    nodes: &'a [u8],
    entries: &'a [u8],
    names: &'a [u8],
    source: &'a [u8],
}

fn u16_at(bytes: &[u8], at: usize) -> u16 {
    u16::from_le_bytes([bytes[at], bytes[at + 1]])
}

fn u32_at(bytes: &[u8], at: usize) -> u32 {
    u32::from_le_bytes([bytes[at], bytes[at + 1], bytes[at + 2], bytes[at + 3]])
}

/// Refusal 1. Sums are taken in u64 and so are exact.
fn laid_out(file: &[u8]) -> Result<Sections<'_>, Refusal> {
    demand(file.len() as u64 >= HEADER_BYTES, 1)?;
    let word = |i: usize| u64::from(u32_at(file, 4 * i));
    demand(word(0) == 1, 1)?;
    let widths = [NODE_BYTES, ENTRY_BYTES, 1, 1];
    let mut at = HEADER_BYTES;
    let mut starts = [0; 4];
    for (i, width) in widths.into_iter().enumerate() {
        let (count, offset) = (word(1 + 2 * i), word(2 + 2 * i));
        demand(offset == at, 1)?;
        starts[i] = at as usize;
        at += count * width;
    }
    demand(file.len() as u64 == at, 1)?;
    let [nodes, entries, names, source] = starts;
    Ok(Sections {
        nodes: &file[nodes..entries],
        entries: &file[entries..names],
        names: &file[names..source],
        source: &file[source..],
    })
}

// --- 2: the limits ---------------------------------------------------------

/// Refusal 2.
fn within_limits(s: &Sections<'_>) -> Result<(), Refusal> {
    let nodes = s.nodes.len() as u64 / NODE_BYTES;
    let entries = s.entries.len() as u64 / ENTRY_BYTES;
    demand(nodes >= 1 && nodes <= u64::from(MAX_NODES), 2)?;
    demand(entries <= u64::from(MAX_ENTRIES), 2)?;
    demand(s.names.len() as u64 <= u64::from(MAX_NAMES), 2)?;
    demand(s.source.len() as u64 <= u64::from(MAX_SOURCE), 2)
}

// --- 3: the source ---------------------------------------------------------

/// Refusal 3.
fn utf8_source(source: &[u8]) -> Result<&str, Refusal> {
    std::str::from_utf8(source).map_err(|_| Refusal(3))
}

// --- 4: names and entries --------------------------------------------------

/// Refusal 4. Every name byte counts, used by an entry or not.
fn good_entries<'a>(s: &Sections<'a>) -> Result<(&'a str, Vec<TapeEntry>), Refusal> {
    demand(s.names.iter().all(|b| (0x21..=0x7E).contains(b)), 4)?;
    let names = std::str::from_utf8(s.names).expect("ASCII");
    Ok((names, all_entries(s, names)?))
}

fn all_entries(s: &Sections<'_>, names: &str) -> Result<Vec<TapeEntry>, Refusal> {
    let records = s.entries.chunks_exact(ENTRY_BYTES as usize);
    records.map(|r| good_entry(r, names.len())).collect()
}

fn good_entry(record: &[u8], names: usize) -> Result<TapeEntry, Refusal> {
    let start = u64::from(u32_at(record, 0));
    let end = start + u64::from(u16_at(record, 4));
    demand(end <= names as u64, 4)?;
    Ok(TapeEntry {
        name: start as usize..end as usize,
        category: category(record[6]).ok_or(Refusal(4))?,
        usx_element: element(record[7]).ok_or(Refusal(4))?,
    })
}

fn category(code: u8) -> Option<Category> {
    Some(match code {
        0 => Category::Identification,
        1 => Category::Chapter,
        2 => Category::Verse,
        3 => Category::Paragraph,
        4 => Category::Character,
        5 => Category::Note,
        6 => Category::Milestone,
        7 => Category::Other,
        _ => return None,
    })
}

const OTHER_ELEMENT: &str = "other";

/// The element names that usx.rs and the patched `is_table_row` ask for.
fn element(code: u8) -> Option<&'static str> {
    Some(match code {
        0 => OTHER_ELEMENT,
        1 => "sidebar",
        2 => "periph",
        3 => "row",
        _ => return None,
    })
}

// --- 5: the nodes, each by itself ------------------------------------------

/// A node as it stands in the file, its kind already read.
struct RawNode {
    kind: NodeKind,
    flags: u8,
    marker: u16,
    link: u32,
    start: u32,
    length: u32,
}

const FLAG_SYNTHETIC: u8 = 1;
const FLAG_NESTED: u8 = 2;

impl RawNode {
    /// The node of the Rust's tape; the flags have other places there.
    fn for_rust(&self) -> Node {
        let bit = |here: u8, there: u8| if self.flags & here != 0 { there } else { 0 };
        Node {
            kind: self.kind,
            flags: bit(FLAG_SYNTHETIC, flags::SYNTHETIC) | bit(FLAG_NESTED, flags::NESTED),
            marker: MarkerId(self.marker),
            start: self.start,
            len: self.length,
            link: self.link,
        }
    }

    fn is_close(&self) -> bool {
        matches!(self.kind, NodeKind::MarkerClose | NodeKind::BlockEnd)
    }
}

fn kind(code: u8) -> Option<NodeKind> {
    Some(match code {
        0 => NodeKind::Root,
        1 => NodeKind::Text,
        2 => NodeKind::Attribute,
        3 => NodeKind::MarkerOpen,
        4 => NodeKind::MarkerClose,
        5 => NodeKind::BlockEnd,
        6 => NodeKind::Chapter,
        7 => NodeKind::Verse,
        8 => NodeKind::Error,
        _ => return None,
    })
}

/// Refusal 5.
fn good_nodes(s: &Sections<'_>, source: &str, entries: &[TapeEntry]) -> Result<Vec<RawNode>, Refusal> {
    let records = s.nodes.chunks_exact(NODE_BYTES as usize);
    records.enumerate().map(|(i, r)| good_node(i, r, source, entries)).collect()
}

/// A node whose kind and flags the Rust has.
fn raw_node(r: &[u8]) -> Result<RawNode, Refusal> {
    let node = RawNode {
        kind: kind(r[0]).ok_or(Refusal(5))?,
        flags: r[1],
        marker: u16_at(r, 2),
        link: u32_at(r, 4),
        start: u32_at(r, 8),
        length: u32_at(r, 12),
    };
    demand(node.flags <= FLAG_SYNTHETIC | FLAG_NESTED, 5)?;
    Ok(node)
}

fn good_node(i: usize, r: &[u8], source: &str, entries: &[TapeEntry]) -> Result<RawNode, Refusal> {
    let node = raw_node(r)?;
    demand((node.kind == NodeKind::Root) == (i == 0), 5)?;
    let text = span_text(&node, source).ok_or(Refusal(5))?;
    let entry = entries.get(usize::from(node.marker));
    if matches!(node.kind, NodeKind::Chapter | NodeKind::Verse) {
        demand(entry.is_none_or(|e| e.usx_element == OTHER_ELEMENT), 5)?;
    }
    if node.kind == NodeKind::Verse {
        demand(label_is_whole(text, entry.map_or(0, |e| e.name.len())), 5)?;
    }
    Ok(node)
}

/// The text of a node's span, if it lies in the source and both ends stand between characters.
fn span_text<'a>(node: &RawNode, source: &'a str) -> Option<&'a str> {
    let start = u64::from(node.start);
    let end = start + u64::from(node.length);
    source.get(usize::try_from(start).ok()?..usize::try_from(end).ok()?)
}

/// Whether a verse label is not cut inside a character: it is the second word, else the name past the entry's length.
pub(crate) fn label_is_whole(text: &str, entry_length: usize) -> bool {
    if text.split_whitespace().nth(1).is_some() {
        return true;
    }
    let name = name_in(text);
    entry_length >= name.len() || name.is_char_boundary(entry_length)
}

/// The marker name: behind an optional `\` and an optional `+`, up to white space, `*`, `|`, `\` or the end.
fn name_in(text: &str) -> &str {
    let text = text.strip_prefix('\\').unwrap_or(text);
    let text = text.strip_prefix('+').unwrap_or(text);
    let stops = |c: char| c.is_whitespace() || matches!(c, '*' | '|' | '\\');
    text.split(stops).next().unwrap_or("")
}

// --- 6: the depth ----------------------------------------------------------

/// A container: a MarkerOpen whose link is not its own index.
fn is_container(i: usize, node: &RawNode) -> bool {
    node.kind == NodeKind::MarkerOpen && node.link as usize != i
}

/// Refusal 6. The count is signed: closes may take it below zero.
fn not_too_deep(nodes: &[RawNode]) -> Result<(), Refusal> {
    let mut open: i64 = 0;
    for (i, node) in nodes.iter().enumerate() {
        demand(open <= MAX_OPEN, 6)?;
        open += i64::from(is_container(i, node)) - i64::from(node.is_close());
    }
    Ok(())
}

// --- 7: the nesting --------------------------------------------------------

/// Refusal 7.
fn nested(nodes: &[RawNode]) -> Result<(), Refusal> {
    let fine = root_ends_right(nodes)
        && containers_end_at_later_closes(nodes)
        && closes_have_one_opener(nodes)
        && containers_nest(nodes);
    demand(fine, 7)
}

/// The containers as (index, link), in order.
fn containers(nodes: &[RawNode]) -> impl Iterator<Item = (usize, usize)> + '_ {
    let all = nodes.iter().enumerate();
    all.filter(|&(i, n)| is_container(i, n)).map(|(i, n)| (i, n.link as usize))
}

/// Root's link is the node count, or the last node where that is a BlockEnd.
fn root_ends_right(nodes: &[RawNode]) -> bool {
    let link = nodes[0].link as usize;
    let last = nodes.len() - 1;
    link == nodes.len() || (link == last && nodes[last].kind == NodeKind::BlockEnd)
}

fn containers_end_at_later_closes(nodes: &[RawNode]) -> bool {
    containers(nodes).all(|(i, link)| link > i && nodes.get(link).is_some_and(RawNode::is_close))
}

/// Each close is the link of exactly one container or of Root. Links of containers are known to be closes.
fn closes_have_one_opener(nodes: &[RawNode]) -> bool {
    let mut openers = vec![0_u32; nodes.len() + 1];
    openers[nodes[0].link as usize] += 1;
    for (_, link) in containers(nodes) {
        openers[link] += 1;
    }
    nodes.iter().zip(openers).all(|(n, count)| !n.is_close() || count == 1)
}

/// No two containers cross: one that starts inside another ends inside it.
fn containers_nest(nodes: &[RawNode]) -> bool {
    let mut ends: Vec<usize> = Vec::new();
    for (i, link) in containers(nodes) {
        while ends.last().is_some_and(|&end| end < i) {
            ends.pop();
        }
        if ends.last().is_some_and(|&end| link > end) {
            return false;
        }
        ends.push(link);
    }
    true
}
