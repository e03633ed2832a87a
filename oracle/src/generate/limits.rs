//! Tapes on both sides of the limits of refusal 2; some have four megabytes.

use crate::loader::{MAX_ENTRIES, MAX_NAMES, MAX_NODES, MAX_SOURCE};
use crate::tapes::{BLOCK_END, Entry, Node, OPEN, Parts, ROOT, TEXT, UNKNOWN};

/// The tapes with the numbers they are meant to get.
pub fn limits() -> impl Iterator<Item = (Vec<u8>, u8)> {
    let sizes: [fn(u32) -> Parts; 4] = [with_nodes, with_entries, with_names, with_source];
    let maxima = [MAX_NODES, MAX_ENTRIES, MAX_NAMES, MAX_SOURCE];
    let each = sizes.into_iter().zip(maxima);
    let both = each.flat_map(|(make, max)| [(make(max).file(), 0), (make(max + 1).file(), 2)]);
    both.chain(std::iter::once((all_full().file(), 0)))
}

fn root(link: u32) -> Node {
    Node { kind: ROOT, flags: 1, marker: UNKNOWN, link, start: 0, length: 0 }
}

/// Paragraphs of 510 texts each, and texts at the end, to make `count` nodes.
fn with_nodes(count: u32) -> Parts {
    let mut nodes = vec![root(count)];
    while nodes.len() as u32 + 512 <= count {
        let at = nodes.len() as u32;
        nodes.push(Node { kind: OPEN, flags: 0, marker: 0, link: at + 511, start: 0, length: 0 });
        nodes.extend((0..510).map(|_| one_letter(TEXT)));
        nodes.push(one_letter(BLOCK_END));
    }
    nodes.resize(count as usize, one_letter(TEXT));
    let mut parts = Parts { nodes, source: b"a".to_vec(), ..Parts::default() };
    parts.add_entry("p", 3, 0);
    parts
}

fn one_letter(kind: u8) -> Node {
    Node { kind, flags: 0, marker: UNKNOWN, link: 0, start: 0, length: 1 }
}

fn with_entries(count: u32) -> Parts {
    let entry = Entry { start: 0, length: 1, category: 3, element: 0 };
    Parts { nodes: vec![root(1)], entries: vec![entry; count as usize], names: b"p".to_vec(), ..Parts::default() }
}

/// One entry has the longest name that stands in the names.
fn with_names(count: u32) -> Parts {
    let entry = Entry { start: 0, length: count as u16, category: 3, element: 0 };
    Parts { nodes: vec![root(1)], entries: vec![entry], names: vec![b'p'; count as usize], ..Parts::default() }
}

/// A paragraph with one text, which is the whole source.
fn with_source(count: u32) -> Parts {
    let open = Node { kind: OPEN, flags: 0, marker: 0, link: 3, start: 0, length: 0 };
    let text = Node { kind: TEXT, flags: 0, marker: UNKNOWN, link: 0, start: 0, length: count };
    let source = b"word ".iter().copied().cycle().take(count as usize).collect();
    let mut parts = Parts { nodes: vec![root(4), open, text, one_letter(BLOCK_END)], source, ..Parts::default() };
    parts.add_entry("p", 3, 0);
    parts
}

fn all_full() -> Parts {
    Parts {
        nodes: with_nodes(MAX_NODES).nodes,
        entries: with_entries(MAX_ENTRIES).entries,
        names: with_names(MAX_NAMES).names,
        source: with_source(MAX_SOURCE).source,
    }
}
