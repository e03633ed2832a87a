//! Random admitted tapes: any kinds in any place, any entries, spans that overlap.

use super::pool;
use super::rng::Rng;
use crate::loader;
use crate::tapes::*;

const MODE: u64 = 2;

/// Tape `number` of `seed`.
pub fn random(seed: u64, number: u64) -> Vec<u8> {
    let mut r = Rng::new(MODE, seed, number);
    let mut parts = Parts::default();
    add_entries(&mut r, &mut parts);
    let source = Source::new(&mut r);
    add_nodes(&mut r, &source, &mut parts);
    parts.source = source.text.into_bytes();
    parts.file()
}

const NAMES: [&str; 14] = ["", "p", "id", "usfm", "fig", "tr", "v", "vv", "c", "nd", "xt", "long-name", "cat", "ref"];

fn add_entries(r: &mut Rng, parts: &mut Parts) {
    for _ in 0..r.below(9) {
        let element = if r.once_in(3) { r.below(4) as u8 } else { 0 };
        parts.add_entry(r.pick(&NAMES), r.below(8) as u8, element);
    }
}

/// A source made of pieces, with the places between them.
struct Source {
    text: String,
    ends: Vec<usize>,
}

#[rustfmt::skip]
const PIECES: [&str; 22] = [
    "\\p", "\\v", "\\v 1", "\\v1é", "\\c 2", "\\va", "\\vp", "\\ca", "\\cp", "\\cat", "\\xt", "\\+xt", "\\ref", "\\fig", "\\tcr1", "\\qt-s",
    "|", "=", "\"", "href=\"", "|a|b|c|d|e|f", "//",
];

impl Source {
    fn new(r: &mut Rng) -> Source {
        let mut source = Source { text: String::new(), ends: vec![0] };
        for _ in 0..r.below(30) {
            source.text += &match r.below(6) {
                0 | 1 => r.pick(&PIECES).to_string(),
                2 => pool::white(r),
                3 => pool::attribute(r),
                _ => pool::word(r),
            };
            source.ends.push(source.text.len());
        }
        source
    }

    /// A span: mostly one or some pieces, at times any two places between characters.
    fn span(&self, r: &mut Rng) -> (usize, usize) {
        if r.once_in(4) {
            let (a, b) = (self.place(r), self.place(r));
            return (a.min(b), a.max(b));
        }
        let from = r.below(self.ends.len());
        let to = (from + r.below(4)).min(self.ends.len() - 1);
        (self.ends[from], self.ends[to])
    }

    fn place(&self, r: &mut Rng) -> usize {
        let at = r.below(self.text.len() + 1);
        (0..=at).rev().find(|&i| self.text.is_char_boundary(i)).unwrap_or(0)
    }
}

/// Adds Root and up to 40 nodes; every container is closed, at the latest at the end.
fn add_nodes(r: &mut Rng, source: &Source, parts: &mut Parts) {
    let deep = if r.once_in(40) { 64 } else { 8 };
    add_node(r, source, parts, ROOT);
    let mut open = Vec::new();
    for _ in 0..r.below(if deep == 64 { 160 } else { 40 }) {
        match r.below(10) {
            0..=2 if open.len() < deep => open.push(add_node(r, source, parts, OPEN)),
            3 if !open.is_empty() => close(r, source, parts, &mut open),
            4 => {
                let own = add_node(r, source, parts, OPEN);
                parts.nodes[own].link = own as u32;
            }
            5..=7 => {
                add_node(r, source, parts, TEXT);
            }
            _ => {
                let kind = r.pick(&[ATTRIBUTE, CHAPTER, VERSE, VERSE, ERROR]);
                add_node(r, source, parts, kind);
            }
        }
    }
    while !open.is_empty() {
        close(r, source, parts, &mut open);
    }
    parts.nodes[0].link = parts.nodes.len() as u32;
    if r.once_in(3) {
        add_node(r, source, parts, BLOCK_END);
    }
}

fn close(r: &mut Rng, source: &Source, parts: &mut Parts, open: &mut Vec<usize>) {
    let kind = r.pick(&[CLOSE, BLOCK_END]);
    let end = add_node(r, source, parts, kind);
    let start = open.pop().expect("an open container");
    parts.nodes[start].link = end as u32;
}

/// A node with a random span, marker, flags and number; a Chapter or Verse that would be refused becomes an Error.
fn add_node(r: &mut Rng, source: &Source, parts: &mut Parts, kind: u8) -> usize {
    let (start, end) = source.span(r);
    let marker = if r.once_in(8) { UNKNOWN } else { r.below(parts.entries.len() + 1) as u16 };
    let link = if r.once_in(3) { r.next() as u32 } else { r.below(200) as u32 };
    let flags = if r.once_in(2) { 0 } else { r.below(4) as u8 };
    let mut node = Node { kind, flags, marker, link, start: start as u32, length: (end - start) as u32 };
    let entry = parts.entries.get(usize::from(marker));
    let known_element = entry.is_some_and(|e| e.element != 0);
    let cut = || !loader::label_is_whole(&source.text[start..end], entry.map_or(0, |e| usize::from(e.length)));
    if matches!(kind, CHAPTER | VERSE) && (known_element || cut()) {
        node.kind = ERROR;
    }
    parts.nodes.push(node);
    parts.nodes.len() - 1
}
