//! Tapes that look like scripture whose names are free of & < > and the double quote, or, in about half of them, hold some.

use super::pool;
use super::rng::Rng;
use super::structured;
use crate::loader;
use crate::names::{What, names};
use crate::tapes::*;

const MODE: u64 = 6;

/// Tape `number` of `seed`.
pub fn hostile(seed: u64, number: u64) -> Vec<u8> {
    let mut r = Rng::new(MODE, seed, number);
    let mut parts = freed(structured::parts(seed, number));
    if r.once_in(2) {
        return parts.file();
    }
    let mut texts = texts(&parts);
    let most = if r.once_in(4) { 12 } else { 2 };
    for _ in 0..r.within(1, most) {
        spoil(&mut r, &mut parts.nodes, &mut texts);
    }
    with_texts(parts, &texts).file()
}

/// The same tape with an `x` for each of the four bytes in its names.
fn freed(mut parts: Parts) -> Parts {
    let file = parts.file();
    let document = loader::load(&file).unwrap_or_else(|refusal| panic!("{refusal:?}"));
    for name in names(&document).iter().filter(|name| name.is_broken()) {
        let place = name.place(&document);
        let bytes = &mut parts.source[place..place + name.text.len()];
        bytes.iter_mut().filter(|b| b"&<>\"".contains(b)).for_each(|b| *b = b'x');
    }
    parts
}

fn texts(parts: &Parts) -> Vec<String> {
    let text = |n: &Node| parts.source[n.start as usize..(n.start + n.length) as usize].to_vec();
    parts.nodes.iter().map(|n| String::from_utf8(text(n)).expect("whole characters")).collect()
}

/// The tape with these texts for its nodes, one behind the other in the source.
fn with_texts(mut parts: Parts, texts: &[String]) -> Parts {
    parts.source.clear();
    for (node, text) in parts.nodes.iter_mut().zip(texts) {
        (node.start, node.length) = (parts.source.len() as u32, text.len() as u32);
        parts.source.extend(text.bytes());
    }
    parts
}

// --- one name ---

/// Puts something hostile into one name; into none where the tape has none of that kind.
fn spoil(r: &mut Rng, nodes: &mut [Node], texts: &mut [String]) {
    let what = r.pick(&[What::BookCode, What::Label, What::MarkerName, What::Key]);
    // Many attributes stand below markers that write none; some of other texts become attributes too.
    let any_text = r.once_in(3);
    let has = |k: usize| match what {
        What::BookCode => {
            k > 0 && nodes[k].kind == TEXT && nodes[k - 1].kind == OPEN && nodes[k - 1].marker == pool::marker("id")
        }
        What::Label => nodes[k].kind == VERSE,
        What::MarkerName => matches!(nodes[k].kind, OPEN | CLOSE | BLOCK_END | CHAPTER | VERSE),
        What::Key => nodes[k].kind == ATTRIBUTE || (any_text && matches!(nodes[k].kind, TEXT | ERROR)),
    };
    let places: Vec<usize> = (0..nodes.len()).filter(|&k| has(k)).collect();
    if places.is_empty() {
        return;
    }
    let k = r.pick(&places);
    texts[k] = match what {
        What::BookCode => with_code(r, &texts[k]),
        What::Label => with_label(r),
        What::MarkerName => with_marker_name(r, &texts[k]),
        What::Key => with_key(r, &texts[k]),
    };
    if what == What::Key {
        nodes[k].kind = ATTRIBUTE;
    }
}

/// The four bytes; entities, whole and cut, that may stand raw in a value; ends of values and of tags; tags.
#[rustfmt::skip]
const PIECES: [&str; 28] = [
    "&", "<", ">", "\"", "&amp;", "&lt;", "&gt;", "&quot;", "&amp;&lt;", "&amp;amp;", "&apos;", "&#38;", "&", "&am", "&lt", "&amp;\"",
    "\">", "\"/>", "/>", "\"><char", "p\"><char", "\"></para><para", "\"/><verse", "\" /><verse", "/><verse", "<!--", "]]>", "<\"&>",
];

fn with_code(r: &mut Rng, text: &str) -> String {
    let start = text.len() - text.trim_start().len();
    let end = text[start..].find(char::is_whitespace).map_or(text.len(), |n| start + n);
    put_in(r, text, start, end)
}

fn with_label(r: &mut Rng) -> String {
    let label = format!("{}{}{}", r.pick(&["", "1", "2-3"]), r.pick(&PIECES), r.pick(&["", "", "2", "b"]));
    let before = r.pick(&["\\v ", "\\v ", "\\v\u{2003}", "\\v", "\\+v"]);
    format!("{before}{label}{}", r.pick(&["", "", " ", " x"]))
}

fn with_marker_name(r: &mut Rng, text: &str) -> String {
    if text.is_empty() {
        return format!("\\{}{}*", r.pick(&["", "+", "w", "p"]), r.pick(&PIECES));
    }
    let bare = text.strip_prefix('\\').unwrap_or(text);
    let bare = bare.strip_prefix('+').unwrap_or(bare);
    let start = text.len() - bare.len();
    let stops = |c: char| c.is_whitespace() || matches!(c, '*' | '|' | '\\');
    put_in(r, text, start, bare.find(stops).map_or(text.len(), |n| start + n))
}

/// The text with a piece at some place from `start` to `end`.
fn put_in(r: &mut Rng, text: &str, start: usize, end: usize) -> String {
    let places: Vec<usize> = (start..=end).filter(|&i| text.is_char_boundary(i)).collect();
    let at = if r.once_in(2) { end } else { r.pick(&places) };
    format!("{}{}{}", &text[..at], r.pick(&PIECES), &text[at..])
}

/// A hostile word before a `=`, and some that are no keys: dangling, in a value, in what was never closed.
fn with_key(r: &mut Rng, text: &str) -> String {
    let key = match r.below(5) {
        0 => r.pick(&["k<y", "a\">b", "/>x", "/><verse", "\"", "style\"", "&amp;", "k&lt;y"]).to_string(),
        _ => format!("{}{}{}", r.pick(&["", "k", "href", "loc", "src"]), r.pick(&PIECES), r.pick(&["", "", "y", "/"])),
    };
    match r.below(9) {
        0 | 1 => format!("|{key}=\"x\""),
        2 => format!("|{key}=1 b=\"2\""),
        3 => format!("|lemma=\"a\" {key} = \"<x>\""),
        4 => format!("|a=\"1\"{key}=b"),
        5 => format!("|a=1 {key}=\"x"),
        6 => format!("{text} {key}=\"x\""),
        7 => format!("|{key} k=\"v\""),
        _ => format!("|k=\"{key}=\" {key}"),
    }
}
