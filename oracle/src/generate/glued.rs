//! A Verse whose label may be cut inside a character, over a source of long runs: admitted, or refusal 5.

use super::rng::Rng;
use crate::tapes::{Node, Parts, ROOT, SYNTHETIC, UNKNOWN, VERSE};

const MODE: u64 = 4;

const SOLID: [&str; 6] = ["x", "é", "\u{2010}", "\u{2E80}", "+", "𐀀"];
const OTHER: [&str; 10] = [" ", "\t", "\u{85}", "\u{A0}", "\u{1680}", "\u{2003}", "\u{3000}", "*", "|", "\\"];

/// Tape `number` of `seed`.
pub fn glued(seed: u64, number: u64) -> Vec<u8> {
    let mut r = Rng::new(MODE, seed, number);
    let source = runs(&mut r);
    let places: Vec<usize> = (0..=source.len()).filter(|&i| source.is_char_boundary(i)).collect();
    let (a, b) = (r.pick(&places), r.pick(&places));
    let (start, end) = if r.once_in(3) { (0, source.len()) } else { (a.min(b), a.max(b)) };
    let verse = Node { kind: VERSE, flags: 0, marker: 0, link: 1, start: start as u32, length: (end - start) as u32 };
    let root = Node { kind: ROOT, flags: SYNTHETIC, marker: UNKNOWN, link: 2, start: 0, length: 0 };
    let mut parts = Parts { nodes: vec![root, verse], source: source.into_bytes(), ..Parts::default() };
    let most = if r.once_in(2) { 8 } else { 200 };
    parts.add_entry(&"v".repeat(r.within(1, most)), 2, 0);
    parts.file()
}

/// Runs of one character each, mostly of words, some longer than a block of 64 bytes.
fn runs(r: &mut Rng) -> String {
    let mut text = String::from(r.pick(&["", "", "\\", "\\+", "+", " "]));
    for _ in 0..r.within(1, 6) {
        let piece = if r.once_in(3) { r.pick(&OTHER) } else { r.pick(&SOLID) };
        let times = if r.once_in(2) { r.within(1, 3) } else { r.within(1, 150) };
        text += &piece.repeat(times);
    }
    text
}
