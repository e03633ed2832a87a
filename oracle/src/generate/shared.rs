//! Tapes that look like scripture and whose texts are spans of a few runs, mostly of white space, that they share.

use super::rng::Rng;
use super::structured;
use crate::tapes::TEXT;

const MODE: u64 = 5;

const WHITE: [&str; 8] = [" ", " ", "\n", "\t", " \r\n", "\u{B}", "\u{A0}", "\u{3000}"];
const WORDS: [&str; 7] = ["", "a", "a//b", "//", "~", "\u{E9} &", "<1>"];

/// Tape `number` of `seed`.
pub fn shared(seed: u64, number: u64) -> Vec<u8> {
    let mut r = Rng::new(MODE, seed, number);
    let mut parts = structured::parts(seed, number);
    let runs = runs(&mut r);
    let places: Vec<usize> = (0..=runs.len()).filter(|&i| runs.is_char_boundary(i)).collect();
    let start = parts.source.len();
    for node in parts.nodes.iter_mut().filter(|n| n.kind == TEXT) {
        if !r.once_in(4) {
            let (a, b) = (r.pick(&places), r.pick(&places));
            (node.start, node.length) = ((start + a.min(b)) as u32, a.abs_diff(b) as u32);
        }
    }
    parts.source.extend(runs.as_bytes());
    parts.file()
}

/// Runs of white space, some longer than blocks of 64 bytes, with words between them.
fn runs(r: &mut Rng) -> String {
    let mut text = String::new();
    for _ in 0..r.within(1, 5) {
        let times = if r.once_in(2) { r.within(1, 3) } else { r.within(1, 300) };
        text += &r.pick(&WHITE).repeat(times);
        text += r.pick(&WORDS);
    }
    text
}
