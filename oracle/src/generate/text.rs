//! Texts as editors type and paste them: words, white space of every kind, `~` and `//`, at the edges and between.

use super::pool::{WHITE, prose, white};
use super::rng::Rng;

const MODE: u64 = 10;

/// What stands close together in some texts: all ASCII white space, white space that is text to a body, and what looks like neither.
#[rustfmt::skip]
const CLOSE: [&str; 16] = [
    " ", " ", "\t", "\n", "\u{c}", "\r", "\u{b}", "\u{85}", "\u{a0}", "\u{3000}", "~", "~", "/", "//", "a", "\u{200b}",
];

/// Text `number` of a seed.
pub fn text(seed: u64, number: u64) -> String {
    let mut r = Rng::new(MODE, seed, number);
    match r.below(8) {
        0 => (0..r.below(5)).map(|_| white(&mut r)).collect(),
        1 => (0..r.below(5)).map(|_| r.pick(&WHITE)).collect(),
        2..=4 => (0..r.below(9)).map(|_| r.pick(&CLOSE)).collect(),
        _ => (0..r.within(1, 3)).map(|_| prose(&mut r)).collect(),
    }
}
