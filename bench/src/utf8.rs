//! UTF-8 validation against Rust's std.

use crate::api;
use crate::measure::{row, Row};
use std::hint::black_box;

const SIZE: usize = 4 << 20;

/// A verse in scripts of one, two and three bytes a character.
pub const VERSES: [(&str, &str); 4] = [
    ("ASCII", "In the beginning God created the heaven and the earth. "),
    ("Latin with accents", "Au commencement, Dieu créa les cieux et la terre. "),
    ("Greek", "ἐν ἀρχῇ ἐποίησεν ὁ θεὸς τὸν οὐρανὸν καὶ τὴν γῆν. "),
    ("Chinese", "起初神创造天地。"),
];

/// A text of 4 MiB that repeats a piece.
pub fn text(piece: &str) -> Vec<u8> {
    piece.bytes().cycle().take(SIZE / piece.len() * piece.len()).collect()
}

fn row_of(name: &str, piece: &str) -> Row {
    let text = text(piece);
    assert!(api::is_utf8(&text));
    let ours = &mut || {
        black_box(api::is_utf8(black_box(&text)));
    };
    let rust = &mut || {
        let _ = black_box(std::str::from_utf8(black_box(&text)));
    };
    row(format!("is_utf8, {name}"), text.len(), ours, rust)
}

pub fn rows() -> Vec<Row> {
    VERSES.iter().map(|(name, piece)| row_of(name, piece)).collect()
}
