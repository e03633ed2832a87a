//! Words and trims of 4 MiB by Unicode white space, against Rust's std: the words of a whole text in one call, a trim for each verse.

use crate::api;
use crate::measure::{row, Row};
use crate::utf8::{text, VERSES};
use std::hint::black_box;

/// All words, one behind the other; the length of the last.
fn words(name: &str, piece: &str) -> Row {
    let bytes = text(piece);
    let s = std::str::from_utf8(&bytes).expect("whole pieces");
    let std = |s: &str| s.split_whitespace().fold(0, |_, word| word.len());
    assert_eq!(api::last_word(&bytes), std(s), "{name}");
    let ours = &mut || {
        black_box(api::last_word(black_box(&bytes)));
    };
    let rust = &mut || {
        black_box(std(black_box(s)));
    };
    row(format!("words, {name}"), bytes.len(), ours, rust)
}

/// How many bytes the trims of all pieces leave.
fn left(trim: impl Fn(&str) -> usize, pieces: &[&str]) -> usize {
    pieces.iter().map(|piece| trim(piece)).sum()
}

/// A trim for each piece.
fn trims(name: &str, piece: &str) -> Row {
    let bytes = text(piece);
    let s = std::str::from_utf8(&bytes).expect("whole pieces");
    let pieces: Vec<&str> = (0..s.len() / piece.len()).map(|i| &s[i * piece.len()..(i + 1) * piece.len()]).collect();
    let proved = |piece: &str| api::trim(piece.as_bytes());
    let std = |piece: &str| piece.trim().len();
    assert_eq!(left(proved, &pieces), left(std, &pieces), "{name}");
    let ours = &mut || {
        black_box(left(proved, black_box(&pieces)));
    };
    let rust = &mut || {
        black_box(left(std, black_box(&pieces)));
    };
    row(format!("trims, {name}"), bytes.len(), ours, rust)
}

pub fn rows() -> Vec<Row> {
    let english = VERSES[0].1;
    let apart = [
        ("ASCII, a line each word", english.replace(' ', "\n")),
        ("ASCII, em spaces", english.replace(' ', "\u{2003}")),
        ("Chinese, ideographic spaces", "起初\u{3000}神\u{3000}创造\u{3000}天地。\u{3000}".to_string()),
    ];
    let mut all: Vec<Row> = VERSES.iter().map(|(name, piece)| words(name, piece)).collect();
    all.extend(apart.iter().map(|(name, piece)| words(name, piece)));
    all.extend(VERSES.iter().map(|(name, piece)| trims(name, piece)));
    all.extend(apart.iter().map(|(name, piece)| trims(name, piece)));
    for n in [1, 8] {
        let blanks = "\u{2003}".repeat(n);
        all.push(trims(&format!("ASCII, {n} em spaces around"), &format!("{blanks}{english}{blanks}")));
    }
    all
}
