//! The body of 4 MiB of text, in one call or in many: written to a buffer, and measured into an empty window.

use crate::api;
use crate::escape::{escape_xml_with, Count, SIZE};
use crate::measure::{row, Row};
use std::borrow::Cow;
use std::fmt::Write;
use std::hint::black_box;

/// The body of `normalize_text` of usfm3, serialize/render.rs, with what it calls, as they stand.
fn body(s: &str) -> Cow<'_, str> {
    let words = s.trim_ascii();
    if single_spaced(words) {
        Cow::Borrowed(words)
    } else {
        let mut out = collapse_all(words);
        if out.contains('~') {
            out = out.replace('~', "\u{a0}");
        }
        Cow::Owned(out)
    }
}

fn single_spaced(s: &str) -> bool {
    let mut after_space = false;
    for &b in s.as_bytes() {
        if matches!(b, b'\t' | b'\n' | b'\x0c' | b'\r' | b'~') || (b == b' ' && after_space) {
            return false;
        }
        after_space = b == b' ';
    }
    true
}

fn collapse_all(s: &str) -> String {
    let mut out = String::with_capacity(s.len());
    for word in s.split_ascii_whitespace() {
        if !out.is_empty() {
            out.push(' ');
        }
        out.push_str(word);
    }
    out
}

/// Words parted by one space, a `&` in 1000 bytes, and these bytes in place of a space in `every` bytes on average.
fn text(apart: &str, every: usize) -> String {
    let mut seed: u64 = 0x9E37_79B9_7F4A_7C15;
    let mut next = move || {
        seed ^= seed << 13;
        seed ^= seed >> 7;
        seed ^= seed << 17;
        seed
    };
    let (mut s, mut left) = (String::new(), every);
    while s.len() < SIZE {
        let long = 1 + next() as usize % 9;
        for _ in 0..long {
            let r = next();
            s.push(if r % 1000 == 0 { '&' } else { (b'a' + (r >> 16) as u8 % 26) as char });
        }
        if left <= long {
            s.push_str(apart);
            left = 1 + next() as usize % (2 * every);
        } else {
            s.push(' ');
            left -= long;
        }
    }
    s
}

fn ours(pieces: &[&str], out: &mut [u8], from: usize) -> usize {
    pieces.iter().fold(0, |at, s| api::body(out, at, from, s.as_bytes()))
}

fn rust<W: Write>(pieces: &[&str], out: &mut W) {
    for s in pieces {
        escape_xml_with(&body(s), false, out).expect("a String and a count take all");
    }
}

/// The bytes and the count are the Rust's, whole and through a window.
fn compare(pieces: &[&str]) -> usize {
    let mut want = String::new();
    rust(pieces, &mut want);
    let mut out = vec![0u8; want.len()];
    assert_eq!(ours(pieces, &mut out, 0), want.len());
    assert!(out == want.as_bytes());
    let mut window = vec![0u8; 1000];
    assert_eq!(ours(pieces, &mut window, 333), want.len());
    assert!(window == want.as_bytes()[333..1333]);
    want.len()
}

fn rows_of(what: &str, pieces: &[&str]) -> Vec<Row> {
    let room = compare(pieces);
    let (mut out, mut kept) = (vec![0u8; room], String::with_capacity(room));
    let written = row(
        format!("{what}, written"),
        SIZE,
        &mut || {
            black_box(ours(black_box(pieces), black_box(&mut out), 0));
        },
        &mut || {
            kept.clear();
            rust(black_box(pieces), &mut kept);
            black_box(&kept);
        },
    );
    let measured = row(
        format!("{what}, measured"),
        SIZE,
        &mut || {
            black_box(ours(black_box(pieces), black_box(&mut []), 0));
        },
        &mut || {
            let mut n = Count(0);
            rust(black_box(pieces), &mut n);
            black_box(n.0);
        },
    );
    vec![written, measured]
}

pub fn rows() -> Vec<Row> {
    let mut all = Vec::new();
    for (what, apart, every) in [("single spaces", " ", 1000), ("lines of 70", "\n", 70), ("two spaces in 20", "  ", 20), ("`~` in 200", "~", 200)] {
        let s = text(apart, every);
        all.extend(rows_of(&format!("body, {what}"), &[&s]));
        for size in [100, 24] {
            let pieces: Vec<&str> = (0..s.len() / size).map(|i| &s[i * size..(i + 1) * size]).collect();
            all.extend(rows_of(&format!("body, {what}, calls of {size} bytes"), &pieces));
        }
    }
    all
}
