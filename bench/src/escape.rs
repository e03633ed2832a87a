//! Escaping of 4 MiB, in one call or in many: written to a buffer, and measured into an empty window.

use crate::api;
use crate::measure::{row, Row};
use std::fmt::{self, Write};
use std::hint::black_box;

/// `escape_xml_with` of usfm3, serialize/usx.rs, as it stands.
pub fn escape_xml_with<W: Write>(s: &str, attr: bool, out: &mut W) -> fmt::Result {
    let mut start = 0;
    for (i, &b) in s.as_bytes().iter().enumerate() {
        let esc = match b {
            b'<' => "&lt;",
            b'>' => "&gt;",
            b'&' => "&amp;",
            b'"' if attr => "&quot;",
            _ => continue,
        };
        out.write_str(&s[start..i])?;
        out.write_str(esc)?;
        start = i + 1;
    }
    out.write_str(&s[start..])
}

/// Counts what it is given.
pub struct Count(pub usize);

impl Write for Count {
    fn write_str(&mut self, s: &str) -> fmt::Result {
        self.0 += s.len();
        Ok(())
    }
}

pub const SIZE: usize = 4 << 20;

/// Words, with a byte that has a name after `every` bytes on average.
fn text(every: usize) -> String {
    let mut seed: u64 = 0x9E37_79B9_7F4A_7C15;
    let mut next = move || {
        seed ^= seed << 13;
        seed ^= seed >> 7;
        seed ^= seed << 17;
        seed
    };
    let (names, mut s, mut left) = (['<', '>', '&', '"'], String::new(), every);
    while s.len() < SIZE {
        let r = next();
        if left == 0 {
            s.push(names[r as usize % 4]);
            left = (next() as usize % (2 * every)).max(1);
        } else {
            s.push(if r % 6 == 0 { ' ' } else { (b'a' + (r >> 8) as u8 % 26) as char });
            left -= 1;
        }
    }
    s
}

/// Every piece of a text, one call each.
fn ours(pieces: &[&str], attr: bool, out: &mut [u8], from: usize) -> usize {
    let escape = if attr { api::escape_xml_attr } else { api::escape_xml };
    pieces.iter().fold(0, |at, s| escape(out, at, from, s.as_bytes()))
}

fn rust<W: Write>(pieces: &[&str], attr: bool, out: &mut W) {
    for s in pieces {
        escape_xml_with(s, attr, out).expect("a String and a count take all");
    }
}

/// The bytes and the count are the Rust's, whole and through a window.
fn compare(pieces: &[&str], attr: bool) -> usize {
    let mut want = String::new();
    rust(pieces, attr, &mut want);
    let mut out = vec![0u8; want.len()];
    assert_eq!(ours(pieces, attr, &mut out, 0), want.len());
    assert!(out == want.as_bytes());
    let mut window = vec![0u8; 1000];
    assert_eq!(ours(pieces, attr, &mut window, 333), want.len());
    assert!(window == want.as_bytes()[333..1333]);
    want.len()
}

fn rows_of(what: &str, pieces: &[&str], attr: bool) -> Vec<Row> {
    let room = compare(pieces, attr);
    let (mut out, mut kept) = (vec![0u8; room], String::with_capacity(room));
    let written = row(
        format!("{what}, written"),
        SIZE,
        &mut || {
            black_box(ours(black_box(pieces), attr, black_box(&mut out), 0));
        },
        &mut || {
            kept.clear();
            rust(black_box(pieces), attr, &mut kept);
            black_box(&kept);
        },
    );
    let measured = row(
        format!("{what}, measured"),
        SIZE,
        &mut || {
            black_box(ours(black_box(pieces), attr, black_box(&mut []), 0));
        },
        &mut || {
            let mut n = Count(0);
            rust(black_box(pieces), attr, &mut n);
            black_box(n.0);
        },
    );
    vec![written, measured]
}

pub fn rows() -> Vec<Row> {
    let mut all = Vec::new();
    for every in [1000, 100, 10, 2] {
        let s = text(every);
        all.extend(rows_of(&format!("text, an escape in {every} bytes"), &[&s], false));
        all.extend(rows_of(&format!("value, an escape in {every} bytes"), &[&s], true));
    }
    let s = text(1000);
    for size in [100, 24, 8] {
        let pieces: Vec<&str> = (0..s.len() / size).map(|i| &s[i * size..(i + 1) * size]).collect();
        all.extend(rows_of(&format!("text, in 1000, calls of {size} bytes"), &pieces, false));
        all.extend(rows_of(&format!("value, in 1000, calls of {size} bytes"), &pieces, true));
    }
    all
}
