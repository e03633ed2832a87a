//! `admit` against the oracle's loader on the largest files.

use crate::api::admit;
use std::time::Instant;

const NODES: usize = 262_144;
const SOURCE: usize = 4_194_304;

struct Node(u8, u16, u32, u32, u32);

fn file(nodes: &[Node], entries: &[(u32, u16, u8, u8)], names: &[u8], source: &[u8]) -> Vec<u8> {
    let mut f = Vec::new();
    let counts = [(nodes.len(), 16), (entries.len(), 8), (names.len(), 1), (source.len(), 1)];
    f.extend(1u32.to_le_bytes());
    let mut at = 36u32;
    for (n, size) in counts {
        f.extend((n as u32).to_le_bytes());
        f.extend(at.to_le_bytes());
        at += (n * size) as u32;
    }
    for n in nodes {
        f.extend([n.0, 0]);
        f.extend(n.1.to_le_bytes());
        for x in [n.2, n.3, n.4] {
            f.extend(x.to_le_bytes());
        }
    }
    for e in entries {
        f.extend(e.0.to_le_bytes());
        f.extend(e.1.to_le_bytes());
        f.extend([e.2, e.3]);
    }
    f.extend(names);
    f.extend(source);
    f
}

/// Paragraphs of a verse and a text, as many as go, with 64 bytes of source each.
fn book(filler: &str) -> Vec<u8> {
    let groups = (NODES - 1) / 4;
    let mut source = Vec::new();
    let mut nodes = vec![Node(0, 9, (groups * 4 + 1) as u32, 0, 0)];
    for g in 0..groups {
        let (i, s) = (g * 4 + 1, source.len() as u32);
        let start = source.len();
        source.extend(b"\\p \\v 12 ");
        while source.len() + filler.len() <= start + 64 {
            source.extend(filler.as_bytes());
        }
        let end = source.len() as u32;
        nodes.push(Node(3, 0, (i + 3) as u32, s, 3));
        nodes.push(Node(7, 1, 12, s + 3, 5));
        nodes.push(Node(1, 9, 0, s + 8, end - s - 8));
        nodes.push(Node(5, 0, 0, end, 0));
    }
    assert!(source.len() <= SOURCE);
    file(&nodes, &[(0, 1, 3, 0), (1, 1, 2, 0)], b"pv", &source)
}

/// Verses from given places up to the end of one source, of an entry whose name is so long.
fn verses(base: u16, source: &[u8], start: impl Fn(usize) -> usize) -> Vec<u8> {
    let mut nodes = vec![Node(0, 9, NODES as u32, 0, 0)];
    nodes.extend((1..NODES).map(|k| Node(7, 0, 0, start(k) as u32, (source.len() - start(k)) as u32)));
    file(&nodes, &[(0, base, 2, 0)], &vec![b'v'; base.into()], source)
}

fn best(runs: usize, f: &mut dyn FnMut() -> u32) -> (f64, u32) {
    let (mut t, mut n) = (f64::MAX, 0);
    for _ in 0..runs {
        let s = Instant::now();
        n = f();
        t = t.min(s.elapsed().as_secs_f64());
    }
    (t, n)
}

fn row(name: &str, f: &[u8], runs: usize, rust: bool) {
    let (a, n) = best(runs, &mut || admit(f));
    print!("{name:<62} {:>10} bytes  number {n}  ours {:>9.2} ms", f.len(), a * 1e3);
    if rust {
        let (b, m) = best(runs, &mut || match oracle::loader::load(f) {
            Ok(_) => 0,
            Err(r) => u32::from(r.0),
        });
        assert_eq!(n, m, "{name}");
        print!("  Rust {:>9.2} ms  ours/Rust {:.2}", b * 1e3, a / b);
    }
    println!();
}

/// So many bytes: a front, a filler as often as it goes, and a back.
fn text(len: usize, front: &str, filler: &str, back: &str) -> Vec<u8> {
    let mut s = front.as_bytes().to_vec();
    while s.len() + filler.len() + back.len() <= len {
        s.extend(filler.as_bytes());
    }
    s.resize(len - back.len(), b'x');
    s.extend(back.as_bytes());
    s
}

/// Files whose every Verse's number would be cut inside a character. The Rust reads each text anew: the longer ones are not for it.
fn glued() {
    let row = |name: &str, f: &[u8], rust: bool| row(name, f, if rust { 1 } else { 3 }, rust);
    let first = |_: usize| 0;
    row("glued: a word of 1 KiB, then another", &verses(2, &text(1024, "\\vé", "x", " y"), first), true);
    row("glued: a word of 16 KiB, then another", &verses(2, &text(16384, "\\vé", "x", " y"), first), false);
    row("glued: a word of 4 MiB, then another", &verses(2, &text(SOURCE, "\\vé", "x", " y"), first), false);
    row("glued: one word of 4 MiB", &verses(2, &text(SOURCE, "\\vé", "x", ""), first), true);
    row("glued: a word, 4 MiB of blanks, another", &verses(2, &text(SOURCE, "\\vé", " ", " y"), first), false);
    row("glued: the same, wide blanks", &verses(2, &text(SOURCE, "\\vé", "\u{3000}", " y"), first), false);
    row("glued: a name of 16 KiB before the cut, 4 MiB", &verses(16384, &text(SOURCE, "v", "é", " y"), first), false);
    row("glued: a name that ends before the cut", &verses(16384, &text(SOURCE, &"v".repeat(16380), "*éé", " y"), first), false);
    row("glued: each from another place", &verses(2, &text(SOURCE, "", "xé", " y"), |k| 3 * k), false);
    row("glued: each from another place, last ones first", &verses(2, &text(SOURCE, "", "xé", " y"), |k| 3 * (NODES - k)), false);
    let edge = |k: usize| (k % 65535 * 64).div_ceil(3) * 3;
    row("glued: each a block before its answer, three-byte characters", &verses(1, &text(SOURCE, "", "\u{2E80}", " y"), edge), false);
    // In a block of 64 bytes what stands before the Verse is of no use, and the rest is read.
    let wide = format!("a é{}", "\u{3000}".repeat(20));
    row("glued: a word and wide blanks in each block", &verses(1, &text(SOURCE, "", &wide, ""), |k| k % 65535 * 64 + 2), false);
    let three = format!(" {}", "\u{2E80}".repeat(21));
    row("glued: a blank and three-byte characters in each block", &verses(1, &text(SOURCE, "", &three, ""), |k| k % 65535 * 64 + 1), false);
    row("glued: words far apart", &verses(2, &text(SOURCE, "", &format!("xé{} ", "x".repeat(4092)), ""), |k| k % 1023 * 4096), true);
}

pub fn print() {
    row("largest book, ASCII", &book("text "), 10, true);
    row("largest book, two-byte characters", &book("é"), 10, true);
    for (f, _) in oracle::generate::limits() {
        row("limits", &f, 3, true);
    }
    row("verses over one word of 4 MiB, cut clear", &verses(1, &text(SOURCE, "\\v", "x", ""), |_| 0), 3, false);
    glued();
}
