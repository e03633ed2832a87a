//! Building a book step by step, against a plain writer with vectors that asks nothing.

use crate::api::Tape;
use crate::measure::best;

/// A paragraph: the marker, the verse marker and its number, and a text.
const GROUP: &str = "\\p \\v 12 In the beginning was the word, and the word was with them; ";

fn ours(groups: usize, buf: &mut [u8]) -> usize {
    let mut t = Tape::new(buf);
    let mut done = t.start() + t.entry(b"p", 0, 1, 3, 0) + t.entry(b"v", 1, 1, 2, 0);
    for g in 0..groups {
        let s = (g * GROUP.len()) as u32;
        done += t.source(GROUP.as_bytes()) + t.open(0, s, 3) + t.verse(1, 12, s + 3, 5);
        done += t.text(s + 8, GROUP.len() as u32 - 8) + t.close(0, s + GROUP.len() as u32);
    }
    assert_eq!(done + t.finish(), 0, "a step was refused");
    t.length()
}

/// Nodes, source and the open containers in vectors; the file is made of them at the end.
#[derive(Default)]
struct Plain {
    nodes: Vec<(u8, u8, u16, u32, u32, u32)>,
    source: Vec<u8>,
    open: Vec<usize>,
}

impl Plain {
    fn node(&mut self, kind: u8, marker: u16, link: u32, start: u32, len: u32) {
        self.nodes.push((kind, 0, marker, link, start, len));
    }

    fn close(&mut self, marker: u16, start: u32) {
        let at = self.nodes.len() as u32 + 1;
        if let Some(open) = self.open.pop() {
            self.nodes[open].3 = at;
        }
        self.node(5, marker, 0, start, 0);
    }

    fn file(&self) -> Vec<u8> {
        let count = self.nodes.len() as u32 + 1;
        let mut f = Vec::with_capacity(36 + 16 * count as usize + 18 + self.source.len());
        let mut at = 36;
        f.extend(1u32.to_le_bytes());
        for (n, size) in [(count, 16), (2, 8), (2, 1), (self.source.len() as u32, 1)] {
            f.extend(n.to_le_bytes());
            f.extend(u32::to_le_bytes(at));
            at += n * size;
        }
        for n in std::iter::once(&(0, 1, 65535, count, 0, 0)).chain(&self.nodes) {
            f.extend([n.0, n.1]);
            f.extend(n.2.to_le_bytes());
            for x in [n.3, n.4, n.5] {
                f.extend(x.to_le_bytes());
            }
        }
        f.extend([0, 0, 0, 0, 1, 0, 3, 0, 1, 0, 0, 0, 1, 0, 2, 0]);
        f.extend(b"pv");
        f.extend(&self.source);
        f
    }
}

fn plain(groups: usize) -> Vec<u8> {
    let mut p = Plain::default();
    for g in 0..groups {
        let s = (g * GROUP.len()) as u32;
        p.source.extend(GROUP.as_bytes());
        p.open.push(p.nodes.len());
        p.node(3, 0, 0, s, 3);
        p.node(7, 1, 12, s + 3, 5);
        p.node(1, 65535, 0, s + 8, GROUP.len() as u32 - 8);
        p.close(0, s + GROUP.len() as u32);
    }
    p.file()
}

/// Time per node as books double, and the ratio; both sides give the same file.
pub fn print() {
    for groups in [6_250, 12_500, 25_000, 50_000] {
        let theirs = plain(groups);
        let mut buf = vec![0u8; theirs.len()];
        let n = ours(groups, &mut buf);
        assert_eq!(buf[..n], theirs[..], "the files differ");
        let [a, b] = best(15, [&mut || assert_eq!(ours(groups, &mut buf), n), &mut || assert_eq!(plain(groups).len(), n)]);
        let nodes = (4 * groups) as f64;
        println!("a tape of {:>7} nodes written: ours {:>6.1} ns a node, plain vectors {:>6.1}, ours/plain {:.2}", 4 * groups, a * 1e9 / nodes, b * 1e9 / nodes, a / b);
    }
}
