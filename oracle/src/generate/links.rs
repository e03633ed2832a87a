//! All small node lists with all links, right or wrong: for refusals 6 and 7.

use crate::tapes::{BLOCK_END, CLOSE, Node, OPEN, Parts, ROOT, TEXT, UNKNOWN};

/// All tapes of Root and up to `size` nodes of the kinds Text, MarkerOpen, MarkerClose, BlockEnd, with empty spans;
/// each link of Root and of a MarkerOpen runs over 0 to one beyond the node count.
pub fn links(size: usize) -> impl Iterator<Item = Vec<u8>> {
    (0..=size).flat_map(|n| (0..count(n)).map(move |number| tape(n, number)))
}

/// How many links there are on a tape of Root and `n` nodes.
fn choices(n: usize) -> usize {
    n + 3
}

fn count(n: usize) -> usize {
    choices(n) * (choices(n) + 3).pow(n as u32)
}

fn tape(n: usize, mut number: usize) -> Vec<u8> {
    let mut nodes = vec![node(ROOT, number % choices(n))];
    number /= choices(n);
    for _ in 0..n {
        let choice = number % (choices(n) + 3);
        number /= choices(n) + 3;
        nodes.push(match choice {
            0 => node(TEXT, 0),
            1 => node(CLOSE, 0),
            2 => node(BLOCK_END, 0),
            link => node(OPEN, link - 3),
        });
    }
    Parts { nodes, ..Parts::default() }.file()
}

fn node(kind: u8, link: usize) -> Node {
    Node { kind, flags: 0, marker: UNKNOWN, link: link as u32, start: 0, length: 0 }
}
