//! The steps that write a tape anew.

use super::rng::Rng;
use crate::loader;
use crate::steps::{Command, Item, MOST_BYTES};
use crate::tapes::*;
use crate::writer::{Adds, Given, Step};

const MODE: u64 = 8;

/// The item that writes tape `number` of a list anew, in a buffer of just the file's length.
/// None where the tape is refused, Root does not link to the node count, or file or item have over 65,536 bytes.
pub fn rebuild(number: u64, tape: &[u8]) -> Option<Item> {
    if tape.len() > MOST_BYTES || loader::load(tape).is_err() {
        return None;
    }
    let parts = Parts::read(tape);
    if parts.nodes[0].link as usize != parts.nodes.len() {
        return None;
    }
    let mut r = Rng::new(MODE, 0, number);
    let fill = r.next() as u8;
    let dropped = if parts.entries.is_empty() { parts.names.len() } else { 0 };
    let room = (tape.len() - dropped) as u32;
    let item = Item { room, fill, commands: all_steps(&mut r, &parts).into_iter().map(Command::Step).collect() };
    (item.bytes().len() <= MOST_BYTES).then_some(item)
}

fn all_steps(r: &mut Rng, parts: &Parts) -> Vec<Step> {
    let mut steps = vec![Step::Start];
    steps.extend(entry_steps(parts));
    let source = std::str::from_utf8(&parts.source).expect("an admitted tape");
    let pieces = if r.once_in(2) { vec![source] } else { pieces(r, source) };
    steps.extend(pieces.into_iter().map(|piece| Step::Source(piece.into())));
    steps.extend(parts.nodes.iter().enumerate().skip(1).map(|(k, node)| node_step(k, node)));
    steps.push(Step::Finish);
    steps
}

/// The first entry brings all name bytes.
fn entry_steps(parts: &Parts) -> impl Iterator<Item = Step> + '_ {
    let brought = |i: usize| if i == 0 { parts.names.clone() } else { Vec::new() };
    parts.entries.iter().enumerate().map(move |(i, &entry)| Step::Entry(entry, brought(i)))
}

/// The source cut between characters; some pieces may be empty.
fn pieces<'a>(r: &mut Rng, source: &'a str) -> Vec<&'a str> {
    let places: Vec<usize> = (0..=source.len()).filter(|&i| source.is_char_boundary(i)).collect();
    let mut cuts: Vec<usize> = (0..r.within(1, 5)).map(|_| r.pick(&places)).collect();
    cuts.extend([0, source.len()]);
    cuts.sort();
    cuts.windows(2).map(|cut| &source[cut[0]..cut[1]]).collect()
}

/// The step for the node at index `k`.
fn node_step(k: usize, node: &Node) -> Step {
    let adds = match node.kind {
        OPEN if node.link as usize == k => Adds::Leaf,
        OPEN => Adds::Open,
        CLOSE => Adds::Close { block: false },
        BLOCK_END => Adds::Close { block: true },
        TEXT => Adds::Text,
        ATTRIBUTE => Adds::Attribute,
        CHAPTER => Adds::Chapter,
        VERSE => Adds::Verse,
        ERROR => Adds::Error,
        other => panic!("kind {other} in an admitted tape"),
    };
    let Node { flags, marker, link: number, start, length, .. } = *node;
    Step::Node(adds, Given { flags, marker, number, start, length })
}
