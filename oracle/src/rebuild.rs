//! Tapes that the second writer writes anew, compared with the tapes.

use std::io::{self, BufReader, Read, Write};

use crate::answer::{answer, read_tape};
use crate::generate;
use crate::steps::{Command, Item};
use crate::tapes::*;
use crate::writer::Writer;

/// Checks a stream of tapes; those that `gen rebuild` leaves out are left out.
pub fn check(input: impl Read, mut output: impl Write) -> io::Result<()> {
    let mut input = BufReader::with_capacity(1 << 16, input);
    let mut tape = Vec::new();
    let (mut number, mut checked) = (0, 0);
    while read_tape(&mut input, &mut tape)? {
        if let Some(item) = generate::rebuild(number, &tape) {
            same(&item, &tape).map_err(|what| io::Error::other(format!("tape {number}: {what}")))?;
            checked += 1;
        }
        number += 1;
    }
    writeln!(output, "{checked} tapes, no difference")?;
    output.flush()
}

/// The first difference between what the item's steps write and the tape they are meant for.
fn same(item: &Item, tape: &[u8]) -> Result<(), String> {
    let file = written(item)?;
    let text = answer(&file);
    if text.number() != 0 {
        return Err(format!("refused {}", text.number()));
    }
    let (ours, meant) = (Parts::read(&file), rewritten(Parts::read(tape)));
    let sections = [
        ("nodes", ours.nodes == meant.nodes),
        ("entries", ours.entries == meant.entries),
        ("names", ours.names == meant.names),
        ("source", ours.source == meant.source),
        ("text", text == answer(tape)),
    ];
    sections.iter().find(|s| !s.1).map_or(Ok(()), |s| Err(format!("other {}", s.0)))
}

/// The whole buffer behind the item's steps, each of which is done.
fn written(item: &Item) -> Result<Vec<u8>, String> {
    let mut writer = Writer::new(item.buffer());
    for (i, command) in item.commands.iter().enumerate() {
        let Command::Step(step) = command else { return Err(format!("step {i} is no step")) };
        let answer = writer.take(step);
        if answer.number != 0 {
            return Err(format!("step {i}, {step:?}: {answer:?}"));
        }
    }
    Ok(writer.buffer)
}

/// The tape with Root as the writer's own, nodes with their kind's own fields alone, and no names that no entry brought.
fn rewritten(tape: Parts) -> Parts {
    let root =
        Node { kind: ROOT, flags: SYNTHETIC, marker: UNKNOWN, link: tape.nodes.len() as u32, start: 0, length: 0 };
    let nodes = std::iter::once(root).chain(tape.nodes[1..].iter().map(own_node)).collect();
    let names = if tape.entries.is_empty() { Vec::new() } else { tape.names };
    Parts { nodes, names, ..tape }
}

fn own_node(node: &Node) -> Node {
    let marker = if matches!(node.kind, TEXT | ATTRIBUTE | ERROR) { UNKNOWN } else { node.marker };
    let link = if matches!(node.kind, OPEN | CHAPTER | VERSE) { node.link } else { 0 };
    Node { marker, link, ..*node }
}
