//! The tapes of document 01's "Both sides of each line" and of its listing.

use std::io::{self, Write};

use crate::answer::write_tape;
use crate::notation;
use crate::tapes::{self, CLOSE, Item, Parts, Shut};

/// Writes the tapes of examples 1 to 13 and of the listing, as a stream.
pub fn write(mut output: impl Write) -> io::Result<()> {
    let examples = (1..=13).flat_map(example);
    examples.chain([listing().file()]).try_for_each(|tape| write_tape(&mut output, &tape))?;
    output.flush()
}

/// The tapes of an example, in the order of its words.
pub fn example(number: usize) -> Vec<Vec<u8>> {
    match number {
        1 => vec![notation::file("")],
        2 => vec![Vec::new(), Parts::default().file()],
        3 => vec![deep(64), deep(65)],
        4 => vec![notation::file(r#"V"\v 3" T" x""#)],
        5 => [r#"p{T"a // b "}"#, r#"p{f[T"+ " T"a // b "]}"#].map(notation::file).into(),
        6 => vec![notation::file(r#"p{T"a~//b"}"#)],
        7 => vec![notation::file(r#"p{T"<\u{22}&>" w[A"|<\u{22}&>"]}"#)],
        8 => [r#"|lemma strong="l""#, "|=v"].map(word_with).into(),
        9 => [r#"|k="x\"y""#, r#"|k="x"#].map(word_with).into(),
        10 => vec![notation::file(r#"p{V"\v 1" va[T" 2"] va[T" 3"]}"#)],
        11 => vec![notation::file(r#"p{V"\v 1\u{22}"}"#)],
        12 => vec![notation::file(r#"tr{tc"\tcr2"[T"a"] tc"\thc1"[T"b"] tc"\tc1"[T"c"]}"#)],
        13 => vec![notation::file(r#"p{f[nd[T"x"]]}"#)],
        _ => panic!("no example {number}"),
    }
}

/// `n` unknown containers, each inside the one before.
pub fn deep(n: usize) -> Vec<u8> {
    let inner = (0..n).fold(Vec::new(), |kids, _| vec![tapes::container(tapes::UNKNOWN, "", CLOSE, kids)]);
    tapes::tape(&inner, &[], false).file()
}

/// A paragraph of one `w` that holds an Attribute of this text alone.
fn word_with(attribute: &str) -> Vec<u8> {
    let attribute = attribute.replace('"', "\\u{22}");
    notation::file(&format!("p{{w[A\"{attribute}\"]}}"))
}

/// The listing's tape, with its own four entries.
pub fn listing() -> Parts {
    let entries = [("id", 0, 0), ("c", 1, 0), ("p", 3, 0), ("v", 2, 0)];
    let items = [
        block(0, "\\id", vec![tapes::text(" GEN x")]),
        tapes::single(tapes::CHAPTER, 1, 2, ""),
        block(2, "\\p", vec![tapes::single(tapes::VERSE, 3, 0, "\\v 1"), tapes::text(" Sing")]),
    ];
    tapes::tape(&items, &entries, false)
}

/// A container with a BlockEnd that stands in no source.
fn block(marker: u16, text: &str, children: Vec<Item>) -> Item {
    let close = Shut { flags: tapes::SYNTHETIC, ..Shut::new(tapes::BLOCK_END) };
    Item::Container { flags: 0, marker, text: text.into(), children, close }
}
