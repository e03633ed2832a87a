//! The names of every node of a tape by the Rust's own functions, and the first that breaks demand 3's proviso.

use std::fmt;
use std::io::{self, BufReader, Read, Write};

use crate::Document;
use crate::answer::{Answer, answer, read_tape};
use crate::check;
use crate::cst::Cursor;
use crate::dump::{self, index};
use crate::loader;
use crate::serialize::render::{collect_attributes, verse_label};
use crate::serialize::usx::asked;
use crate::tape::NodeKind;

/// What a name is; the names of a node stand in this order.
#[derive(Clone, Copy, PartialEq, Eq, Debug)]
pub enum What {
    BookCode,
    Label,
    MarkerName,
    Key,
}

impl fmt::Display for What {
    fn fmt(&self, f: &mut fmt::Formatter<'_>) -> fmt::Result {
        f.write_str(match self {
            What::BookCode => "book code",
            What::Label => "label",
            What::MarkerName => "marker name",
            What::Key => "key",
        })
    }
}

/// A name of a node; its text is a part of the source, or fixed, or empty.
#[derive(Clone, Copy, PartialEq, Eq, Debug)]
pub struct Name<'a> {
    pub node: usize,
    pub what: What,
    pub text: &'a str,
}

impl Name<'_> {
    /// Whether it holds one of the four bytes of the proviso.
    pub fn is_broken(&self) -> bool {
        self.text.contains(['&', '<', '>', '"'])
    }

    /// Where a name that is no fixed key stands in the source.
    pub fn place(&self, document: &Document<'_>) -> usize {
        let place = self.text.as_ptr().addr() - document.source().as_ptr().addr();
        assert!(document.source()[place..].starts_with(self.text));
        place
    }
}

/// The names of every node of a tape, in order.
pub fn names<'a>(document: &'a Document<'_>) -> Vec<Name<'a>> {
    let of = |c| {
        let node = index(document.nodes(), c);
        of_node(c).into_iter().map(move |(what, text)| Name { node, what, text })
    };
    document.cursors().flat_map(of).collect()
}

fn of_node(c: Cursor<'_>) -> Vec<(What, &str)> {
    let mut names = Vec::new();
    if let Some(code) = book_code(c) {
        names.push((What::BookCode, code));
    }
    if c.kind() == NodeKind::Verse {
        names.push((What::Label, verse_label(c)));
    }
    if bears_marker(c.kind()) {
        names.push((What::MarkerName, c.marker_name()));
    }
    names.extend(collect_attributes(c, collects_as(c)).into_iter().map(|(key, _)| (What::Key, key)));
    names
}

/// The kinds of which the Rust's cursor gives an entry.
fn bears_marker(kind: NodeKind) -> bool {
    use NodeKind::*;
    matches!(kind, MarkerOpen | MarkerClose | BlockEnd | Chapter | Verse)
}

/// The code that the Rust writes of a book, as the part of the source that it is.
fn book_code(c: Cursor<'_>) -> Option<&str> {
    let code = asked::book_code(c)?;
    let text = c.children().find(|ch| ch.kind() == NodeKind::Text).map_or("", |ch| ch.text());
    let word = text.trim_start();
    assert!(word.starts_with(&code));
    Some(&word[..code.len()])
}

/// The name by which the writer of this node would collect: that of periphs, of figures, else its own.
fn collects_as(c: Cursor<'_>) -> &str {
    match c.marker_info() {
        Some(info) if info.usx_element == "periph" => "periph",
        Some(info) if info.name == "fig" => "fig",
        _ => c.marker_name(),
    }
}

// ---- what is written of a tape

/// What the program usx_names writes of an admitted tape.
pub fn report(document: &Document<'_>) -> String {
    let Some(name) = names(document).into_iter().find(Name::is_broken) else {
        return "kept\n".to_string();
    };
    let place = name.place(document);
    let line = 1 + document.source()[..place].matches('\n').count();
    let Name { node, what, text } = name;
    format!("found {what} in node {node}\nat byte {place}, line {line} of the source: {text}\n")
}

/// The reports of a stream of tapes; the form of the lines stands in the README.
pub fn stream(input: impl Read, output: impl Write) -> io::Result<()> {
    dump::each_tape(input, output, |out, document| out.write_all(report(document).as_bytes()))
}

/// The reports of a stream of tapes, each with the checker's answer to the Rust's text, `unwritten` where there is none.
pub fn judged(input: impl Read, mut output: impl Write) -> io::Result<()> {
    let mut input = BufReader::with_capacity(1 << 16, input);
    let mut tape = Vec::new();
    while read_tape(&mut input, &mut tape)? {
        match (answer(&tape), loader::load(&tape)) {
            (Answer::Written(text), Ok(document)) => {
                let verdict = check::report(text.as_bytes());
                writeln!(output, "{}{}", report(&document), verdict.lines().next().unwrap_or(""))?;
            }
            (refused, _) => writeln!(output, "refused {}\nunwritten", refused.number())?,
        }
        output.write_all(b"\n")?;
    }
    output.flush()
}

/// All names of a stream of tapes, a line each.
pub fn list(input: impl Read, output: impl Write) -> io::Result<()> {
    dump::each_tape(input, output, |out, document| {
        names(document).iter().try_for_each(|n| writeln!(out, "{} {} {}", n.node, n.what, hex(n.text)))
    })
}

fn hex(text: &str) -> String {
    if text.is_empty() { "-".into() } else { text.bytes().map(|byte| format!("{byte:02x}")).collect() }
}
