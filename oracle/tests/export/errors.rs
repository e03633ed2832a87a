//! Each error by the smallest tape that causes it, and the tape beside it that is exported.

use crate::made::{Made, PARA, VERSE, node, open, root};
use crate::marker::Category;
use crate::serialize::tape_file::ExportError::{self, *};
use crate::serialize::tape_file::export;
use crate::tape::NodeKind::{self, *};
use crate::tape::{Node, flags};

/// The error is given and says this, and a file of that shape is refused by its number.
fn fails(made: &Made, error: ExportError, says: &str) {
    assert_eq!(made.with(export), Err(error));
    assert_eq!(error.to_string(), format!("{says}: {}", error.advice()));
    let refusal = oracle::loader::load(&made.unasked()).err().map(|refusal| refusal.0);
    assert_eq!(error.refusal(), refusal, "{error:?}");
}

/// The file is exported as it is meant, and admitted.
fn passes(made: &Made) {
    let file = made.with(export).unwrap();
    assert_eq!(file, made.unasked());
    assert!(oracle::loader::load(&file).is_ok());
}

/// Root and these nodes, Root linked to their end.
fn nodes(behind: &[Node]) -> Made {
    let root = root(behind.len() as u32 + 1);
    Made::new(&[&[root], behind].concat())
}

// --- limits and names ---

#[test]
fn no_nodes() {
    fails(&Made::default(), NoNodes, "the tape has no node");
    passes(&nodes(&[]));
}

#[test]
fn too_many_nodes() {
    let texts = |count: usize| nodes(&vec![node(Text); count - 1]);
    fails(&texts(262_145), TooManyNodes { nodes: 262_145 }, "the tape has 262145 nodes, over 262,144");
    passes(&texts(262_144));
}

#[test]
fn too_many_entries() {
    let table = |count: usize| (0..count).fold(nodes(&[]), |made, _| made.entry("p", PARA));
    fails(&table(1_025), TooManyEntries { entries: 1_025 }, "the marker table has 1025 entries, over 1,024");
    passes(&table(1_024));
}

/// The longest name that a u16 can tell is too many name bytes.
#[test]
fn long_name() {
    let named = |length: usize| nodes(&[]).entry("p", PARA).entry(&"q".repeat(length), PARA);
    fails(&named(65_536), LongName { entry: 1, length: 65_536 }, "the name of entry 1 has 65536 bytes, over 65,535");
    fails(&named(65_535), TooManyNameBytes { bytes: 65_536 }, "the marker table's names have 65536 bytes, over 16,384");
}

#[test]
fn too_many_name_bytes() {
    let named = |length: usize| nodes(&[]).entry("p", PARA).entry(&"q".repeat(length - 1), PARA);
    fails(&named(16_385), TooManyNameBytes { bytes: 16_385 }, "the marker table's names have 16385 bytes, over 16,384");
    passes(&named(16_384));
}

#[test]
fn long_source() {
    let over = |length: usize| nodes(&[]).source(&"a".repeat(length));
    fails(&over(4_194_305), LongSource { bytes: 4_194_305 }, "the source has 4194305 bytes, over 4,194,304");
    passes(&over(4_194_304));
}

#[test]
fn name_byte() {
    for (name, byte) in [(" ", 0x20), ("q\u{7F}", 0x7F), ("q\u{E9}", 0xC3), ("\u{0}", 0)] {
        let says = format!("the name of entry 1 holds byte {byte:02X}, outside 21..7E");
        fails(&nodes(&[]).entry("p", PARA).entry(name, PARA), NameByte { entry: 1, byte }, &says);
    }
    passes(&nodes(&[]).entry("!", PARA).entry("~", PARA).entry("", PARA));
}

// --- nodes ---

#[test]
fn unknown_flags() {
    for flags in [1 << 5, 1 << 6, 1 << 7] {
        let made = nodes(&[Node { flags, ..node(Text) }]);
        fails(&made, UnknownFlags { node: 1, flags }, &format!("node 1 has flags {flags:08b}, one of them unknown"));
    }
}

#[test]
fn no_root() {
    fails(&Made::new(&[node(Text)]), NoRoot { kind: Text }, "node 0 is no Root but a Text");
}

#[test]
fn second_root() {
    fails(&nodes(&[root(2)]), SecondRoot { node: 1 }, "node 1 is a second Root");
}

#[test]
fn span_past_u32() {
    let (start, length) = (u32::MAX, 1);
    let made = nodes(&[node(Text).over(start, length)]);
    let says = "node 1 ends past u32: 1 bytes from 4294967295";
    fails(&made, SpanPastU32 { node: 1, start, length }, says);
}

#[test]
fn span_past_source() {
    let over = |start, length| nodes(&[node(Text).over(start, length)]).source("abc");
    let says = "node 1 ends at 4, past a source of 3";
    for (start, length) in [(0, 4), (3, 1), (4, 0)] {
        fails(&over(start, length), SpanPastSource { node: 1, end: 4, source: 3 }, says);
    }
    let end = u32::MAX;
    let says = "node 1 ends at 4294967295, past a source of 3";
    fails(&over(end, 0), SpanPastSource { node: 1, end, source: 3 }, says);
    passes(&over(0, 3));
    passes(&over(3, 0));
}

/// The spans of Root and of closes count, and so do empty ones.
#[test]
fn span_in_character() {
    let says = |node: usize| format!("node {node} starts or ends at 1, inside a character");
    for (start, length) in [(1, 0), (0, 1), (1, 1)] {
        let made = nodes(&[node(Text).over(start, length)]).source("\u{E9}");
        fails(&made, SpanInCharacter { node: 1, byte: 1 }, &says(1));
    }
    let made = Made::new(&[root(1).over(1, 0)]).source("\u{E9}");
    fails(&made, SpanInCharacter { node: 0, byte: 1 }, &says(0));
    passes(&nodes(&[node(Text).over(0, 2), node(Text).over(2, 0)]).source("\u{E9}"));
}

/// Rows are the Rust's: entries named `tr`.
#[test]
fn milestone_element() {
    let entries = [("s", "sidebar", "sidebar"), ("s", "periph", "periph"), ("tr", "para", "row")];
    for (name, usx_element, element) in entries {
        for kind in [Chapter, Verse] {
            let made = nodes(&[node(kind).of(0)]).entry(name, (Category::Other, usx_element));
            let says = format!("node 1 is a {kind:?} with a {element}'s entry");
            fails(&made, MilestoneElement { node: 1, kind, element }, &says);
        }
    }
    passes(&nodes(&[node(Chapter).of(0), node(Verse).of(0), node(Verse)]).entry("v", VERSE));
}

#[test]
fn label_cut() {
    let verse = |text: &str, kind| {
        let over = node(kind).of(0).over(0, text.len() as u32);
        nodes(&[over]).source(text).entry("vv", VERSE)
    };
    fails(&verse("\\v\u{E9}", Verse), LabelCut { node: 1 }, "the label of verse node 1 starts inside a character");
    passes(&verse("\\v\u{E9}", Chapter));
    passes(&verse("\\v\u{E9} 1", Verse));
    passes(&verse("\\vv\u{E9}", Verse));
    passes(&verse("\\v", Verse));
}

// --- the tree ---

/// So many containers, one in the other, with a Text in the innermost.
fn tower(count: u32) -> Made {
    let opens = (0..count).map(|i| open(2 * count + 1 - i, 0));
    let closes = (0..count).map(|_| node(BlockEnd));
    nodes(&opens.chain([node(Text)]).chain(closes).collect::<Vec<_>>())
}

#[test]
fn too_deep() {
    fails(&tower(65), TooDeep { node: 66 }, "over 64 containers are open before node 66");
    passes(&tower(64));
}

#[test]
fn root_link() {
    let bad: [(u32, &[NodeKind]); 6] =
        [(0, &[]), (2, &[]), (u32::MAX, &[]), (1, &[Text]), (1, &[MarkerClose]), (1, &[BlockEnd, Text])];
    for (link, behind) in bad {
        let behind = behind.iter().map(|&kind| node(kind));
        let made: Vec<_> = [root(link)].into_iter().chain(behind).collect();
        let (link, nodes) = (link as usize, made.len());
        let says = format!("Root links to {link}, not to the end of {nodes} nodes");
        fails(&Made::new(&made), RootLink { link, nodes }, &says);
    }
    passes(&Made::new(&[root(1), node(BlockEnd)]));
}

#[test]
fn link_back() {
    fails(&nodes(&[open(0, 0)]), LinkBack { node: 1, link: 0 }, "container node 1 links back to 0");
    passes(&nodes(&[open(1, 0)]));
}

#[test]
fn link_past_end() {
    let says = "container node 1 links to 2, past the last node";
    fails(&nodes(&[open(2, 0)]), LinkPastEnd { node: 1, link: 2 }, says);
    let (link, says) = (u32::MAX, "container node 1 links to 4294967295, past the last node");
    fails(&nodes(&[open(link, 0)]), LinkPastEnd { node: 1, link: link as usize }, says);
}

#[test]
fn link_to_no_close() {
    for kind in [Text, Attribute, MarkerOpen, Chapter, Verse, Error] {
        let made = nodes(&[open(2, 0), Node { link: 2, ..node(kind) }]);
        let says = format!("node 1 links to 2, a {kind:?} and no close");
        fails(&made, LinkToNoClose { node: 1, link: 2, kind }, &says);
    }
    passes(&nodes(&[open(2, 0), node(MarkerClose)]));
    passes(&nodes(&[open(2, 0), node(BlockEnd)]));
}

#[test]
fn stray_close() {
    for kind in [MarkerClose, BlockEnd] {
        fails(&nodes(&[node(kind)]), StrayClose { node: 1 }, "close node 1 belongs to no container");
    }
}

#[test]
fn shared_close() {
    let two = nodes(&[open(3, 0), open(3, 0), node(MarkerClose)]);
    fails(&two, SharedClose { node: 3 }, "close node 3 belongs to two");
    let with_root = Made::new(&[root(2), open(2, 0), node(BlockEnd)]);
    fails(&with_root, SharedClose { node: 2 }, "close node 2 belongs to two");
}

#[test]
fn crossing() {
    let made = |first, second| nodes(&[open(first, 0), open(second, 0), node(MarkerClose), node(MarkerClose)]);
    let says = "container node 2 ends at 4, behind the one it starts in";
    fails(&made(3, 4), Crossing { node: 2, link: 4 }, says);
    passes(&made(4, 3));
}

// --- all of them ---

/// Two faults: the one of the lower number is given, as by the loader.
#[test]
fn the_lowest_number_is_given() {
    let bad_link = [open(0, 0), node(MarkerClose)];
    let deep = |more: &[Node]| nodes(&[&vec![open(0, 0); 66][..], more].concat());
    let cases = [
        (nodes(&bad_link).entry(" ", PARA), 4),
        (nodes(&[bad_link[0], node(Text).over(0, 1)]), 5),
        (deep(&[]), 6),
        (deep(&[node(Text).over(0, 1)]), 5),
        (deep(&[node(Text).over(0, 1)]).entry(" ", PARA), 4),
        (nodes(&bad_link).entry(" ", PARA).entry(&"q".repeat(16_384), PARA), 2),
    ];
    for (made, number) in cases {
        assert_eq!(made.with(export).unwrap_err().refusal(), Some(number));
        assert_eq!(oracle::loader::load(&made.unasked()).err(), Some(oracle::loader::Refusal(number)));
    }
}

/// The flags that a file has no place for are left out; the two others have their places.
#[test]
fn flags_have_their_places() {
    let left_out = flags::SELF_CLOSING | flags::HAS_ATTRS | flags::HAS_ERROR;
    let cases = [(left_out, 0), (flags::SYNTHETIC, 1), (flags::NESTED, 2), (0x1F, 3)];
    let given: Vec<_> = cases.iter().map(|&(flags, _)| Node { flags, ..node(Text) }).collect();
    let meant: Vec<_> = cases.iter().map(|&(_, flags)| Node { flags, ..node(Text) }).collect();
    assert_eq!(nodes(&given).with(export), Ok(nodes(&meant).unasked()));
}

/// Rows by the Rust's own answer, used by a node or not; a row comes before a sidebar. Other elements are none.
#[test]
fn elements_are_the_rusts() {
    use Category::{Character, Other, Paragraph};
    let made = |nodes: Made| {
        let made = nodes.entry("tr", PARA).entry("line", (Paragraph, "row")).entry("tr", (Character, "sidebar"));
        made.entry("esb", (Other, "sidebar")).entry("periph", (Other, "periph")).entry("nd", (Character, "char"))
    };
    let unused = made(nodes(&[]));
    let used = made(nodes(&(0..7).map(|entry| open(u32::from(entry) + 1, entry)).collect::<Vec<_>>()));
    for made in [unused, used] {
        let entries = oracle::tapes::Parts::read(&made.with(export).unwrap()).entries;
        assert_eq!(entries.iter().map(|entry| entry.element).collect::<Vec<_>>(), [3, 0, 3, 1, 2, 0]);
        passes(&made);
    }
}

/// The variants of the error, by the module's text.
fn variants() -> Vec<&'static str> {
    let module = include_str!("../../../rust/usfm3-tape/tape_file.rs");
    let (_, behind) = module.split_once("pub enum ExportError {\n").unwrap();
    let lines = behind.lines().take_while(|line| *line != "}").map(str::trim);
    lines.filter(|line| !line.starts_with("//")).map(|line| line.split([' ', ',']).next().unwrap()).collect()
}

#[test]
fn every_error_has_a_test_and_a_place_in_the_readme() {
    let tests = [include_str!("errors.rs"), include_str!("other_rows.rs")].concat();
    let readme = include_str!("../../../rust/usfm3-tape/README.md");
    assert_eq!(variants().len(), 25);
    for variant in variants() {
        assert!(tests.contains(&format!("#[test]\nfn {}() {{", snake(variant))), "{variant}");
        assert!(readme.contains(&format!("`{variant}`")), "{variant}");
    }
}

fn snake(name: &str) -> String {
    let mut out = String::new();
    for c in name.chars() {
        if c.is_uppercase() && !out.is_empty() {
            out.push('_');
        }
        out.push(c.to_ascii_lowercase());
    }
    out
}
