//! The tape writer: the listing by steps, buffers that grow, every refusal of a step.

mod common;

use andelura::{Category, Close, Element, Flags, Refusal, TapeWriter};
use common::*;

const NONE: Flags = Flags::NONE;
const UNKNOWN: u16 = TapeWriter::UNKNOWN;

/// All steps of the listing but the finish.
fn listing() -> Result<TapeWriter, Refusal> {
    let mut tape = TapeWriter::new();
    let id = tape.marker("id", Category::Identification, Element::Other)?;
    let c = tape.marker("c", Category::Chapter, Element::Other)?;
    let p = tape.marker("p", Category::Paragraph, Element::Other)?;
    let v = tape.marker("v", Category::Verse, Element::Other)?;
    tape.source(b"\\id GEN x\\p\\v 1 Sing")?;
    tape.open(NONE, id, (0, 3))?;
    tape.text(NONE, (3, 6))?;
    tape.close(Close::BlockEnd, Flags::SYNTHETIC, id, (9, 0))?;
    tape.chapter(NONE, c, 2, (9, 0))?;
    tape.open(NONE, p, (9, 2))?;
    tape.verse(NONE, v, 0, (11, 4))?;
    tape.text(NONE, (15, 5))?;
    tape.close(Close::BlockEnd, Flags::SYNTHETIC, p, (20, 0))?;
    Ok(tape)
}

/// What can be seen of a writer without finishing it.
fn counts(tape: &TapeWriter) -> [u32; 5] {
    [
        tape.nodes(),
        tape.entries(),
        tape.names_len(),
        tape.source_len(),
        tape.depth(),
    ]
}

/// The step is refused so, and nothing is changed by it: what is seen, and what is finished.
fn assert_refused<T: std::fmt::Debug + PartialEq>(
    tape: &mut TapeWriter,
    step: impl FnOnce(&mut TapeWriter) -> Result<T, Refusal>,
    refusal: Refusal,
) {
    let (before, mut kept) = (counts(tape), tape.clone());
    assert_eq!(step(tape), Err(refusal));
    assert_eq!(counts(tape), before);
    assert_eq!(tape.clone().finish(), kept.finish());
}

#[test]
fn the_listing_is_written_by_steps() {
    let mut tape = listing().unwrap();
    assert_eq!(counts(&tape), [8, 4, 5, 20, 0]);
    assert_eq!(tape.finish().unwrap(), TAPE);
}

#[test]
fn every_node_is_written_as_it_was_handed_over() {
    let mut tape = TapeWriter::default();
    tape.entry(b"nd", 0, 2, Category::Character, Element::Other)
        .unwrap();
    tape.entry(b"", 1, 1, Category::Other, Element::Row)
        .unwrap();
    tape.source(b"abcd").unwrap();
    let both = Flags {
        synthetic: true,
        nested: true,
    };
    tape.open(Flags::NESTED, 0, (0, 1)).unwrap();
    tape.leaf(Flags::SYNTHETIC, 1, (1, 1)).unwrap();
    tape.attribute(both, (2, 1)).unwrap();
    tape.error(NONE, (3, 1)).unwrap();
    tape.close(Close::MarkerClose, NONE, 7, (0, 4)).unwrap();
    tape.chapter(NONE, UNKNOWN, 150, (4, 0)).unwrap();
    tape.verse(NONE, UNKNOWN, 176, (4, 0)).unwrap();
    let parts = Parts {
        nodes: vec![
            node(ROOT, 1, 0xFFFF, 8, 0, 0),
            node(OPEN, 2, 0, 5, 0, 1),
            node(OPEN, 1, 1, 2, 1, 1),
            node(2, 3, 0xFFFF, 0, 2, 1),
            node(8, 0, 0xFFFF, 0, 3, 1),
            node(4, 0, 7, 0, 0, 4),
            node(6, 0, 0xFFFF, 150, 4, 0),
            node(7, 0, 0xFFFF, 176, 4, 0),
        ],
        entries: vec![[0, 0, 0, 0, 2, 0, 4, 0], [1, 0, 0, 0, 1, 0, 7, 3]],
        names: b"nd".to_vec(),
        source: b"abcd".to_vec(),
    };
    assert_eq!(tape.finish().unwrap(), parts.file());
}

#[test]
fn categories_and_elements_have_document_01s_codes() {
    use Category::*;
    let categories = [
        Identification,
        Chapter,
        Verse,
        Paragraph,
        Character,
        Note,
        Milestone,
        Other,
    ];
    let elements = [
        Element::Other,
        Element::Sidebar,
        Element::Periph,
        Element::Row,
    ];
    let mut tape = TapeWriter::new();
    let mut parts = Parts {
        nodes: vec![node(ROOT, 1, 0xFFFF, 1, 0, 0)],
        ..Parts::default()
    };
    for (code, category) in (0..).zip(categories) {
        for (element_code, element) in (0..).zip(elements) {
            tape.entry(b"", 0, 0, category, element).unwrap();
            parts.entries.push([0, 0, 0, 0, 0, 0, code, element_code]);
        }
    }
    assert_eq!(tape.finish().unwrap(), parts.file());
}

/// Paragraphs behind each other, with pieces of the source between the nodes; and the parts of the
/// file that should come of it.
fn long(tape: &mut TapeWriter, paragraphs: u32) -> Result<Parts, Refusal> {
    let mut parts = Parts {
        nodes: vec![[0; 16]],
        ..Parts::default()
    };
    for i in 0..200u32 {
        let name = format!("m{i}");
        parts
            .entries
            .push(entry(parts.names.len() as u32, name.len() as u16));
        parts.names.extend(name.bytes());
        assert_eq!(
            tape.marker(&name, Category::Paragraph, Element::Other)?,
            i as u16
        );
    }
    for i in 0..paragraphs {
        let marker = (i % 250) as u16;
        let span = tape.piece("\\m é")?;
        parts.source.extend("\\m é".bytes());
        tape.open(NONE, marker, span)?;
        tape.text(NONE, (span.start + 2, 3))?;
        tape.close(Close::BlockEnd, Flags::SYNTHETIC, marker, (span.start, 0))?;
        let at = 1 + 3 * i;
        parts
            .nodes
            .push(node(OPEN, 0, marker, at + 2, span.start, 5));
        parts
            .nodes
            .push(node(TEXT_NODE, 0, 0xFFFF, 0, span.start + 2, 3));
        parts
            .nodes
            .push(node(BLOCK_END, 1, marker, 0, span.start, 0));
    }
    parts.nodes[0] = node(ROOT, 1, 0xFFFF, 1 + 3 * paragraphs, 0, 0);
    Ok(parts)
}

/// An entry of 8 bytes, of a paragraph.
fn entry(start: u32, len: u16) -> [u8; 8] {
    let [a, b, c, d] = start.to_le_bytes();
    let [e, f] = len.to_le_bytes();
    [a, b, c, d, e, f, 3, 0]
}

#[test]
fn the_buffer_grows_at_any_step() {
    // 16 KiB is the first length, and each paragraph takes 53 bytes: lengths on both sides of the
    // first three growths.
    for paragraphs in (0..20).chain(250..290).chain([600, 1_200, 5_000]) {
        let mut tape = TapeWriter::new();
        let parts = long(&mut tape, paragraphs).unwrap();
        assert!(
            tape.finish().unwrap() == parts.file(),
            "{paragraphs} paragraphs"
        );
    }
}

#[test]
fn a_buffer_grows_while_containers_are_open() {
    let mut tape = TapeWriter::new();
    tape.source(b"x").unwrap();
    let mut nodes = vec![[0; 16]];
    for i in 1..=64 {
        tape.open(NONE, UNKNOWN, (0, 1)).unwrap();
        nodes.push(node(OPEN, 0, 0xFFFF, 2_064 + 65 - i, 0, 1));
    }
    for _ in 0..2_000 {
        tape.text(NONE, (0, 1)).unwrap();
        nodes.push(node(TEXT_NODE, 0, 0xFFFF, 0, 0, 1));
    }
    for _ in 0..64 {
        tape.close(Close::BlockEnd, NONE, UNKNOWN, (0, 0)).unwrap();
        nodes.push(node(BLOCK_END, 0, 0xFFFF, 0, 0, 0));
    }
    nodes[0] = node(ROOT, 1, 0xFFFF, 2_129, 0, 0);
    let parts = Parts {
        nodes,
        source: b"x".to_vec(),
        ..Parts::default()
    };
    assert!(tape.finish().unwrap() == parts.file());
}

#[test]
fn room_that_is_asked_for_changes_nothing() {
    for room in [0, 52, 1_000_000, usize::MAX] {
        let mut tape = TapeWriter::with_room(room).unwrap();
        let parts = long(&mut tape, 300).unwrap();
        assert!(tape.finish().unwrap() == parts.file());
    }
}

#[test]
fn number_2_comes_at_the_limits_and_no_step_before_is_refused() {
    let mut tape = TapeWriter::new();
    for i in 0..1_024 {
        assert_eq!(
            tape.marker("0123456789abcdef", Category::Other, Element::Other),
            Ok(i)
        );
    }
    assert_refused(
        &mut tape,
        |t| t.entry(b"", 0, 0, Category::Other, Element::Other),
        Refusal::OverLimits,
    );
    let piece = vec![b'x'; 4_194_303];
    tape.source(&piece).unwrap();
    assert_refused(&mut tape, |t| t.source(b"xy"), Refusal::OverLimits);
    tape.source(b"x").unwrap();
    for _ in 1..262_144 {
        tape.text(NONE, (0, 4_194_304)).unwrap();
    }
    assert_refused(&mut tape, |t| t.text(NONE, (0, 0)), Refusal::OverLimits);
    assert_eq!(tape.finish().unwrap().len(), andelura::LONGEST_TAPE);
}

#[test]
fn number_2_comes_for_pieces_and_names_that_are_too_long() {
    let mut tape = listing().unwrap();
    assert_refused(
        &mut tape,
        |t| t.source(&vec![b'x'; 4_194_305]),
        Refusal::OverLimits,
    );
    let mut tape = TapeWriter::new();
    for len in [16_385, 65_535, 65_536, 70_000] {
        let name = "x".repeat(len);
        let step = |t: &mut TapeWriter| t.marker(&name, Category::Other, Element::Other);
        assert_refused(&mut tape, step, Refusal::OverLimits);
    }
}

#[test]
fn number_3_comes_for_a_piece_that_is_not_utf8() {
    let mut tape = listing().unwrap();
    assert_refused(&mut tape, |t| t.source(b"\xC3"), Refusal::NotUtf8);
    assert_refused(&mut tape, |t| t.source(b"\xED\xA0\x80"), Refusal::NotUtf8);
}

#[test]
fn number_4_comes_for_bad_names() {
    let mut tape = TapeWriter::new();
    for name in ["a b", "é", "\x7F"] {
        let step = |t: &mut TapeWriter| t.marker(name, Category::Note, Element::Other);
        assert_refused(&mut tape, step, Refusal::BadTable);
    }
    // A name past the names.
    let past = |t: &mut TapeWriter| t.entry(b"ab", 1, 2, Category::Note, Element::Other);
    assert_refused(&mut tape, past, Refusal::BadTable);
}

#[test]
fn number_5_comes_for_bad_spans_and_elements() {
    let mut tape = TapeWriter::new();
    let row = tape
        .marker("tr", Category::Paragraph, Element::Row)
        .unwrap();
    tape.source("é".as_bytes()).unwrap();
    assert_refused(&mut tape, |t| t.text(NONE, (0, 1)), Refusal::BadNode);
    assert_refused(&mut tape, |t| t.open(NONE, row, (1, 1)), Refusal::BadNode);
    assert_refused(&mut tape, |t| t.error(NONE, (2, 1)), Refusal::BadNode);
    assert_refused(
        &mut tape,
        |t| t.attribute(NONE, (u32::MAX, u32::MAX)),
        Refusal::BadNode,
    );
    assert_refused(&mut tape, |t| t.leaf(NONE, row, (3, 0)), Refusal::BadNode);
    assert_refused(
        &mut tape,
        |t| t.chapter(NONE, row, 1, (0, 2)),
        Refusal::BadNode,
    );
    assert_refused(
        &mut tape,
        |t| t.verse(NONE, row, 1, (0, 2)),
        Refusal::BadNode,
    );
}

#[test]
fn number_6_comes_where_64_containers_are_open() {
    let mut tape = TapeWriter::new();
    for _ in 0..64 {
        tape.open(NONE, UNKNOWN, (0, 0)).unwrap();
    }
    assert_refused(
        &mut tape,
        |t| t.open(NONE, UNKNOWN, (0, 0)),
        Refusal::TooDeep,
    );
    assert_eq!(tape.leaf(NONE, UNKNOWN, (0, 0)), Ok(()));
}

#[test]
fn number_7_comes_where_nothing_or_something_is_open() {
    let mut tape = listing().unwrap();
    let close = |t: &mut TapeWriter| t.close(Close::MarkerClose, NONE, 0, (0, 0));
    assert_refused(&mut tape, close, Refusal::BadNesting);
    tape.open(NONE, UNKNOWN, (0, 0)).unwrap();
    assert_refused(&mut tape, TapeWriter::finish, Refusal::BadNesting);
    close(&mut tape).unwrap();
    assert_eq!(tape.finish().unwrap().len(), TAPE.len() + 32);
}

#[test]
fn number_16_comes_out_of_step() {
    let mut tape = listing().unwrap();
    let entry = |t: &mut TapeWriter| t.marker("q", Category::Paragraph, Element::Other);
    assert_refused(&mut tape, entry, Refusal::OutOfStep);
    tape.finish().unwrap();
    assert_refused(&mut tape, entry, Refusal::OutOfStep);
    assert_refused(&mut tape, |t| t.source(b""), Refusal::OutOfStep);
    assert_refused(&mut tape, |t| t.text(NONE, (0, 0)), Refusal::OutOfStep);
    assert_refused(&mut tape, TapeWriter::finish, Refusal::OutOfStep);
}

#[test]
fn a_writer_is_shown_by_its_counts() {
    assert_eq!(
        format!("{:?}", listing().unwrap()),
        "TapeWriter { nodes: 8, entries: 4, names_len: 5, source_len: 20, depth: 0, .. }"
    );
}
