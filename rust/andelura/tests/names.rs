//! The first name of a tape that breaks the proviso: each of the four kinds, and where it stands.

mod common;

use andelura::{
    check, find_names, serialize, BrokenName, Category, Close, Element, Flags, NameKind, Names,
    Refusal, Rule, TapeWriter, Verdict,
};
use common::TAPE;

/// A tape with a container of such a marker and what stands in it.
fn holding(
    name: &str,
    category: Category,
    marker: &str,
    inside: impl Fn(&mut TapeWriter) -> Result<(), Refusal>,
) -> Result<Vec<u8>, Refusal> {
    let mut tape = TapeWriter::new();
    let number = tape.marker(name, category, Element::Other)?;
    let span = tape.piece(marker)?;
    tape.open(Flags::NONE, number, span)?;
    inside(&mut tape)?;
    let end = (tape.source_len(), 0);
    tape.close(Close::BlockEnd, Flags::SYNTHETIC, number, end)?;
    tape.finish()
}

fn text(tape: &mut TapeWriter, text: &str) -> Result<(), Refusal> {
    let span = tape.piece(text)?;
    tape.text(Flags::NONE, span)
}

fn broken(tape: &[u8]) -> BrokenName<'_> {
    match find_names(tape) {
        Ok(Names::Broken(name)) => name,
        other => panic!("{other:?}"),
    }
}

#[test]
fn a_tape_without_such_names_is_kept() {
    assert_eq!(find_names(TAPE), Ok(Names::Kept));
    assert_eq!(find_names(TAPE).unwrap().to_string(), "kept");
    // A text may hold any of the four.
    let tape = holding("p", Category::Paragraph, "\\p", |tape| text(tape, " <\"&>")).unwrap();
    assert_eq!(find_names(&tape), Ok(Names::Kept));
}

#[test]
fn a_book_code_is_found() {
    let tape = holding("id", Category::Identification, "\\id", |tape| {
        text(tape, "\n G<N x")
    })
    .unwrap();
    let name = BrokenName {
        what: NameKind::BookCode,
        node: 1,
        start: 5,
        line: 2,
        bytes: b"G<N",
    };
    assert_eq!(broken(&tape), name);
    assert_eq!(
        find_names(&tape).unwrap().to_string(),
        "found book code in node 1, at byte 5, line 2 of the source: G<N"
    );
}

#[test]
fn a_verse_label_is_found_and_the_checker_refuses_its_text() {
    let tape = holding("p", Category::Paragraph, "\\p\n", |tape| {
        let span = tape.piece("\\v 1\"")?;
        tape.verse(Flags::NONE, TapeWriter::UNKNOWN, 1, span)
    })
    .unwrap();
    let name = BrokenName {
        what: NameKind::VerseLabel,
        node: 2,
        start: 6,
        line: 2,
        bytes: b"1\"",
    };
    assert_eq!(broken(&tape), name);
    let Verdict::Refused(fault) = check(&serialize(&tape).unwrap()) else {
        panic!("accepted");
    };
    assert_eq!(fault.rule, Rule::NotTags);
}

#[test]
fn a_marker_name_is_found() {
    let tape = holding("p", Category::Paragraph, "\\p&", |tape| text(tape, " x")).unwrap();
    let name = BrokenName {
        what: NameKind::MarkerName,
        node: 1,
        start: 1,
        line: 1,
        bytes: b"p&",
    };
    assert_eq!(broken(&tape), name);
}

#[test]
fn an_attribute_key_is_found() {
    let tape = holding("w", Category::Character, "\\w", |tape| {
        text(tape, " x")?;
        let span = tape.piece("|k>=\"1\"")?;
        tape.attribute(Flags::NONE, span)
    })
    .unwrap();
    let name = broken(&tape);
    assert_eq!(
        (name.what, name.node, name.line),
        (NameKind::AttributeKey, 1, 1)
    );
    assert_eq!((name.start, name.bytes), (5, b"k>".as_slice()));
}

#[test]
fn what_is_said_stays_on_one_line() {
    let name = BrokenName {
        what: NameKind::VerseLabel,
        node: 5,
        start: 11,
        line: 3,
        bytes: b"1<\x1B[2J\x07",
    };
    assert_eq!(
        name.to_string(),
        "verse label in node 5, at byte 11, line 3 of the source: 1<\\u{1b}[2J\\u{7}"
    );
}

#[test]
fn kinds_have_names() {
    use NameKind::*;
    let names = [BookCode, VerseLabel, MarkerName, AttributeKey].map(|kind| kind.to_string());
    assert_eq!(
        names,
        ["book code", "verse label", "marker name", "attribute key"]
    );
}
