//! Each refusal of a tape file, by every function, and the words of all.

mod common;

use andelura::{Fault, Refusal, Rule, TextReader};
use common::*;

/// Every function refuses the tape so, and writes nothing.
fn assert_refused(tape: &[u8], refusal: Refusal) {
    let mut out = [7; 300];
    assert_eq!(andelura::serialize(tape), Err(refusal));
    assert_eq!(andelura::serialize_into(tape, &mut out), Err(refusal));
    assert_eq!(andelura::serialize_into(tape, &mut []), Err(refusal));
    assert_eq!(andelura::measure(tape), Err(refusal));
    assert_eq!(andelura::window(tape, 3, &mut out), Err(refusal));
    assert_eq!(out, [7; 300]);
    let windows: Vec<_> = andelura::windows(tape, 9).collect();
    assert_eq!(windows, [Err(refusal)]);
    assert_eq!(TextReader::new(tape).err(), Some(refusal));
    assert_eq!(andelura::find_names(tape), Err(refusal));
}

#[test]
fn number_1_is_no_tape() {
    assert_refused(b"", Refusal::NotATape);
    assert_refused(&TAPE[..35], Refusal::NotATape);
    assert_refused(&TAPE[..TAPE.len() - 1], Refusal::NotATape);
    assert_refused(&[TAPE, b"\n"].concat(), Refusal::NotATape);
    assert_refused(&listing_with(0, 2), Refusal::NotATape); // the format
    assert_refused(&listing_with(8, 35), Refusal::NotATape); // where the nodes start
}

#[test]
fn number_2_is_over_the_limits() {
    assert_refused(&Parts::default().file(), Refusal::OverLimits);
    let mut parts = Parts {
        nodes: vec![node(ROOT, 1, 0xFFFF, 1, 0, 0)],
        entries: vec![[0; 8]; 1025],
        ..Parts::default()
    };
    assert_refused(&parts.file(), Refusal::OverLimits);
    parts.entries.pop();
    assert_eq!(andelura::measure(&parts.file()), Ok(26));
}

#[test]
fn number_3_is_not_utf8() {
    assert_refused(&listing_with(SOURCE_AT + 4, 0xFF), Refusal::NotUtf8);
    assert_refused(&listing_with(TAPE.len() - 1, 0xC3), Refusal::NotUtf8); // cut short
}

#[test]
fn number_4_is_a_bad_table() {
    assert_refused(&listing_with(NAMES_AT, b' '), Refusal::BadTable);
    assert_refused(&listing_with(ENTRIES_AT, 4), Refusal::BadTable); // a name past the names
    assert_refused(&listing_with(ENTRIES_AT + 6, 8), Refusal::BadTable); // the category
    assert_refused(&listing_with(ENTRIES_AT + 7, 4), Refusal::BadTable); // the element
}

#[test]
fn number_5_is_a_bad_node() {
    let second = NODES_AT + 32;
    assert_refused(&listing_with(second, 9), Refusal::BadNode); // the kind
    assert_refused(&listing_with(second, ROOT), Refusal::BadNode); // another Root
    assert_refused(&listing_with(second + 1, 4), Refusal::BadNode); // the flags
    assert_refused(&listing_with(second + 12, 18), Refusal::BadNode); // a span past the source
}

#[test]
fn number_6_is_too_deep() {
    assert_eq!(andelura::serialize(&nested(64)).map(|_| ()), Ok(()));
    assert_refused(&nested(65), Refusal::TooDeep);
}

/// So many containers in each other.
fn nested(depth: u32) -> Vec<u8> {
    let last = 2 * depth;
    let opens = (1..=depth).map(|i| node(OPEN, 0, 0xFFFF, last + 1 - i, 0, 0));
    let closes = (1..=depth).map(|_| node(BLOCK_END, 1, 0xFFFF, 0, 0, 0));
    let root = node(ROOT, 1, 0xFFFF, last + 1, 0, 0);
    Parts {
        nodes: [root].into_iter().chain(opens).chain(closes).collect(),
        ..Parts::default()
    }
    .file()
}

#[test]
fn number_7_is_bad_nesting() {
    let first = NODES_AT + 16;
    assert_refused(&listing_with(first + 4, 2), Refusal::BadNesting); // a link that is no close
    assert_refused(&listing_with(first + 4, 1), Refusal::BadNesting); // a close that none links to
    assert_refused(&listing_with(NODES_AT + 4, 8), Refusal::BadNesting); // a close linked to twice
}

/// The cells of the row of `docs/REFUSALS.md` that begins with this number, the first one.
fn row(number: u32) -> Vec<String> {
    let paper = include_str!("../../../docs/REFUSALS.md");
    let start = format!("| {number} |");
    let row = paper.lines().find(|line| line.starts_with(&start));
    let row = row.unwrap_or_else(|| panic!("no row {number}"));
    row.split(" | ").map(str::to_owned).collect()
}

/// The second cell has what was found, the last one what to do.
fn assert_words(number: u32, found: &str, advice: &str) {
    let cells = row(number);
    assert!(cells[1].contains(found), "{number}: {found}");
    assert!(
        cells[cells.len() - 1].contains(advice),
        "{number}: {advice}"
    );
    for words in [found, advice] {
        assert!(words.ends_with('.') && !words.contains('\n'), "{words}");
    }
}

const REFUSALS: [Refusal; 9] = [
    Refusal::NotATape,
    Refusal::OverLimits,
    Refusal::NotUtf8,
    Refusal::BadTable,
    Refusal::BadNode,
    Refusal::TooDeep,
    Refusal::BadNesting,
    Refusal::NoRoom { needed: 232 },
    Refusal::OutOfStep,
];

const RULES: [Rule; 4] = [Rule::NotTags, Rule::TooHigh, Rule::NoTree, Rule::BadMarks];

#[test]
fn numbers_are_document_01s() {
    assert_eq!(REFUSALS.map(Refusal::number), [1, 2, 3, 4, 5, 6, 7, 8, 16]);
    assert_eq!(RULES.map(Rule::number), [11, 12, 13, 14]);
}

#[test]
fn words_are_those_of_the_paper() {
    for refusal in REFUSALS {
        assert_words(refusal.number(), refusal.found(), refusal.advice());
    }
    for rule in RULES {
        assert_words(rule.number(), rule.found(), rule.advice());
    }
}

#[test]
fn a_refusal_is_one_line() {
    for refusal in REFUSALS {
        let line = refusal.to_string();
        assert!(!line.contains('\n'));
        assert!(line.ends_with(&format!(": {} {}", refusal.found(), refusal.advice())));
    }
    assert_eq!(
        Refusal::TooDeep.to_string(),
        "refused by number 6: Before some node over 64 containers are open. The project nests \
         markers deeper than any USFM text does: look for a marker that is opened again and again \
         and never closed."
    );
    let room = Refusal::NoRoom { needed: 232 }.to_string();
    assert!(room.starts_with("refused by number 8, 232 bytes are needed: The output buffer"));
}

#[test]
fn a_fault_is_one_line() {
    let fault = Fault {
        rule: Rule::NoTree,
        place: 179,
        line: 4,
    };
    assert_eq!(fault.number(), 13);
    assert_eq!(
        fault.to_string(),
        "refused by number 13 at byte 179, line 4: The elements are not one usx tree. A tag was \
         lost or moved: compare with the text as it was written."
    );
}

#[test]
fn refusals_and_faults_are_errors() {
    fn boxed(error: impl std::error::Error + Send + Sync + 'static) -> Box<dyn std::error::Error> {
        Box::new(error)
    }
    assert!(boxed(Refusal::NotUtf8).downcast_ref::<Refusal>().is_some());
    let fault = Fault {
        rule: Rule::NoTree,
        place: 0,
        line: 1,
    };
    assert!(boxed(fault).downcast_ref::<Fault>().is_some());
}
