//! Generated tapes exported from what the loader read, and their texts.

use oracle::answer::{Answer, answer, write_tape};
use oracle::export::{Outcome, check, outcome};
use oracle::generate::{damaged, glued, hostile, limits, links, random, shared, small, structured};
use oracle::tapes::*;

use crate::loader;
use crate::serialize::tape_file::ExportError;

const SEED: u64 = 1;

type Seeded = fn(u64, u64) -> Vec<u8>;

/// How often each outcome came: byte for byte, in content, reported, not held.
fn outcomes(tapes: impl Iterator<Item = Vec<u8>>) -> [usize; 4] {
    let mut counts = [0; 4];
    for (number, tape) in tapes.enumerate() {
        let outcome = outcome(&tape).unwrap_or_else(|what| panic!("tape {number}: {what}"));
        counts[outcome as usize] += 1;
    }
    counts
}

// --- 100,000 tapes come back byte for byte ---

fn all_come_back(tape: Seeded) {
    assert_eq!(outcomes((0..20_000).map(|number| tape(SEED, number))), [20_000, 0, 0, 0]);
}

#[test]
fn structured_tapes_come_back() {
    all_come_back(structured);
}

#[test]
fn random_tapes_come_back() {
    all_come_back(random);
}

#[test]
fn shared_tapes_come_back() {
    all_come_back(shared);
}

#[test]
fn hostile_tapes_come_back() {
    all_come_back(hostile);
}

#[test]
fn glued_tapes_come_back_or_are_reported() {
    let [same, 0, reported, 0] = outcomes((0..25_000).map(|number| glued(SEED, number))) else { panic!("in content") };
    assert!(same > 20_000 && reported > 4_000, "{same} {reported}");
}

#[test]
fn small_tapes_and_the_listing_come_back() {
    assert_eq!(outcomes(small(2)), [1_471, 0, 0, 0]);
    assert_eq!(outcome(include_bytes!("../../../examples/listing.tape")), Ok(Outcome::Same));
}

// --- what does not ---

/// What is refused is reported by the same number; names that stood otherwise come back in the exporter's order.
#[test]
fn damaged_tapes_are_reported() {
    let counts = outcomes((0..20_000).map(|number| damaged(SEED, number).file));
    assert!(counts.iter().all(|&count| count > 1_000), "{counts:?}");
    assert_eq!(outcomes(links(4)), [130, 0, 74_595, 0]);
    assert_eq!(outcomes(limits().map(|(tape, _)| tape)), [3, 2, 4, 0]);
}

/// A tape of Root and these entries over these names.
fn names(entries: &[(u32, u16)], names: &str) -> Vec<u8> {
    let mut parts = tape(&[], &[], false);
    parts.entries = entries.iter().map(|&(start, length)| Entry { start, length, category: 3, element: 0 }).collect();
    parts.names = names.into();
    parts.file()
}

/// Byte for byte where each name starts where the one before it ends and the last ends the names.
#[test]
fn names_that_stand_otherwise_come_back_in_content() {
    let same = [names(&[], ""), names(&[(0, 1), (1, 2)], "pqr"), names(&[(0, 0), (0, 1), (1, 0)], "p")];
    same.iter().for_each(|tape| assert_eq!(outcome(tape), Ok(Outcome::Same)));
    let shared = [names(&[(0, 2), (0, 2)], "pq"), names(&[(0, 2), (1, 2)], "pqr")];
    let gaps = [names(&[], "p"), names(&[(1, 1)], "pq"), names(&[(0, 1)], "pq"), names(&[(0, 1), (2, 1)], "pqr")];
    let turned = [names(&[(1, 1), (0, 1)], "pq"), names(&[(1, 0), (0, 1)], "p")];
    let others = shared.iter().chain(&gaps).chain(&turned);
    others.for_each(|tape| assert_eq!(outcome(tape), Ok(Outcome::SameContent)));
    // Refused for name bytes: of no entry, of one, and of one that ends inside a character, which no `str` can.
    let wide = [names(&[], "\u{E9}"), names(&[(0, 2)], "\u{E9}"), names(&[(0, 1)], "\u{E9}")];
    let came = [Outcome::SameContent, Outcome::Reported, Outcome::NotHeld].map(Ok);
    assert_eq!(wide.each_ref().map(|tape| outcome(tape)), came);
    assert!(wide.iter().all(|tape| answer(tape).number() == 4));
    // Admitted with the names shared, too many bytes without.
    let long = names(&[(0, 16_384), (0, 1)], &"p".repeat(16_384));
    assert_eq!((answer(&long).number(), outcome(&long)), (0, Ok(Outcome::Reported)));
}

#[test]
fn the_command_counts() {
    let tapes = [names(&[(0, 1)], "p"), names(&[(1, 1)], "pq"), Parts::default().file(), Vec::new()];
    let (mut input, mut output) = (Vec::new(), Vec::new());
    tapes.iter().for_each(|tape| write_tape(&mut input, tape).unwrap());
    check(&input[..], &mut output).unwrap();
    let meant = "4 tapes, 2 exported, no difference\n1 byte for byte, 1 in content, 1 reported, 1 not held\n";
    assert_eq!(String::from_utf8(output).unwrap(), meant);
}

// --- texts ---

/// The name of a node's entry.
fn entry_name(tape: &[u8], node: usize) -> String {
    let parts = Parts::read(tape);
    let entry = parts.entries[usize::from(parts.nodes[node].marker)];
    String::from_utf8(parts.names[entry.start as usize..][..usize::from(entry.length)].to_vec()).unwrap()
}

/// The published Rust's text of each tape is the oracle's of the exported file. Gives how many were exported, and how many
/// of these have another row code than the tape, whose entries need not be rows by the name `tr`.
fn same_texts(tape: Seeded, count: u64) -> (usize, usize) {
    let (mut exported, mut other_rows) = (0, 0);
    for number in 0..count {
        let tape = tape(SEED, number);
        let document = loader::load(&tape).unwrap_or_else(|refusal| panic!("tape {number}: {refusal:?}"));
        match document.to_tape_file() {
            Ok(file) => {
                assert_eq!(answer(&file), Answer::Written(document.to_usx()), "tape {number}");
                exported += 1;
                other_rows += usize::from(file != tape);
            }
            // The tape does not call it a row.
            Err(ExportError::MilestoneElement { node, .. }) => assert_eq!(entry_name(&tape, node), "tr"),
            Err(error) => panic!("tape {number}: {error}"),
        }
    }
    (exported, other_rows)
}

const MODES: [Seeded; 4] = [structured, random, shared, hostile];

#[test]
fn exported_files_have_the_published_text() {
    for (tape, least) in MODES.into_iter().zip([2_000, 1_800, 2_000, 2_000]) {
        let (exported, other_rows) = same_texts(tape, 2_000);
        assert!(exported >= least && other_rows > 200, "{exported} {other_rows}");
    }
}

/// The same at length: cargo test --release --offline --test export -- --ignored --nocapture
#[test]
#[ignore = "some ten seconds' work"]
fn exported_files_have_the_published_text_at_length() {
    for (tape, name) in MODES.into_iter().zip(["structured", "random", "shared", "hostile"]) {
        let (exported, other_rows) = same_texts(tape, 25_000);
        println!("{name} {SEED} 25000: {exported} exported, {other_rows} with other rows, no difference");
    }
}
