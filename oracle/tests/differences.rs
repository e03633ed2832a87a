//! Every tape of docs/DIFFERENCES.md, docs/IDENTIFIERS.md and docs/SPACES.md gives the text that stands below it, and the checker accepts every text that is marked so.

use oracle::answer::{Answer, answer};
use oracle::check::{Verdict, check};
use oracle::notation;

const PAPER: &str = include_str!("../../docs/DIFFERENCES.md");
const IDENTIFIERS: &str = include_str!("../../docs/IDENTIFIERS.md");
const SPACES: &str = include_str!("../../docs/SPACES.md");

/// The lines of all blocks of a paper marked `tape`, each block ending in an empty line.
fn tape_lines(paper: &'static str) -> Vec<&'static str> {
    let blocks = paper.split("```tape\n").skip(1);
    blocks.flat_map(|b| b.split("```").next().unwrap_or("").lines().chain([""])).collect()
}

/// The tapes with the lines below each.
fn findings(paper: &'static str) -> Vec<(&'static str, Vec<String>)> {
    let lines = tape_lines(paper);
    let groups = lines.split(|line| line.is_empty()).filter(|group| !group.is_empty());
    groups.map(|group| (group[0], group[1..].iter().map(|l| notation::unescaped(l)).collect())).collect()
}

/// Every tape of a paper, of which there are more than this.
fn holds(paper: &'static str, more_than: usize) {
    let all = findings(paper);
    assert!(all.len() > more_than, "{}", all.len());
    for (tape, lines) in all {
        let inner: String = lines.iter().map(|line| format!("\n{line}")).collect();
        let text = format!("<usx version=\"3.0\">{inner}\n</usx>");
        assert_eq!(answer(&notation::file(tape)), Answer::Written(text), "{tape}");
    }
}

#[test]
fn every_finding_is_what_the_rust_writes() {
    holds(PAPER, 50);
}

#[test]
fn every_tape_on_identifiers_is_what_the_rust_writes() {
    holds(IDENTIFIERS, 8);
}

#[test]
fn every_tape_on_spaces_is_what_the_rust_writes() {
    holds(SPACES, 3);
}

/// The bytes of a text, `\x{80}` being one of them.
fn bytes(line: &str) -> Vec<u8> {
    let mut parts = line.split("\\x{");
    let mut out = notation::unescaped(parts.next().unwrap_or("")).into_bytes();
    for part in parts {
        let (digits, rest) = part.split_once('}').expect("a closing brace");
        out.push(u8::from_str_radix(digits, 16).expect("a byte"));
        out.extend(notation::unescaped(rest).into_bytes());
    }
    out
}

#[test]
fn every_text_that_is_no_xml_is_accepted() {
    let blocks = PAPER.split("```accepted\n").skip(1);
    let lines: Vec<&str> = blocks.flat_map(|b| b.split("```").next().unwrap_or("").lines()).collect();
    assert!(lines.len() > 15, "{}", lines.len());
    for line in lines {
        let text = [b"<usx version=\"3.0\">", &bytes(line)[..], b"</usx>"].concat();
        assert!(matches!(check(&text), Verdict::Accepted { .. }), "{line}");
    }
}
