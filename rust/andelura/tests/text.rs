//! The text of a tape: whole, into buffers of all lengths, by windows, by a reader.

mod common;

use std::io::{self, BufRead, Read};

use andelura::{Refusal, Shown, TextReader};
use common::*;

/// A tape of one Root with so many texts that are all one span: a text that is longer than its
/// tape, and longer than what a reader holds.
fn long_tape() -> Vec<u8> {
    let source = ["\\p", &"Sing ".repeat(2_000)].concat().into_bytes();
    let texts = (0..60).map(|_| node(TEXT_NODE, 0, 0xFFFF, 0, 2, 10_000));
    let open = node(OPEN, 0, 0, 62, 0, 2);
    let close = node(BLOCK_END, 1, 0, 0, 0, 0);
    let root = node(ROOT, 1, 0xFFFF, 63, 0, 0);
    Parts {
        nodes: [root, open]
            .into_iter()
            .chain(texts)
            .chain([close])
            .collect(),
        entries: vec![[0, 0, 0, 0, 1, 0, 3, 0]],
        names: b"p".to_vec(),
        source,
    }
    .file()
}

#[test]
fn the_listing_is_written() {
    assert_eq!(andelura::serialize(TAPE).unwrap(), TEXT);
    assert_eq!(andelura::measure(TAPE), Ok(TEXT.len()));
}

#[test]
fn a_text_longer_than_its_tape_is_written() {
    let tape = long_tape();
    let text = andelura::serialize(&tape).unwrap();
    assert!(text.len() > tape.len() && text.len() > 2 * 256 * 1024);
    assert_eq!(andelura::measure(&tape), Ok(text.len()));
    assert!(text.starts_with(b"<usx version=\"3.0\">\n  <para style=\"p\">Sing Sing "));
    assert!(text.ends_with(b" Sing</para>\n</usx>"));
    assert!(andelura::check(&text).is_accepted());
}

#[test]
fn a_buffer_that_is_short_gets_nothing() {
    let needed = TEXT.len();
    for len in [0, 1, needed - 1] {
        let mut out = vec![7; len];
        let answer = andelura::serialize_into(TAPE, &mut out);
        assert_eq!(answer, Err(Refusal::NoRoom { needed }));
        assert_eq!(out, vec![7; len]);
    }
}

#[test]
fn a_buffer_with_room_gets_the_text_and_no_byte_more() {
    for more in [0, 1, 100] {
        let mut out = vec![7; TEXT.len() + more];
        assert_eq!(andelura::serialize_into(TAPE, &mut out), Ok(TEXT.len()));
        let (text, behind) = out.split_at(TEXT.len());
        assert_eq!(text, TEXT);
        assert_eq!(behind, vec![7; more]);
    }
}

#[test]
fn a_window_shows_the_text_from_any_byte_on() {
    let whole = TEXT.len();
    for from in 0..whole + 3 {
        let mut out = [7; 20];
        let bytes = whole.saturating_sub(from).min(20);
        assert_eq!(
            andelura::window(TAPE, from, &mut out),
            Ok(Shown { bytes, whole })
        );
        assert_eq!(&out[..bytes], &TEXT[from.min(whole)..][..bytes]);
        assert_eq!(out[bytes..], [7; 20][bytes..]);
    }
    let nothing = Ok(Shown { bytes: 0, whole });
    assert_eq!(andelura::window(TAPE, usize::MAX, &mut [7; 20]), nothing);
    assert_eq!(andelura::window(TAPE, 0, &mut []), nothing);
}

#[test]
fn windows_joined_are_the_text() {
    for size in (0..=40).chain([231, 232, 233, usize::MAX]) {
        let windows: Vec<Vec<u8>> = andelura::windows(TAPE, size).map(Result::unwrap).collect();
        let (last, full) = windows.split_last().unwrap();
        assert!(full.iter().all(|w| w.len() == size.max(1)));
        assert!((1..=size.max(1)).contains(&last.len()));
        assert_eq!(windows.concat(), TEXT);
    }
}

#[test]
fn windows_end_for_good() {
    let mut windows = andelura::windows(TAPE, 200);
    assert_eq!(windows.by_ref().count(), 2);
    assert_eq!(windows.next(), None);
    let mut refused = andelura::windows(b"", 200);
    assert_eq!(refused.next(), Some(Err(Refusal::NotATape)));
    assert_eq!(refused.next(), None);
}

#[test]
fn a_reader_is_copied_out() {
    for (tape, text) in [(TAPE.to_vec(), TEXT.to_vec()), {
        let tape = long_tape();
        let text = andelura::serialize(&tape).unwrap();
        (tape, text)
    }] {
        let mut reader = TextReader::new(&tape).unwrap();
        assert_eq!(reader.len(), text.len());
        let mut copy = Vec::new();
        let copied = io::copy(&mut reader, &mut copy).unwrap();
        assert_eq!(copied, text.len() as u64);
        assert!(copy == text);
        assert_eq!(reader.remaining(), 0);
        assert_eq!(reader.read(&mut [0; 8]).unwrap(), 0);
    }
}

#[test]
fn a_reader_gives_any_pieces() {
    for size in 1..40 {
        let mut reader = TextReader::new(TAPE).unwrap();
        let mut text = Vec::<u8>::new();
        let mut piece = vec![0; size];
        loop {
            assert_eq!(reader.remaining(), TEXT.len() - text.len());
            let len = reader.read(&mut piece).unwrap();
            if len == 0 {
                break;
            }
            text.extend(&piece[..len]);
        }
        assert_eq!(text, TEXT);
        assert_eq!(reader.len(), TEXT.len());
        assert!(!reader.is_empty());
    }
}

#[test]
fn a_reader_takes_long_reads_between_short_ones() {
    let tape = long_tape();
    let text = andelura::serialize(&tape).unwrap();
    let mut reader = TextReader::new(&tape).unwrap();
    let mut read = Vec::<u8>::new();
    let mut piece = vec![0; 300_000];
    for len in [10, 300_000, 300_000, 7, 300_000, 300_000] {
        let len = reader.read(&mut piece[..len]).unwrap();
        read.extend(&piece[..len]);
    }
    assert!(read == text);
}

#[test]
fn a_reader_without_room_reads_nothing() {
    let mut reader = TextReader::new(TAPE).unwrap();
    assert_eq!(reader.read(&mut []).unwrap(), 0);
    assert_eq!(reader.remaining(), TEXT.len());
}

#[test]
fn a_reader_gives_lines() {
    let lines: Vec<String> = TextReader::new(TAPE)
        .unwrap()
        .lines()
        .map(Result::unwrap)
        .collect();
    let text = std::str::from_utf8(TEXT).unwrap();
    assert_eq!(lines, text.lines().collect::<Vec<_>>());
}
