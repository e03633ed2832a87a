//! Every call has enough with a stack of 640 KiB.

use std::thread;

use andelura::{Category, Close, Element, Flags, Names, Refusal, TapeWriter};

/// The longest source, 64 containers in each other, and a verse label that is asked through tables.
fn deep() -> Result<Vec<u8>, Refusal> {
    let mut tape = TapeWriter::new();
    let p = tape.marker("p", Category::Paragraph, Element::Other)?;
    let qt = tape.marker("qt", Category::Character, Element::Other)?;
    let v = tape.marker("v", Category::Verse, Element::Other)?;
    tape.source("\\p\\qt\\é x".as_bytes())?;
    tape.source(&vec![b'a'; 4_194_304 - tape.source_len() as usize])?;
    tape.open(Flags::NONE, p, (0, 2))?;
    for _ in 1..64 {
        tape.open(Flags::NONE, qt, (2, 3))?;
    }
    tape.verse(Flags::NONE, v, 1, (5, 5))?;
    for _ in 1..64 {
        tape.close(Close::MarkerClose, Flags::NONE, qt, (0, 0))?;
    }
    tape.close(Close::BlockEnd, Flags::NONE, p, (0, 0))?;
    tape.finish()
}

fn every_call() {
    let tape = deep().unwrap();
    let text = andelura::serialize(&tape).unwrap();
    assert_eq!(andelura::measure(&tape), Ok(text.len()));
    assert_eq!(andelura::find_names(&tape), Ok(Names::Kept));
    assert!(andelura::check(&text).is_accepted());
}

#[test]
fn a_stack_of_640_kib_is_enough() {
    let thread = thread::Builder::new().stack_size(640 * 1024);
    thread.spawn(every_call).unwrap().join().unwrap();
}
