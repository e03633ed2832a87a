//! `check` against libxml2, expat and quick-xml, which only ask whether a text is well-formed XML, and against the oracle's own checker.

use crate::api;
use crate::measure::{row, Row};
use oracle::answer::answer;
use oracle::check::{check, Verdict};
use std::hint::black_box;

/// A reader of XML: its name, and whether a text is well-formed to it.
type Reader = (&'static str, fn(&[u8]) -> bool);

const SIZE: usize = 2 << 20;
const OPENING: &[u8] = b"<usx version=\"3.0\">";
const CLOSING: &[u8] = b"</usx>";

#[cfg(libxml2)]
mod libxml2 {
    use std::ffi::{c_char, c_int, c_void};
    use std::ptr::{null, null_mut};

    extern "C" {
        fn xmlSAXUserParseMemory(sax: *mut u64, user: *mut c_void, text: *const c_char, size: c_int) -> c_int;
        fn xmlReadMemory(text: *const c_char, size: c_int, url: *const c_char, code: *const c_char, options: c_int) -> *mut c_void;
        fn xmlFreeDoc(doc: *mut c_void);
    }

    /// The 32 words of an xmlSAXHandler, no function in any; word 27 says that it is of the second version.
    pub fn events(text: &[u8]) -> bool {
        let mut handler = [0u64; 32];
        handler[27] = 0xDEED_BEAF;
        unsafe { xmlSAXUserParseMemory(handler.as_mut_ptr(), null_mut(), text.as_ptr().cast(), text.len() as c_int) == 0 }
    }

    /// As `xmllint --noout`: the tree is built. The option keeps errors off the terminal.
    pub fn tree(text: &[u8]) -> bool {
        unsafe {
            let doc = xmlReadMemory(text.as_ptr().cast(), text.len() as c_int, null(), null(), 32 | 64);
            if doc.is_null() {
                return false;
            }
            xmlFreeDoc(doc);
            true
        }
    }
}

#[cfg(expat)]
mod expat {
    use std::ffi::{c_char, c_int, c_void};
    use std::ptr::null;

    extern "C" {
        fn XML_ParserCreate(code: *const c_char) -> *mut c_void;
        fn XML_Parse(parser: *mut c_void, text: *const c_char, size: c_int, last: c_int) -> c_int;
        fn XML_ParserFree(parser: *mut c_void);
    }

    pub fn read(text: &[u8]) -> bool {
        unsafe {
            let parser = XML_ParserCreate(null());
            let done = XML_Parse(parser, text.as_ptr().cast(), text.len() as c_int, 1);
            XML_ParserFree(parser);
            done == 1
        }
    }
}

#[cfg(feature = "quick_xml")]
mod quick_xml {
    use quick_xml::events::{BytesStart, Event};
    use quick_xml::Reader;

    /// Whether every event is read and passes; quick-xml compares the names of ends with those of their starts unless told not to.
    fn all(text: &[u8], passes: impl Fn(&Event) -> bool) -> bool {
        let Ok(text) = std::str::from_utf8(text) else { return false };
        let mut reader = Reader::from_str(text);
        loop {
            match reader.read_event() {
                Ok(Event::Eof) => return true,
                Ok(event) if passes(&event) => (),
                _ => return false,
            }
        }
    }

    /// Whether its keys differ and its values are quoted, with known escapes.
    fn attributes(tag: &BytesStart) -> bool {
        tag.attributes().all(|attribute| attribute.is_ok_and(|a| a.unescape_value().is_ok()))
    }

    /// Tags and texts are told apart; what stands in them is not looked at.
    pub fn events(text: &[u8]) -> bool {
        all(text, |_| true)
    }

    /// Keys, values and escapes are read too.
    pub fn contents(text: &[u8]) -> bool {
        all(text, |event| match event {
            Event::Start(tag) | Event::Empty(tag) => attributes(tag),
            Event::Text(text) => text.unescape().is_ok(),
            _ => true,
        })
    }
}

/// Those that are installed.
fn readers() -> Vec<Reader> {
    // Nothing is added where none is.
    #[allow(unused_mut)]
    let mut all: Vec<Reader> = Vec::new();
    #[cfg(libxml2)]
    all.extend([("libxml2, events", libxml2::events as fn(&[u8]) -> bool), ("libxml2, tree", libxml2::tree)]);
    #[cfg(not(libxml2))]
    println!("libxml2 is not here: install libxml2-dev and pkg-config to compare with it");
    #[cfg(expat)]
    all.push(("expat", expat::read));
    #[cfg(not(expat))]
    println!("expat is not here: install libexpat1-dev and pkg-config to compare with it");
    #[cfg(feature = "quick_xml")]
    all.extend([("quick-xml, events", quick_xml::events as fn(&[u8]) -> bool), ("quick-xml, contents", quick_xml::contents)]);
    #[cfg(not(feature = "quick_xml"))]
    println!("quick-xml is not here: install librust-quick-xml-dev to compare with it");
    all
}

fn is_accepted(text: &[u8]) -> bool {
    matches!(check(text), Verdict::Accepted { .. })
}

/// Texts in one frame.
fn joined(texts: impl IntoIterator<Item = Vec<u8>>) -> Vec<u8> {
    let mut all = OPENING.to_vec();
    for text in texts {
        all.extend(&text[OPENING.len()..text.len() - CLOSING.len()]);
        if all.len() > SIZE {
            break;
        }
    }
    all.extend(CLOSING);
    all
}

/// What the Rust writes of generated tapes, where every reader takes it.
fn generated(readers: &[Reader]) -> Vec<u8> {
    let texts = (0..).map(|i| answer(&oracle::generate::structured(1, i)).text().as_bytes().to_vec());
    joined(texts.filter(|text| is_accepted(text) && readers.iter().all(|r| (r.1)(text))))
}

fn rows_of(name: &str, text: &[u8], readers: &[Reader]) -> Vec<Row> {
    assert!(is_accepted(text), "{name}: a text that is accepted");
    assert_eq!(api::check(text), 0);
    let others = readers.iter().copied().chain([("the oracle's checker", is_accepted as fn(&[u8]) -> bool)]);
    let one = |(other, read): Reader| {
        assert!(read(text), "{name}: well-formed to {other}");
        let ours = &mut || {
            black_box(api::check(black_box(text)));
        };
        let theirs = &mut || {
            black_box(read(black_box(text)));
        };
        row(format!("check, {name}, {other}"), text.len(), ours, theirs)
    };
    others.map(one).collect()
}

/// Over generated texts, and over the files given, joined to one text.
pub fn rows(files: &[String]) -> Vec<Row> {
    let readers = readers();
    let mut all = rows_of("generated", &generated(&readers), &readers);
    if !files.is_empty() {
        let read = |f: &String| std::fs::read(f).unwrap_or_else(|e| panic!("{f}: {e}"));
        let text = joined(files.iter().map(read));
        all.extend(rows_of(&format!("books, {:.1} MB", text.len() as f64 / 1e6), &text, &readers));
    }
    all
}
