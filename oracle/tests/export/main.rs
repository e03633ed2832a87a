//! The exporter of rust/usfm3-tape beside the published files, none of them patched, as it stands in jcuenod/usfm3.

// The unchanged sources; what is not used of them is dead here.
#[allow(dead_code)]
#[path = "../../../docs/src/crates/usfm3/src/cst.rs"]
mod cst;
#[allow(dead_code)]
#[path = "../../../docs/src/crates/usfm3/src/marker.rs"]
mod marker;
#[allow(dead_code)]
mod serialize;
#[allow(dead_code)]
#[path = "../../../docs/src/crates/usfm3/src/span.rs"]
mod span;
#[allow(dead_code)]
#[path = "../../../docs/src/crates/usfm3/src/tape.rs"]
mod tape;

// The oracle's, compiled here with the types of those.
#[allow(dead_code)]
#[path = "../../src/document.rs"]
mod document;
#[allow(dead_code)]
#[path = "../../src/loader.rs"]
mod loader;

// span.rs calls `memchr::…`: the oracle has the two functions.
extern crate oracle as memchr;

mod errors;
mod files;
mod made;
mod other_rows;

use document::{Document, Version};
