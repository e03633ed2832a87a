//! The oracle: the Rust of docs/src run on tape files, a second tape writer, and generators.

// The unchanged sources; what the serializer does not use of them is dead here.
#[allow(dead_code)]
#[path = "../../docs/src/crates/usfm3/src/cst.rs"]
mod cst;
#[allow(dead_code)]
#[path = "../../docs/src/crates/usfm3/src/marker.rs"]
mod marker;
#[allow(dead_code)]
mod serialize;
#[allow(dead_code)]
#[path = "../../docs/src/crates/usfm3/src/span.rs"]
mod span;
#[allow(dead_code)]
#[path = "../../docs/src/crates/usfm3/src/tape.rs"]
mod tape;

// span.rs calls `memchr::…`: this crate answers to that name, with the two functions below.
extern crate self as memchr;
mod bytes;
#[doc(hidden)]
pub use bytes::{memchr_iter, memrchr};

pub mod answer;
pub mod both_sides;
pub mod check;
pub mod check_cases;
mod document;
pub mod dump;
pub mod export;
pub mod generate;
pub mod loader;
pub mod names;
pub mod notation;
pub mod rebuild;
pub mod rendered;
pub mod replay;
pub mod steps;
pub mod tapes;
pub mod tidy;
pub mod windows;
pub mod writer;

pub use document::Document;
use document::Version;
pub use serialize::tape_file::ExportError;
