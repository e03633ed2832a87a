//! USX text from tape files, by a serializer that is proved.
//!
//! A tape file is a parsed USFM project, flat: nodes, marker entries, names and the source. This
//! crate gives its USX text, whole or by windows, or says by one number why the file is refused. It
//! also judges finished texts, finds names that would break verse identifiers, and writes tapes
//! step by step.
//!
//! ```
//! use andelura::{check, find_names, serialize, Names, Verdict};
//!
//! let tape = include_bytes!("../../../examples/listing.tape");
//! assert_eq!(find_names(tape)?, Names::Kept);
//!
//! let text = serialize(tape)?;
//! assert!(text.starts_with(b"<usx version=\"3.0\">\n  <book code=\"GEN\" style=\"id\">x</book>"));
//! assert_eq!(check(&text), Verdict::Accepted { chapters: 1, verses: 1 });
//!
//! let refusal = serialize(&tape[1..]).unwrap_err();
//! assert_eq!(refusal.number(), 1);
//! eprintln!("{refusal}"); // what was found, and what to do
//! # Ok::<(), andelura::Refusal>(())
//! ```
//!
//! | To | call |
//! |---|---|
//! | get a text | [`serialize`], [`serialize_into`] |
//! | know its length | [`measure`] |
//! | get a part of it | [`window`], [`windows()`] |
//! | read it | [`TextReader`] |
//! | judge a finished text | [`check`] |
//! | look over a project's names before an upgrade | [`find_names`] |
//! | write a tape | [`TapeWriter`] |
//!
//! # What is promised
//!
//! The work is done by a static library that is written in Rattle, whose checker proves that every
//! function meets its contract, for all bytes and with no premise:
//!
//! - number, length and every byte of the buffer are what the definition says; a refusal writes
//!   nothing;
//! - windows that follow one another, joined, are the text;
//! - the text of a tape whose names are kept is accepted by [`check`], and every verse's end names
//!   that verse;
//! - a tape that [`TapeWriter`] finishes is admitted, and holds what was added.
//!
//! `docs/DEFINITION.md` of the repository leads from each rule to its definition and its theorem.
//! What this crate adds is not proved: it lends slices, takes memory, and puts numbers into types.
//! All of its `unsafe` is in one file, `src/ffi.rs`. It does not panic, and a tape that asks for
//! more memory than can be had is [`Refusal::NoRoom`].
//!
//! # What it needs
//!
//! - x86-64 Linux: the library is machine code for it. `scripts/cargo` of the repository builds and
//!   runs this crate on other processors.
//! - A stack of 640 KiB for every call: the worst tapes that were measured stay within it; no
//!   theorem bounds it. Threads of Rust have 2 MiB unless told otherwise.
//! - The archive of the library when this crate is built: in the repository `scripts/library api`
//!   builds it; elsewhere set `ANDELURA_LIB_DIR` to the folder that holds `libandelura.a`.
//!
//! There is no dependency, no global state and no input or output; calls may run on several threads
//! at once.

#![deny(unsafe_code, unsafe_op_in_unsafe_fn, missing_docs)]

mod draft;
#[allow(unsafe_code)]
mod ffi;
mod fields;
mod names;
mod refusal;
mod tape_writer;
mod text;
mod verdict;
mod windows;

pub use fields::{Category, Close, Element, Flags, Span};
pub use names::{find_names, BrokenName, NameKind, Names};
pub use refusal::Refusal;
pub use tape_writer::TapeWriter;
pub use text::{measure, serialize, serialize_into, window, Shown, LONGEST_TAPE};
pub use verdict::{check, Fault, Rule, Verdict};
pub use windows::{windows, TextReader, Windows};
