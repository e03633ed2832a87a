//! Measures the proved code against the Rust that it ports, in one run, as ratios.
//!
//! Each area has a module with a function `rows` that returns its rows. Arguments are finished texts that the checker is also measured on,
//! and tape files (`.tape`) that the serializer is.

mod admit;
mod api;
mod body;
mod check;
mod escape;
mod measure;
mod number;
mod serialize;
mod utf8;
mod words;
mod write;

// The text of a tape as a caller in Rust gets it: sources of the crate rust/andelura, whose own build script links for x86-64 alone.
#[allow(dead_code)]
#[path = "../../rust/andelura/src/text.rs"]
mod andelura;
#[allow(dead_code)]
#[path = "../../rust/andelura/src/ffi.rs"]
mod ffi;
#[allow(dead_code)]
#[path = "../../rust/andelura/src/refusal.rs"]
mod refusal;
use refusal::Refusal;

fn main() {
    let (tapes, texts): (Vec<String>, Vec<String>) = std::env::args().skip(1).partition(|name| name.ends_with(".tape"));
    serialize::print(&tapes);
    measure::print("theirs", &check::rows(&texts));
    measure::print("Rust", &utf8::rows());
    measure::print("Rust", &words::rows());
    measure::print("Rust", &escape::rows());
    measure::print("Rust", &body::rows());
    measure::print("Rust", &number::rows());
    admit::print();
    write::print();
}
