//! Document 02's request Ten: both laws of the normalized body, and the same with its edges, put to the Rust's own `normalize_text`.

use std::io::{self, Write};

use crate::generate::text;
use crate::serialize::render::normalize_text;

/// What gives the body of a text.
pub type Body = fn(&str) -> String;

/// The Rust's body; which edges are kept is nothing to it.
pub fn rust_body(text: &str) -> String {
    normalize_text(text, || true, || true).body.into_owned()
}

/// "The body of a body is that body."
pub fn body_of_body(body: Body, text: &str) -> Result<(), String> {
    let once = body(text);
    let twice = body(&once);
    let exception = || format!("the body of {text:?} is {once:?}, and the body of that {twice:?}");
    if twice == once { Ok(()) } else { Err(exception()) }
}

/// "The body of two texts joined by one space is their bodies joined by one space when neither body is empty; if one body is empty, it is the other body."
pub fn body_of_two(body: Body, first: &str, second: &str) -> Result<(), String> {
    let [a, b] = [first, second].map(body);
    let meant = match (a.is_empty(), b.is_empty()) {
        (false, false) => format!("{a} {b}"),
        (true, _) => b,
        (false, true) => a,
    };
    let whole = body(&format!("{first} {second}"));
    let exception = || format!("the body of {first:?} and {second:?} is {whole:?}, and their bodies make {meant:?}");
    if whole == meant { Ok(()) } else { Err(exception()) }
}

/// A text as it is written between neighbours that keep a space, or not.
pub fn rust_written(text: &str, before: bool, behind: bool) -> String {
    let space = |kept: bool| if kept { " " } else { "" };
    let text = normalize_text(text, || before, || behind);
    format!("{}{}{}", space(text.lead), text.body, space(text.trail))
}

/// A text that was written is written so again where the same edges are kept, and has the body of its text.
pub fn written_twice(text: &str) -> Result<(), String> {
    for (before, behind) in [(false, false), (false, true), (true, false), (true, true)] {
        let once = rust_written(text, before, behind);
        let twice = rust_written(&once, before, behind);
        if twice != once || rust_body(&once) != rust_body(text) {
            return Err(format!("{text:?}, {before} before and {behind} behind, is {once:?}, and that {twice:?}"));
        }
    }
    Ok(())
}

/// How many texts and pairs of texts of each kind were tried.
#[derive(Default, Debug)]
pub struct Tried {
    pub texts: usize,
    pub edges: usize,
    pub tildes: usize,
    pub breaks: usize,
    pub blanks: usize,
    pub pairs: usize,
    pub one_empty: usize,
    pub both_empty: usize,
}

impl Tried {
    fn count_text(&mut self, text: &str) {
        let is_edge = |byte: Option<&u8>| byte.is_some_and(u8::is_ascii_whitespace);
        let bytes = text.as_bytes();
        self.texts += 1;
        self.edges += usize::from(is_edge(bytes.first()) || is_edge(bytes.last()));
        self.tildes += usize::from(text.contains('~'));
        self.breaks += usize::from(text.contains("//"));
        self.blanks += usize::from(text.trim_ascii().is_empty());
    }

    fn count_pair(&mut self, first: &str, second: &str) {
        let empty = [first, second].iter().filter(|text| text.trim_ascii().is_empty()).count();
        self.pairs += 1;
        self.one_empty += usize::from(empty == 1);
        self.both_empty += usize::from(empty == 2);
    }
}

/// Tries both laws on `count` texts of a seed, each alone, before the next one and behind it; the first exception, if there is one.
pub fn tried(body: Body, seed: u64, count: u64) -> Result<Tried, String> {
    let mut tried = Tried::default();
    let mut next = text(seed, 0);
    for number in 0..count {
        let this = std::mem::replace(&mut next, text(seed, number + 1));
        body_of_body(body, &this)?;
        tried.count_text(&this);
        for (first, second) in [(&this, &next), (&next, &this)] {
            body_of_two(body, first, second)?;
            tried.count_pair(first, second);
        }
    }
    Ok(tried)
}

/// Says what was tried on the Rust; an exception is an error.
pub fn check(seed: u64, count: u64, mut output: impl Write) -> io::Result<()> {
    (0..count).try_for_each(|number| written_twice(&text(seed, number))).map_err(io::Error::other)?;
    let Tried { texts, edges, tildes, breaks, blanks, pairs, one_empty, both_empty } =
        tried(rust_body, seed, count).map_err(io::Error::other)?;
    writeln!(output, "{texts} texts, {pairs} pairs, no exception")?;
    writeln!(output, "of the texts {edges} with a white edge, {tildes} with ~, {breaks} with //, {blanks} blank")?;
    writeln!(output, "of the pairs {one_empty} with one body empty, {both_empty} with both")
}
