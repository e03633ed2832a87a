//! What the private functions of usx.rs say of one node. This module stands behind usx.rs (see build.rs), so it may call them.

use super::*;

pub(crate) fn is_top_level_block(c: Cursor<'_>) -> bool {
    super::is_top_level_block(c)
}

pub(crate) fn has_content(c: Cursor<'_>) -> bool {
    super::has_content(c)
}

/// What is written of a list of this one Text.
pub(crate) fn alone(c: Cursor<'_>) -> String {
    written(|out, st| usx_inline_nodes(&[c], &|| false, out, st))
}

/// The node as a book.
pub(crate) fn book(c: Cursor<'_>) -> String {
    written(|out, st| usx_book(c, out, st))
}

/// The code of a node that is written as a book.
pub(crate) fn book_code(c: Cursor<'_>) -> Option<String> {
    let (mut front, mut state) = (Front::default(), UsxState::default());
    // It stops at the first piece; of a book the code is noted before that.
    let _ = usx_node(c, &mut front, &mut state);
    front.0.starts_with("<book ").then_some(state.book)
}

/// The node's attributes, its marker going by this name.
pub(crate) fn attributes(c: Cursor<'_>, marker: &str) -> String {
    written(|out, _| write_xml_attributes(c, marker, out))
}

pub(crate) fn escaped(s: &str) -> String {
    written(|out, _| escape_xml(s, out))
}

/// A value between quotes.
pub(crate) fn quoted(s: &str) -> String {
    written(|out, _| {
        out.write_char('"')?;
        escape_xml_attr(s, out)?;
        out.write_char('"')
    })
}

/// The node as a `ref`, up to the first `>`.
pub(crate) fn ref_tag(c: Cursor<'_>) -> String {
    head(|out, st| usx_ref(c, out, st))
}

/// What a periph writes of its alt: all between its name and its attributes.
pub(crate) fn periph_alt(c: Cursor<'_>) -> String {
    let whole = written(|out, st| usx_periph(c, 0, out, st));
    let mut behind = whole.strip_prefix("<periph").expect("a periph");
    let attributes = attributes(c, "periph");
    let has_no_alt = |text: &str| {
        let end = text.strip_prefix(&attributes);
        end.is_some_and(|end| end.starts_with('>') || end.starts_with(" />"))
    };
    let mut alt = "";
    if !has_no_alt(behind) {
        let (end, _) = behind.match_indices('"').nth(1).expect("a value between quotes");
        (alt, behind) = behind.split_at(end + 1);
        assert!(has_no_alt(behind));
    }
    alt.to_string()
}

fn written(write: impl Fn(&mut String, &mut UsxState) -> fmt::Result) -> String {
    let mut out = String::new();
    write(&mut out, &mut UsxState::default()).expect("a String takes all");
    out
}

/// Takes what is written up to the first `>`, and nothing behind it.
#[derive(Default)]
struct Head(String);

impl Write for Head {
    fn write_str(&mut self, s: &str) -> fmt::Result {
        let end = s.find('>');
        self.0.push_str(end.map_or(s, |end| &s[..=end]));
        if end.is_some() { Err(fmt::Error) } else { Ok(()) }
    }
}

/// Takes the first piece that is written, and nothing behind it.
#[derive(Default)]
struct Front(String);

impl Write for Front {
    fn write_str(&mut self, s: &str) -> fmt::Result {
        self.0.push_str(s);
        Err(fmt::Error)
    }
}

fn head(write: impl Fn(&mut Head, &mut UsxState) -> fmt::Result) -> String {
    let mut out = Head::default();
    write(&mut out, &mut UsxState::default()).expect_err("a tag ends");
    out.0
}
