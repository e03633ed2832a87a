//! The identifiers of a text that the checker has accepted: there every tag is in tag form, and every identifier stands as it is.

use std::collections::HashMap;

use crate::json::{array, Object};

#[derive(Clone, Copy, Debug, PartialEq, Eq, Hash)]
pub enum Kind {
    Chapter,
    Verse,
}

impl Kind {
    pub fn word(self) -> &'static str {
        match self {
            Kind::Chapter => "chapter",
            Kind::Verse => "verse",
        }
    }
}

/// The start of a chapter or verse.
#[derive(Clone, Copy, Debug, PartialEq, Eq, Hash)]
pub struct Start<'t> {
    pub kind: Kind,
    pub id: &'t [u8],
}

/// An identifier that starts more than once.
#[derive(Debug, PartialEq, Eq)]
pub struct Repeat<'t> {
    pub start: Start<'t>,
    pub times: usize,
}

/// All starts, in the order of the text.
pub fn starts(text: &[u8]) -> Vec<Start<'_>> {
    text.split(|byte| *byte == b'<').filter_map(start).collect()
}

/// The start that a tag without its `<`, and the text behind it, is.
fn start(piece: &[u8]) -> Option<Start<'_>> {
    let tag = piece.split(|byte| *byte == b'>').next()?;
    let (kind, attributes) = match (tag.strip_prefix(b"chapter"), tag.strip_prefix(b"verse")) {
        (Some(rest), _) => (Kind::Chapter, rest),
        (_, Some(rest)) => (Kind::Verse, rest),
        _ => return None,
    };
    let id = value(attributes, b"sid")?;
    Some(Start { kind, id })
}

/// The value of a key in a list of ` key="value"`.
fn value<'t>(mut attributes: &'t [u8], wanted: &[u8]) -> Option<&'t [u8]> {
    loop {
        let mut parts = attributes.strip_prefix(b" ")?.splitn(3, |byte| *byte == b'"');
        let key = parts.next()?.strip_suffix(b"=")?;
        let value = parts.next()?;
        if key == wanted {
            return Some(value);
        }
        attributes = parts.next()?;
    }
}

/// The identifiers that start more than once, by their first start.
pub fn repeats<'t>(starts: &[Start<'t>]) -> Vec<Repeat<'t>> {
    let mut times = HashMap::new();
    for start in starts {
        *times.entry(*start).or_insert(0) += 1;
    }
    let repeat =
        |start: &Start<'t>| times.remove(start).filter(|times| *times > 1).map(|times| Repeat { start: *start, times });
    starts.iter().filter_map(repeat).collect()
}

/// One identifier a line.
pub fn lines(starts: &[Start]) -> Vec<u8> {
    starts.iter().flat_map(|start| [start.id, b"\n"]).flatten().copied().collect()
}

/// Each with its kind and with which start of its identifier it is, from 1.
pub fn as_json(starts: &[Start]) -> String {
    let mut times = HashMap::new();
    array(starts.iter().map(|start| {
        let nth = times.entry(*start).or_insert(0);
        *nth += 1;
        object(start).number("nth", *nth).end()
    }))
}

pub fn repeats_as_json(repeats: &[Repeat]) -> String {
    array(repeats.iter().map(|repeat| object(&repeat.start).number("starts", repeat.times).end()))
}

fn object(start: &Start) -> Object {
    Object::empty().text("kind", start.kind.word()).bytes("id", start.id)
}

#[cfg(test)]
mod tests {
    use super::*;
    use Kind::{Chapter, Verse};

    const TEXT: &[u8] = b"<usx version=\"3.0\">\n  <book code=\"GEN\" style=\"id\">a sid=\"GEN 9:9\" b</book>\n  \
        <chapter number=\"1\" style=\"c\" altnumber=\"x sid=\" sid=\"GEN 1\" />\n  <para style=\"p\">\
        <verse number=\"3\" style=\"v\" sid=\"GEN 1:3\" pubnumber=\" sid=\" />a<verse eid=\"GEN 1:3\" />\
        <verse number=\"3\" style=\"v\" sid=\"GEN 1:3\" /><char style=\"w\" sid=\"k\">b</char></para>\
        <verse eid=\"GEN 1:3\" /><chapter eid=\"GEN 1\" />\n</usx>";

    fn of(kind: Kind, id: &str) -> Start<'_> {
        Start { kind, id: id.as_bytes() }
    }

    #[test]
    fn starts_alone_and_in_order() {
        assert_eq!(starts(TEXT), [of(Chapter, "GEN 1"), of(Verse, "GEN 1:3"), of(Verse, "GEN 1:3")]);
        assert_eq!(starts(b"<usx version=\"3.0\">\n</usx>"), []);
    }

    #[test]
    fn identifiers_that_repeat() {
        let starts = [of(Verse, "b"), of(Verse, "a"), of(Chapter, "b"), of(Verse, "a"), of(Verse, "b"), of(Verse, "b")];
        let found = repeats(&starts);
        assert_eq!(found, [Repeat { start: starts[0], times: 3 }, Repeat { start: starts[1], times: 2 }]);
        assert_eq!(repeats_as_json(&found[1..]), "[{\"kind\":\"verse\",\"id\":\"a\",\"starts\":2}]");
    }

    #[test]
    fn as_lines_and_as_json() {
        let all = starts(TEXT);
        assert_eq!(lines(&all), b"GEN 1\nGEN 1:3\nGEN 1:3\n");
        let json = as_json(&all[1..]);
        assert_eq!(
            json,
            "[{\"kind\":\"verse\",\"id\":\"GEN 1:3\",\"nth\":1},{\"kind\":\"verse\",\"id\":\"GEN 1:3\",\"nth\":2}]"
        );
    }
}
