//! The checker of finished text once more, from document 01's words: all tokens first, then each rule over their list.

use std::io::{self, BufReader, Read, Write};

use crate::answer::read_tape;

/// 0 with the numbers of starts, or 11 to 14 with the bytes before the place where the first rule broke.
#[derive(Clone, Copy, PartialEq, Eq, Debug)]
pub enum Verdict {
    Accepted { chapters: usize, verses: usize },
    Refused { number: u8, at: usize },
}

const OPENING: &[u8] = b"<usx version=\"3.0\">";
const CLOSING: &[u8] = b"</usx>";
const HIGHEST: i64 = 160;
const NAMES: [&str; 16] = [
    "usx", "book", "chapter", "verse", "para", "char", "note", "ms", "figure", "table", "row", "cell", "sidebar",
    "periph", "optbreak", "ref",
];

pub fn check(text: &[u8]) -> Verdict {
    match judge(text) {
        Ok((chapters, verses)) => Verdict::Accepted { chapters, verses },
        Err((number, at)) => Verdict::Refused { number, at },
    }
}

/// The rules in the order of their numbers.
fn judge(text: &[u8]) -> Result<(usize, usize), (u8, usize)> {
    let tokens = tag_form(text).map_err(|at| (11, at))?;
    heights(&tokens).map_err(|at| (12, at))?;
    one_tree(&tokens, text.len()).map_err(|at| (13, at))?;
    milestones(&tokens, text.len()).map_err(|at| (14, at))
}

// ---- 11: tag form

struct Token<'a> {
    at: usize,
    what: What<'a>,
}

enum What<'a> {
    Text,
    Close(&'a str),
    Open(&'a str),
    Empty(&'a str, Attributes<'a>),
}

/// Keys and values as they stand.
type Attributes<'a> = Vec<(&'a [u8], &'a [u8])>;

/// The tokens, or the place of what is none; a text that does not open right fails at 0, one that ends wrong at its end.
fn tag_form(text: &[u8]) -> Result<Vec<Token<'_>>, usize> {
    if !text.starts_with(OPENING) {
        return Err(0);
    }
    let mut tokens = Vec::new();
    let mut at = 0;
    while at < text.len() {
        let rest = &text[at..];
        let (what, size) = if rest[0] == b'<' { tag(rest).ok_or(at)? } else { words(rest).map_err(|i| at + i)? };
        tokens.push(Token { at, what });
        at += size;
    }
    if text.ends_with(CLOSING) { Ok(tokens) } else { Err(text.len()) }
}

/// What stands before the next tag, or where it holds what text may not.
fn words(rest: &[u8]) -> Result<(What<'_>, usize), usize> {
    let size = rest.iter().position(|&c| c == b'<').unwrap_or(rest.len());
    match illegal(&rest[..size], &["lt;", "gt;", "amp;"]) {
        Some(i) => Err(i),
        None => Ok((What::Text, size)),
    }
}

/// The first `<`, `>`, or `&` that begins none of the escapes.
fn illegal(s: &[u8], escapes: &[&str]) -> Option<usize> {
    (0..s.len()).find(|&i| match s[i] {
        b'<' | b'>' => true,
        b'&' => !escapes.iter().any(|e| s[i + 1..].starts_with(e.as_bytes())),
        _ => false,
    })
}

/// A tag holds no `>` but its last byte.
fn tag(rest: &[u8]) -> Option<(What<'_>, usize)> {
    let end = rest.iter().position(|&c| c == b'>')?;
    let inner = &rest[1..end];
    let what = if let Some(closed) = inner.strip_prefix(b"/") {
        What::Close(name(closed)?)
    } else if let Some(inner) = inner.strip_suffix(b" /") {
        let (name, attributes) = named(inner)?;
        What::Empty(name, attributes)
    } else {
        What::Open(named(inner)?.0)
    };
    Some((what, end + 1))
}

fn name(s: &[u8]) -> Option<&'static str> {
    NAMES.into_iter().find(|n| n.as_bytes() == s)
}

/// A name and its attributes.
fn named(inner: &[u8]) -> Option<(&'static str, Attributes<'_>)> {
    let size = inner.iter().position(|&c| c == b' ').unwrap_or(inner.len());
    let name = name(&inner[..size])?;
    let mut attributes = Vec::new();
    let mut rest = &inner[size..];
    while !rest.is_empty() {
        let (key, value, behind) = attribute(rest)?;
        attributes.push((key, value));
        rest = behind;
    }
    Some((name, attributes))
}

/// ` key="value"` and what stands behind it.
fn attribute(s: &[u8]) -> Option<(&[u8], &[u8], &[u8])> {
    let s = s.strip_prefix(b" ")?;
    let (key, s) = s.split_at(s.iter().position(|&c| c == b'=')?);
    if key.is_empty() || key.iter().any(|c| b" =\"<>&".contains(c)) {
        return None;
    }
    let s = s.strip_prefix(b"=\"")?;
    let (value, s) = s.split_at(s.iter().position(|&c| c == b'"')?);
    match illegal(value, &["lt;", "gt;", "amp;", "quot;"]) {
        Some(_) => None,
        None => Some((key, value, &s[1..])),
    }
}

// ---- 12: heights

/// Fails at the opening tag behind which the height is over 160.
fn heights(tokens: &[Token<'_>]) -> Result<(), usize> {
    let mut height = 0;
    for token in tokens {
        match token.what {
            What::Open(_) => height += 1,
            What::Close(_) => height -= 1,
            What::Text | What::Empty(..) => {}
        }
        if height > HIGHEST {
            return Err(token.at);
        }
    }
    Ok(())
}

// ---- 13: one usx tree

fn one_tree(tokens: &[Token<'_>], end: usize) -> Result<(), usize> {
    let mut open: Vec<&str> = Vec::new();
    let (mut opened, mut closed) = (false, false);
    for token in tokens {
        let right = match token.what {
            _ if closed => false,
            What::Text => true,
            What::Empty(name, _) => name != "usx",
            What::Open(name) => {
                let again = name == "usx" && opened;
                opened |= name == "usx";
                open.push(name);
                !again
            }
            What::Close(name) => {
                closed = name == "usx";
                open.pop() == Some(name)
            }
        };
        if !right {
            return Err(token.at);
        }
    }
    if open.is_empty() && opened { Ok(()) } else { Err(end) }
}

// ---- 14: milestones

struct Mark<'a> {
    at: usize,
    name: &'a str,
    role: Role<'a>,
}

#[derive(PartialEq, Eq)]
enum Role<'a> {
    Start(&'a [u8]),
    End(&'a [u8]),
    Neither,
}

/// The chapter and verse tags.
fn marks<'a>(tokens: &'a [Token<'a>]) -> Vec<Mark<'a>> {
    let all = tokens.iter().filter_map(|token| {
        let (name, role) = match &token.what {
            What::Text => return None,
            What::Close(name) | What::Open(name) => (name, Role::Neither),
            What::Empty(name, attributes) => (name, role(attributes)),
        };
        ["chapter", "verse"].contains(name).then_some(Mark { at: token.at, name, role })
    });
    all.collect()
}

/// An end if `eid` is its one attribute, a start if it has one `sid` and no `eid`.
fn role<'a>(attributes: &Attributes<'a>) -> Role<'a> {
    let with = |key: &[u8]| attributes.iter().filter(|a| a.0 == key).map(|a| a.1).collect::<Vec<_>>();
    match (&with(b"sid")[..], &with(b"eid")[..], attributes.len()) {
        (&[id], [], _) => Role::Start(id),
        ([], &[id], 1) => Role::End(id),
        _ => Role::Neither,
    }
}

/// The last start of a kind, its identifier, and whether an end of the kind stands behind it.
fn last_start<'a>(before: &[Mark<'a>], name: &str) -> Option<(&'a [u8], bool)> {
    let mut ended = false;
    for mark in before.iter().rev().filter(|mark| mark.name == name) {
        match mark.role {
            Role::Start(id) => return Some((id, ended)),
            Role::End(_) => ended = true,
            Role::Neither => {}
        }
    }
    None
}

/// From its start to the end that belongs to it.
fn is_open(before: &[Mark<'_>], name: &str) -> bool {
    matches!(last_start(before, name), Some((_, false)))
}

fn milestones(tokens: &[Token<'_>], end: usize) -> Result<(usize, usize), usize> {
    let marks = marks(tokens);
    for (i, mark) in marks.iter().enumerate() {
        let before = &marks[..i];
        let in_verse = mark.name == "chapter" && is_open(before, "verse");
        let right = match mark.role {
            Role::Start(_) => !is_open(before, mark.name),
            Role::End(id) => last_start(before, mark.name) == Some((id, false)),
            Role::Neither => false,
        };
        if in_verse || !right {
            return Err(mark.at);
        }
    }
    if is_open(&marks, "chapter") || is_open(&marks, "verse") {
        return Err(end);
    }
    let starts = |name| marks.iter().filter(|m| m.name == name && matches!(m.role, Role::Start(_))).count();
    Ok((starts("chapter"), starts("verse")))
}

// ---- what the program usx_check writes

pub fn report(text: &[u8]) -> String {
    match check(text) {
        Verdict::Accepted { chapters, verses } => format!("accepted {chapters} {verses}\n"),
        Verdict::Refused { number, at } => {
            let line = 1 + text[..at].iter().filter(|&&c| c == b'\n').count();
            format!("refused {number}\nat byte {at}, line {line}\n")
        }
    }
}

/// The reports of a stream of texts, which has the form of a stream of tapes.
pub fn stream(input: impl Read, mut output: impl Write) -> io::Result<()> {
    let mut input = BufReader::with_capacity(1 << 16, input);
    let mut text = Vec::new();
    while read_tape(&mut input, &mut text)? {
        output.write_all(report(&text).as_bytes())?;
    }
    output.flush()
}
