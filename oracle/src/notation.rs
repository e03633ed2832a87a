//! The compact notation for tapes of docs/DIFFERENCES.md and the tests; it is described at the top of that paper.

use crate::tapes::{self, EntryOf, Item, Shut};

/// The notation's entries: the key used in the notation, the entry's name, category and element.
pub const ENTRIES: &[(&str, EntryOf<'static>)] = &[
    ("id", ("id", 0, 0)),
    ("ide", ("ide", 0, 0)),
    ("usfm", ("usfm", 0, 0)),
    ("c", ("c", 1, 0)),
    ("v", ("v", 2, 0)),
    ("p", ("p", 3, 0)),
    ("cp", ("cp", 3, 0)),
    ("tr", ("tr", 3, 3)),
    ("line", ("line", 3, 3)),
    ("plaintr", ("tr", 3, 0)),
    ("nd", ("nd", 4, 0)),
    ("w", ("w", 4, 0)),
    ("xt", ("xt", 4, 0)),
    ("ref", ("ref", 4, 0)),
    ("va", ("va", 4, 0)),
    ("vp", ("vp", 4, 0)),
    ("ca", ("ca", 4, 0)),
    ("cat", ("cat", 4, 0)),
    ("fig", ("fig", 4, 0)),
    ("tc", ("tc", 4, 0)),
    ("f", ("f", 5, 0)),
    ("ts", ("ts", 6, 0)),
    ("esb", ("esb", 7, 1)),
    ("periph", ("periph", 7, 2)),
];

/// The tape file a line of the notation stands for.
pub fn file(notation: &str) -> Vec<u8> {
    let root_end = notation.trim_end().ends_with('$');
    let items = items(notation.trim_end().trim_end_matches('$'));
    let entries: Vec<_> = ENTRIES.iter().map(|e| e.1).collect();
    tapes::tape(&items, &entries, root_end).file()
}

/// The items a line of the notation stands for.
pub fn items(notation: &str) -> Vec<Item> {
    let mut reader = Reader { rest: notation };
    let items = reader.items();
    assert!(reader.rest.is_empty(), "not read: {}", reader.rest);
    items
}

struct Reader<'a> {
    rest: &'a str,
}

impl<'a> Reader<'a> {
    fn items(&mut self) -> Vec<Item> {
        let mut items = Vec::new();
        self.rest = self.rest.trim_start();
        while !self.rest.is_empty() && !self.rest.starts_with(['}', ']']) {
            items.push(self.item());
            self.rest = self.rest.trim_start();
        }
        items
    }

    fn item(&mut self) -> Item {
        let nested = self.take("+");
        let name = self.word(|c| c.is_ascii_alphabetic() || c == '?');
        match name {
            "T" => tapes::text(&self.string("")),
            "A" => tapes::attribute(&self.string("")),
            "E" => tapes::single(tapes::ERROR, tapes::UNKNOWN, 0, &self.string("")),
            "C" => {
                let number = self.word(|c| c.is_ascii_digit()).parse().expect("a chapter's number");
                tapes::single(tapes::CHAPTER, marker("c"), number, &self.string(""))
            }
            "V" => tapes::single(tapes::VERSE, marker("v"), 0, &self.string("")),
            _ => self.marker_item(name, if nested { tapes::NESTED } else { 0 }),
        }
    }

    fn marker_item(&mut self, name: &str, flags: u8) -> Item {
        let text = self.string(&format!("\\{name}"));
        let (marker, flag) = (marker(name), |synthetic| if synthetic { tapes::SYNTHETIC } else { 0 });
        if self.take(".") {
            let flags = flags | flag(self.take("!"));
            return Item::Leaf { flags, marker, text };
        }
        let (kind, end) = if self.take("{") { (tapes::BLOCK_END, "}") } else { (tapes::CLOSE, "]") };
        assert!(kind == tapes::BLOCK_END || self.take("["), "no container: {}", self.rest);
        let children = self.items();
        assert!(self.take(end), "not closed: {}", self.rest);
        let close = Shut { kind, flags: flag(self.take("!")), text: String::new() };
        Item::Container { flags, marker, text, children, close }
    }

    fn take(&mut self, sign: &str) -> bool {
        let rest = self.rest.strip_prefix(sign);
        self.rest = rest.unwrap_or(self.rest);
        rest.is_some()
    }

    fn word(&mut self, part: impl Fn(char) -> bool) -> &'a str {
        let end = self.rest.find(|c| !part(c)).unwrap_or(self.rest.len());
        let (word, rest) = self.rest.split_at(end);
        self.rest = rest;
        word
    }

    /// A text in quotes, or `default` where none stands.
    fn string(&mut self, default: &str) -> String {
        if !self.take("\"") {
            return default.into();
        }
        let (inside, rest) = self.rest.split_once('"').expect("a closing quote");
        self.rest = rest;
        unescaped(inside)
    }
}

/// `\u{22}` becomes the character of that number; every other backslash is itself.
pub fn unescaped(s: &str) -> String {
    let mut parts = s.split("\\u{");
    let mut out = parts.next().unwrap_or("").to_string();
    for part in parts {
        let (digits, rest) = part.split_once('}').expect("a closing brace");
        let code = u32::from_str_radix(digits, 16).expect("a number");
        out.push(char::from_u32(code).expect("a character"));
        out.push_str(rest);
    }
    out
}

fn marker(name: &str) -> u16 {
    if name == "?" {
        return tapes::UNKNOWN;
    }
    let at = ENTRIES.iter().position(|e| e.0 == name);
    at.unwrap_or_else(|| panic!("no entry {name}")) as u16
}
