//! JSON on one line.

use std::fmt::Write;

use crate::source::Source;

/// An object that is being written.
pub struct Object(String);

impl Object {
    /// What is said of one file, and how it went.
    pub fn new(source: &Source, status: &str) -> Self {
        Object::empty().text("file", &source.name()).text("status", status)
    }

    pub fn empty() -> Self {
        Object("{".to_string())
    }

    /// A member whose value is JSON already.
    pub fn value(mut self, key: &str, value: &str) -> Self {
        if self.0.len() > 1 {
            self.0.push(',');
        }
        quote(key, &mut self.0);
        self.0.push(':');
        self.0.push_str(value);
        self
    }

    pub fn text(self, key: &str, value: &str) -> Self {
        let mut quoted = String::with_capacity(value.len() + 2);
        quote(value, &mut quoted);
        self.value(key, &quoted)
    }

    pub fn bytes(self, key: &str, value: &[u8]) -> Self {
        self.text(key, &String::from_utf8_lossy(value))
    }

    pub fn number(self, key: &str, value: usize) -> Self {
        self.value(key, &value.to_string())
    }

    pub fn maybe(self, key: &str, value: Option<usize>) -> Self {
        match value {
            Some(number) => self.number(key, number),
            None => self.value(key, "null"),
        }
    }

    pub fn end(mut self) -> String {
        self.0.push('}');
        self.0
    }

    pub fn line(self) -> String {
        let mut line = self.end();
        line.push('\n');
        line
    }
}

/// An array of what is JSON already.
pub fn array(values: impl Iterator<Item = String>) -> String {
    let mut all = "[".to_string();
    for value in values {
        if all.len() > 1 {
            all.push(',');
        }
        all.push_str(&value);
    }
    all.push(']');
    all
}

fn quote(text: &str, out: &mut String) {
    out.push('"');
    for c in text.chars() {
        match c {
            '"' => out.push_str("\\\""),
            '\\' => out.push_str("\\\\"),
            '\n' => out.push_str("\\n"),
            '\r' => out.push_str("\\r"),
            '\t' => out.push_str("\\t"),
            // Writing to a String never fails.
            c if c.is_control() => drop(write!(out, "\\u{:04x}", u32::from(c))),
            c => out.push(c),
        }
    }
    out.push('"');
}

#[cfg(test)]
mod tests {
    use super::*;

    #[test]
    fn an_object_and_its_members() {
        let inner = Object::empty().number("n", 3).end();
        let outer = Object::empty()
            .text("a", "b")
            .maybe("c", None)
            .maybe("d", Some(0))
            .value("e", &array([inner.clone(), inner].into_iter()));
        assert_eq!(outer.line(), "{\"a\":\"b\",\"c\":null,\"d\":0,\"e\":[{\"n\":3},{\"n\":3}]}\n");
        assert_eq!(Object::empty().end(), "{}");
        assert_eq!(array(std::iter::empty()), "[]");
    }

    #[test]
    fn what_a_string_escapes() {
        let object = Object::empty().text("\"", "a\"\\\n\r\t\0\u{1f}\u{7f}\u{9f}é\u{1F600}/");
        assert_eq!(object.end(), "{\"\\\"\":\"a\\\"\\\\\\n\\r\\t\\u0000\\u001f\\u007f\\u009fé\u{1F600}/\"}");
    }

    #[test]
    fn bytes_that_are_no_utf8() {
        assert_eq!(Object::empty().bytes("k", b"a\xffb").end(), "{\"k\":\"a\u{FFFD}b\"}");
    }

    #[test]
    fn a_file_with_its_status() {
        let source = Source::File("a b".into());
        assert_eq!(Object::new(&source, "kept").end(), "{\"file\":\"a b\",\"status\":\"kept\"}");
        assert_eq!(Object::new(&Source::Standard, "kept").end(), "{\"file\":\"-\",\"status\":\"kept\"}");
    }
}
