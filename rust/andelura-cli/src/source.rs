//! Where a tape or a text comes from.

use std::ffi::{OsStr, OsString};
use std::fs::File;
use std::io::{self, Read};
use std::path::PathBuf;

use crate::trouble::Trouble;

/// No tape file is longer: 36 bytes, 16 for each of 262,144 nodes, 8 for each of 1,024 entries, 16,384 name bytes and 4,194,304 source bytes.
const LONGEST_TAPE: usize = 36 + 16 * 262_144 + 8 * 1_024 + 16_384 + 4_194_304;

/// What is read of a tape file at most. The library says which number a longer tape gets, 1 or 2, of all that is read whole.
const MOST_READ: usize = 64 << 20;

#[derive(Clone, Debug, PartialEq, Eq)]
pub enum Source {
    Standard,
    File(PathBuf),
}

impl Source {
    pub fn named(word: OsString) -> Result<Self, String> {
        match word.as_encoded_bytes() {
            b"" => Err("a file has a name, and an empty one is given".to_string()),
            b"-" => Ok(Source::Standard),
            _ => Ok(Source::File(PathBuf::from(word))),
        }
    }

    /// For people.
    pub fn shown(&self) -> String {
        match self {
            Source::Standard => "standard input".to_string(),
            Source::File(path) => shown(path.as_os_str()),
        }
    }

    /// For programs: as it was given.
    pub fn name(&self) -> String {
        match self {
            Source::Standard => "-".to_string(),
            Source::File(path) => path.to_string_lossy().into_owned(),
        }
    }

    pub fn tape(&self) -> Result<Vec<u8>, Trouble> {
        let tape = self.read(MOST_READ as u64 + 1).map_err(Trouble::unread)?;
        match tape.len() > MOST_READ {
            true => Err(Trouble::endless(LONGEST_TAPE)),
            false => Ok(tape),
        }
    }

    pub fn text(&self) -> Result<Vec<u8>, Trouble> {
        self.read(u64::MAX).map_err(Trouble::unread)
    }

    fn read(&self, most: u64) -> io::Result<Vec<u8>> {
        let mut bytes = Vec::new();
        match self {
            Source::Standard => io::stdin().lock().take(most).read_to_end(&mut bytes)?,
            Source::File(path) => File::open(path)?.take(most).read_to_end(&mut bytes)?,
        };
        Ok(bytes)
    }
}

/// A name of the system on one line, whatever it holds.
pub fn shown(name: &OsStr) -> String {
    visible(&name.to_string_lossy())
}

/// A text on one line: control characters are escaped.
pub fn visible(text: &str) -> String {
    let escape = |c: char| match c.is_control() {
        true => c.escape_default().to_string(),
        false => c.to_string(),
    };
    text.chars().map(escape).collect()
}

#[cfg(test)]
mod tests {
    use super::*;

    #[test]
    fn control_characters_are_escaped() {
        assert_eq!(visible("a\n\u{1b}[2J\u{85}é\\\"\t"), "a\\n\\u{1b}[2J\\u{85}é\\\"\\t");
    }
}
