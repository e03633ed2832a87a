//! What the command was asked for.

use std::ffi::{OsStr, OsString};
use std::os::unix::ffi::OsStrExt;
use std::path::PathBuf;

use crate::source::{shown, Source};

/// The longest text that is made where `--most` says nothing.
const MOST: usize = 1 << 30;

#[derive(Clone, Copy, Debug, PartialEq, Eq)]
pub enum Command {
    Usx,
    Check,
    Names,
    Ids,
}

impl Command {
    fn named(word: &OsStr) -> Result<Self, String> {
        match word.as_bytes() {
            b"usx" => Ok(Command::Usx),
            b"check" => Ok(Command::Check),
            b"names" => Ok(Command::Names),
            b"ids" => Ok(Command::Ids),
            _ => Err(format!("{}: no such command: usx, check, names or ids", shown(word))),
        }
    }

    fn name(self) -> &'static str {
        match self {
            Command::Usx => "usx",
            Command::Check => "check",
            Command::Names => "names",
            Command::Ids => "ids",
        }
    }

    /// What its files are.
    fn takes(self) -> &'static str {
        match self {
            Command::Check => "text",
            _ => "tape",
        }
    }
}

#[derive(Debug, PartialEq)]
pub struct Options {
    pub command: Command,
    pub sources: Vec<Source>,
    pub out: Option<PathBuf>,
    pub json: bool,
    pub jobs: Option<usize>,
    pub most: usize,
}

#[derive(Debug, PartialEq)]
pub enum Asked {
    Help,
    Version,
    Work(Options),
}

/// The words of a call, without the program's name; a wrong call gives what is wrong with it.
pub fn parse(words: impl IntoIterator<Item = OsString>) -> Result<Asked, String> {
    let mut given = Given::default();
    let mut words = words.into_iter();
    while let Some(word) = words.next() {
        if given.ended || !is_option(&word) {
            given.plain(word)?;
            continue;
        }
        match word.as_bytes() {
            b"-h" | b"--help" => return Ok(Asked::Help),
            b"--version" => return Ok(Asked::Version),
            _ => given.option(&word, &mut words)?,
        }
    }
    given.finish().map(Asked::Work)
}

/// A lone dash is standard input.
fn is_option(word: &OsStr) -> bool {
    word.len() > 1 && word.as_bytes().starts_with(b"-")
}

/// What was given so far.
#[derive(Default)]
struct Given {
    ended: bool,
    command: Option<Command>,
    sources: Vec<Source>,
    out: Option<PathBuf>,
    json: bool,
    jobs: Option<usize>,
    most: Option<usize>,
}

impl Given {
    /// The first plain word is the command, the others are files.
    fn plain(&mut self, word: OsString) -> Result<(), String> {
        match self.command {
            None => self.command = Some(Command::named(&word)?),
            Some(_) => self.sources.push(Source::named(word)?),
        }
        Ok(())
    }

    fn option(&mut self, word: &OsStr, words: &mut impl Iterator<Item = OsString>) -> Result<(), String> {
        let (name, value) = split(word);
        let mut value =
            || value.map(OsStr::to_os_string).or_else(|| words.next()).ok_or(format!("{} wants a value", shown(name)));
        match name.as_bytes() {
            b"--out" => once(&mut self.out, name, folder(value()?)?),
            b"--jobs" => once(&mut self.jobs, name, number(name, &value()?, 1)?),
            b"--most" => once(&mut self.most, name, number(name, &value()?, 0)?),
            b"--json" if name == word => {
                self.json = true;
                Ok(())
            }
            b"--" if name == word => {
                self.ended = true;
                Ok(())
            }
            _ => Err(format!("{}: no such option", shown(word))),
        }
    }

    fn finish(self) -> Result<Options, String> {
        let command = self.command.ok_or("which command? usx, check, names or ids")?;
        self.fits(command)?;
        Ok(Options {
            command,
            sources: self.sources,
            out: self.out,
            json: self.json,
            jobs: self.jobs,
            most: self.most.unwrap_or(MOST),
        })
    }

    /// Whether the options and files fit the command.
    fn fits(&self, command: Command) -> Result<(), String> {
        let (name, many) = (command.name(), self.sources.len() > 1);
        let piped = self.sources.iter().filter(|source| **source == Source::Standard).count();
        if self.out.is_some() && command != Command::Usx {
            return Err(format!("--out is for usx: {name} writes no file"));
        }
        if self.most.is_some() && command == Command::Check {
            return Err("--most is for usx, names and ids: check makes no text".to_string());
        }
        if self.sources.is_empty() {
            return Err(format!("{name}: which {}? Name a file, or - for standard input", command.takes()));
        }
        if piped > 1 {
            return Err("- is given twice: standard input can be read once".to_string());
        }
        if piped > 0 && self.out.is_some() {
            return Err(
                "- has no name for a text in --out DIR: leave --out away, and the text goes to standard output"
                    .to_string(),
            );
        }
        if command == Command::Usx && many && self.out.is_none() && !self.json {
            return Err("usx: several texts joined are no text: give one tape, or --out DIR, or --json".to_string());
        }
        Ok(())
    }
}

/// An option's name, and the value behind a first `=`.
fn split(word: &OsStr) -> (&OsStr, Option<&OsStr>) {
    let bytes = word.as_bytes();
    match bytes.iter().position(|byte| *byte == b'=') {
        Some(at) => (OsStr::from_bytes(&bytes[..at]), Some(OsStr::from_bytes(&bytes[at + 1..]))),
        None => (word, None),
    }
}

fn once<T>(place: &mut Option<T>, name: &OsStr, value: T) -> Result<(), String> {
    match place.replace(value) {
        None => Ok(()),
        Some(_) => Err(format!("{} is given twice", shown(name))),
    }
}

fn folder(value: OsString) -> Result<PathBuf, String> {
    match value.is_empty() {
        true => Err("--out wants the name of a folder".to_string()),
        false => Ok(PathBuf::from(value)),
    }
}

fn number(name: &OsStr, value: &OsStr, least: usize) -> Result<usize, String> {
    let digits = value.to_str().filter(|word| word.bytes().all(|byte| byte.is_ascii_digit()));
    let number = digits.and_then(|word| word.parse().ok()).filter(|number| *number >= least);
    number.ok_or(format!("{} wants a number of {least} or more, and {} is none", shown(name), shown(value)))
}

#[cfg(test)]
mod tests {
    use super::*;

    fn parsed(line: &str) -> Result<Asked, String> {
        parse(line.split(' ').filter(|word| !word.is_empty()).map(OsString::from))
    }

    fn work(line: &str) -> Options {
        match parsed(line) {
            Ok(Asked::Work(options)) => options,
            other => panic!("{line}: {other:?}"),
        }
    }

    fn fault(line: &str) -> String {
        parsed(line).expect_err(line)
    }

    fn files(names: &[&str]) -> Vec<Source> {
        names.iter().map(|name| Source::File(PathBuf::from(name))).collect()
    }

    #[test]
    fn options_stand_anywhere() {
        for line in [
            "usx a b --out d --jobs 3 --most 7 --json",
            "--json --jobs=3 usx --out=d a --most=7 b",
            "--out d usx --json --most 7 --jobs 3 -- a b",
        ] {
            let options = work(line);
            assert_eq!(options.command, Command::Usx, "{line}");
            assert_eq!(options.sources, files(&["a", "b"]), "{line}");
            assert_eq!(options.out, Some(PathBuf::from("d")), "{line}");
            assert_eq!((options.json, options.jobs, options.most), (true, Some(3), 7), "{line}");
        }
    }

    #[test]
    fn what_is_left_out() {
        let options = work("check a");
        assert_eq!((options.out, options.json, options.jobs, options.most), (None, false, None, 1 << 30));
    }

    #[test]
    fn two_dashes_end_options() {
        assert_eq!(work("ids -- --json -h --").sources, files(&["--json", "-h", "--"]));
        assert_eq!(work("-- ids --json").sources, files(&["--json"]));
    }

    #[test]
    fn a_dash_is_standard_input() {
        assert_eq!(work("usx -").sources, [Source::Standard]);
        assert_eq!(work("check -- - a").sources, [Source::Standard, Source::File("a".into())]);
        assert_eq!(work("ids ./-").sources, files(&["./-"]));
        assert!(fault("check - a -").contains("given twice"));
        assert!(fault("usx - --out d").contains("leave --out away"));
    }

    #[test]
    fn help_and_version_end_a_call() {
        for line in ["-h", "--help", "usx --help", "check a --json -h --nothing"] {
            assert_eq!(parsed(line), Ok(Asked::Help), "{line}");
        }
        assert_eq!(parsed("--version --nothing"), Ok(Asked::Version));
        for line in ["check a --nothing -h", "--help=1"] {
            assert!(fault(line).ends_with(": no such option"), "{line}");
        }
    }

    #[test]
    fn several_texts_want_a_folder() {
        assert!(fault("usx a b").contains("several texts joined are no text"));
        assert_eq!(work("usx a b --json").sources.len(), 2);
        assert_eq!(work("usx a b --out d").sources.len(), 2);
        assert_eq!(work("ids a b").sources.len(), 2);
    }

    #[test]
    fn wrong_calls() {
        for (line, part) in [
            ("", "which command?"),
            ("--json", "which command?"),
            ("usy a", "usy: no such command"),
            ("usx", "usx: which tape?"),
            ("check", "check: which text?"),
            ("check a --outs d", "--outs: no such option"),
            ("check a -x", "-x: no such option"),
            ("check a --json=1", "--json=1: no such option"),
            ("check a --=1", "--=1: no such option"),
            ("check a --jobs", "--jobs wants a value"),
            ("usx a --out=", "--out wants the name of a folder"),
            ("usx a --out d --out d", "--out is given twice"),
            ("check a --out d", "--out is for usx"),
            ("check a --most 1", "--most is for usx"),
        ] {
            assert!(fault(line).contains(part), "{line}: {}", fault(line));
        }
        for value in ["0", "-1", "x", "1x", "+1", "18446744073709551616"] {
            assert!(fault(&format!("check a --jobs {value}")).contains("wants a number of 1 or more"), "{value}");
        }
        assert!(fault("usx a --most=").contains("wants a number of 0 or more"));
        assert_eq!(work("usx a --most 0").most, 0);
    }

    #[test]
    fn names_that_are_no_utf8() {
        let odd = OsString::from(OsStr::from_bytes(b"b\xff"));
        let asked = parse([OsString::from("ids"), odd.clone()]);
        assert!(matches!(asked, Ok(Asked::Work(options)) if options.sources == [Source::File(odd.into())]));
    }

    #[test]
    fn an_empty_name() {
        assert!(parse(["ids", ""].map(OsString::from)).is_err());
    }
}
