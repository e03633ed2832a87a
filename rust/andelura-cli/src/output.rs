//! Texts in files: whole, or not there.

use std::collections::HashMap;
use std::ffi::{OsStr, OsString};
use std::fs::{self, File, OpenOptions};
use std::io::{self, ErrorKind, Write};
use std::os::unix::ffi::{OsStrExt, OsStringExt};
use std::os::unix::fs::MetadataExt;
use std::path::{Path, PathBuf};
use std::process;
use std::sync::atomic::{AtomicUsize, Ordering};

use crate::options::Options;
use crate::source::{shown, Source};
use crate::trouble::plain;

/// How many names are tried for a temporary file.
const TRIES: usize = 1000;

/// Makes sure, before anything is written, that no text would take the place of another or of a tape, and that the folder is there.
pub fn prepare(options: &Options) -> Result<(), String> {
    let Some(folder) = &options.out else { return Ok(()) };
    let files = options.sources.iter().filter_map(|source| match source {
        Source::File(path) => Some(path.as_path()),
        Source::Standard => None,
    });
    let files: Vec<&Path> = files.collect();
    distinct(folder, &files)?;
    spared(folder, &files)?;
    make(folder)
}

/// Whether each file has a text of its own name.
fn distinct(folder: &Path, files: &[&Path]) -> Result<(), String> {
    let mut taken: HashMap<PathBuf, &Path> = HashMap::new();
    for file in files {
        let text = place(folder, file);
        if let Some(other) = taken.insert(text.clone(), file) {
            let (other, file, text) = (shown(other.as_os_str()), shown(file.as_os_str()), shown(text.as_os_str()));
            return Err(format!("{other} and {file} would both be written to {text}: call twice, with a folder each"));
        }
    }
    Ok(())
}

/// Whether no text would be written over a file that is to be read.
fn spared(folder: &Path, files: &[&Path]) -> Result<(), String> {
    let read: HashMap<_, _> = files.iter().filter_map(|file| Some((identity(file)?, file))).collect();
    for file in files {
        let text = place(folder, file);
        if let Some(tape) = identity(&text).and_then(|text| read.get(&text)) {
            let (file, tape) = (shown(file.as_os_str()), shown(tape.as_os_str()));
            return Err(format!("the text of {file} would be written over {tape}: choose another folder"));
        }
    }
    Ok(())
}

/// What tells one file from another, if it is there.
fn identity(path: &Path) -> Option<(u64, u64)> {
    fs::metadata(path).ok().map(|data| (data.dev(), data.ino()))
}

fn make(folder: &Path) -> Result<(), String> {
    match fs::metadata(folder) {
        Ok(data) if data.is_dir() => Ok(()),
        Ok(_) => Err(format!("{} is no directory: --out wants one for the texts", shown(folder.as_os_str()))),
        Err(_) => fs::create_dir_all(folder)
            .map_err(|error| format!("{} cannot be made: {}", shown(folder.as_os_str()), plain(&error))),
    }
}

/// Where the text of a file goes: its name, with `.usx` in place of `.tape`.
pub fn place(folder: &Path, file: &Path) -> PathBuf {
    let name = file.file_name().unwrap_or(OsStr::new("")).as_bytes();
    let stem = name.strip_suffix(b".tape").filter(|stem| !stem.is_empty()).unwrap_or(name);
    folder.join(OsString::from_vec([stem, b".usx"].concat()))
}

/// Writes a file beside its place, and moves it there once it is whole.
pub fn replace(path: &Path, bytes: &[u8]) -> io::Result<()> {
    let (draft, mut file) = Draft::create(path.parent().unwrap_or(Path::new("")))?;
    file.write_all(bytes)?;
    file.sync_all()?;
    draft.rename(path)
}

/// A temporary file, which is removed unless it was renamed.
struct Draft(PathBuf);

impl Draft {
    fn create(folder: &Path) -> io::Result<(Self, File)> {
        static COUNT: AtomicUsize = AtomicUsize::new(0);
        let mut last = io::Error::from(ErrorKind::AlreadyExists);
        for _ in 0..TRIES {
            let number = COUNT.fetch_add(1, Ordering::Relaxed);
            let path = folder.join(format!(".andelura-{}-{number}", process::id()));
            match OpenOptions::new().write(true).create_new(true).open(&path) {
                Ok(file) => return Ok((Draft(path), file)),
                Err(error) if error.kind() == ErrorKind::AlreadyExists => last = error,
                Err(error) => return Err(error),
            }
        }
        Err(last)
    }

    fn rename(self, path: &Path) -> io::Result<()> {
        fs::rename(&self.0, path)?;
        std::mem::forget(self);
        Ok(())
    }
}

impl Drop for Draft {
    fn drop(&mut self) {
        // What cannot be removed has failed to be written too, and that is said.
        let _ = fs::remove_file(&self.0);
    }
}

#[cfg(test)]
mod tests {
    use super::*;

    #[test]
    fn where_texts_go() {
        for (file, text) in [
            ("a.tape", "d/a.usx"),
            ("x/y/a.tape", "d/a.usx"),
            ("a", "d/a.usx"),
            ("a.usx", "d/a.usx.usx"),
            ("a.tape.tape", "d/a.tape.usx"),
            (".tape", "d/.tape.usx"),
            ("..", "d/.usx"),
        ] {
            assert_eq!(place(Path::new("d"), Path::new(file)), Path::new(text), "{file}");
        }
    }

    #[test]
    fn texts_of_one_name() {
        let files = |names: [&'static str; 3]| names.map(Path::new);
        assert!(distinct(Path::new("d"), &files(["a.tape", "b.tape", "a.usx"])).is_ok());
        let said = distinct(Path::new("d"), &files(["a.tape", "b", "x/a"]));
        assert_eq!(
            said.unwrap_err(),
            "a.tape and x/a would both be written to d/a.usx: call twice, with a folder each"
        );
    }
}
