//! Writes the USX text of a tape file:
//!
//!     usx BOOK.tape BOOK.usx
//!
//! The text is written to BOOK.usx.part, which is then renamed, so that BOOK.usx is never half a
//! text. The exit status is 0, or 1 where the tape is refused, or 2 where the call is wrong or
//! something is not read or written. examples/usx.c is the same program in C.
//!
//!     scripts/cargo run --example usx -- BOOK.tape BOOK.usx

use std::path::{Path, PathBuf};
use std::process::ExitCode;
use std::{env, fs, io, io::Read};

use andelura::{serialize, LONGEST_TAPE};

/// Reads a file; of one that is longer than any tape, a byte more than a tape has.
fn read_file(name: &Path) -> io::Result<Vec<u8>> {
    let mut bytes = Vec::new();
    let most = LONGEST_TAPE as u64 + 1;
    fs::File::open(name)?.take(most).read_to_end(&mut bytes)?;
    Ok(bytes)
}

/// Writes a file under another name and renames it.
fn write_file(name: &Path, bytes: &[u8]) -> io::Result<()> {
    let mut part = name.as_os_str().to_owned();
    part.push(".part");
    let done = fs::write(&part, bytes).and_then(|()| fs::rename(&part, name));
    if done.is_err() {
        let _ = fs::remove_file(&part);
    }
    done
}

/// What was not read or written, and the system's words for why, without its number for it.
fn failed(name: &Path, why: io::Error) -> (String, u8) {
    let why = why.to_string();
    let words = why.split(" (os error").next().unwrap_or_default();
    (format!("{}: {words}", name.display()), 2)
}

/// Does what was asked for, or gives a message and an exit status.
fn run(words: &[PathBuf]) -> Result<(), (String, u8)> {
    let [from, to] = words else {
        return Err(("usage: usx BOOK.tape BOOK.usx".into(), 2));
    };
    let refused = |why: String| (format!("{}: {why}", from.display()), 1);
    let tape = read_file(from).map_err(|why| failed(from, why))?;
    if tape.len() > LONGEST_TAPE {
        let most = format!("longer than any tape file, which has at most {LONGEST_TAPE} bytes");
        return Err(refused(most));
    }
    let text = serialize(&tape).map_err(|refusal| refused(refusal.to_string()))?;
    write_file(to, &text).map_err(|why| failed(to, why))
}

fn main() -> ExitCode {
    let words: Vec<PathBuf> = env::args_os().skip(1).map(PathBuf::from).collect();
    match run(&words) {
        Ok(()) => ExitCode::SUCCESS,
        Err((message, status)) => {
            eprintln!("usx: {message}");
            ExitCode::from(status)
        }
    }
}
