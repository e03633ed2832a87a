//! `andelura usx`: the text of a tape, to standard output or to a file.

use std::path::Path;

use crate::json::Object;
use crate::options::Options;
use crate::output;
use crate::report::Outcome;
use crate::source::Source;
use crate::text;
use crate::trouble::Trouble;

pub fn run(source: &Source, options: &Options) -> Result<Outcome, Trouble> {
    let tape = source.tape()?;
    let text = text::written(&tape, options.most)?;
    match (&options.out, source) {
        (Some(folder), Source::File(file)) => to_file(source, &output::place(folder, file), &text, options.json),
        _ if options.json => {
            let object = Object::new(source, "written").number("bytes", text.len());
            Ok(Outcome::well(object.bytes("text", &text).line()))
        }
        _ => Ok(Outcome::well(text)),
    }
}

fn to_file(source: &Source, path: &Path, text: &[u8], json: bool) -> Result<Outcome, Trouble> {
    output::replace(path, text).map_err(|error| Trouble::unwritten(path, &error))?;
    let object = Object::new(source, "written").text("out", &path.to_string_lossy());
    Ok(Outcome::well(if json { object.number("bytes", text.len()).line() } else { String::new() }))
}
