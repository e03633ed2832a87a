//! `andelura ids`: every chapter and verse identifier, in order.

use crate::ids;
use crate::json::Object;
use crate::options::Options;
use crate::report::Outcome;
use crate::source::Source;
use crate::text;
use crate::trouble::Trouble;

pub fn run(source: &Source, options: &Options) -> Result<Outcome, Trouble> {
    let tape = source.tape()?;
    let text = text::accepted(source, &tape, options.most)?;
    let starts = ids::starts(&text);
    Ok(match options.json {
        true => Outcome::well(Object::new(source, "listed").value("ids", &ids::as_json(&starts)).line()),
        false => Outcome::well(ids::lines(&starts)),
    })
}
