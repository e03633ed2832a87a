//! `andelura check`: whether a finished text is accepted.

use andelura::Verdict;

use crate::json::Object;
use crate::options::Options;
use crate::report::Outcome;
use crate::source::Source;
use crate::trouble::Trouble;

pub fn run(source: &Source, options: &Options) -> Result<Outcome, Trouble> {
    let text = source.text()?;
    let (chapters, verses) = match andelura::check(&text) {
        Verdict::Accepted { chapters, verses } => (chapters, verses),
        Verdict::Refused(fault) => return Err(Trouble::text(&text, fault)),
    };
    Ok(Outcome::well(match options.json {
        true => Object::new(source, "accepted").number("chapters", chapters).number("verses", verses).line(),
        false => {
            format!("{}: accepted, {}, {}\n", source.shown(), counted(chapters, "chapter"), counted(verses, "verse"))
        }
    }))
}

fn counted(count: usize, thing: &str) -> String {
    match count {
        1 => format!("1 {thing}"),
        _ => format!("{count} {thing}s"),
    }
}
