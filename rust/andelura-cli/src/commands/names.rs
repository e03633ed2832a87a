//! `andelura names`: the first name that breaks the proviso, and identifiers that start more than once.

use andelura::{BrokenName, Names, Verdict};

use crate::ids::{self, Repeat};
use crate::json::Object;
use crate::options::Options;
use crate::report::{Ending, Outcome};
use crate::source::{visible, Source};
use crate::text;
use crate::trouble::Trouble;

pub fn run(source: &Source, options: &Options) -> Result<Outcome, Trouble> {
    let tape = source.tape()?;
    let names = andelura::find_names(&tape).map_err(|refusal| Trouble::tape(&tape, refusal))?;
    let text = text::written(&tape, options.most)?;
    let starts = match andelura::check(&text) {
        Verdict::Accepted { .. } => Some(ids::starts(&text)),
        Verdict::Refused(_) => None,
    };
    let found = Found { source, names, repeats: starts.map(|starts| ids::repeats(&starts)) };
    Ok(found.outcome(options.json))
}

/// What was found in one tape.
struct Found<'t> {
    source: &'t Source,
    names: Names<'t>,
    /// None where the text is not accepted.
    repeats: Option<Vec<Repeat<'t>>>,
}

impl Found<'_> {
    fn outcome(&self, json: bool) -> Outcome {
        let out = if json { self.object() } else { self.lines() };
        let (ending, messages) = match &self.names {
            Names::Kept => (Ending::Well, Vec::new()),
            Names::Broken(name) => (Ending::Broken, vec![self.advice(name)]),
        };
        Outcome { out: out.into_bytes(), messages, ending }
    }

    fn lines(&self) -> String {
        let file = self.source.shown();
        let mut lines = format!("{file}: {}\n", self.names);
        for repeat in self.repeats.iter().flatten() {
            let id = visible(&String::from_utf8_lossy(repeat.start.id));
            lines += &format!("{file}: {id} starts {} times\n", repeat.times);
        }
        lines
    }

    fn advice(&self, name: &BrokenName) -> String {
        let (file, what) = (self.source.shown(), name.what);
        format!(
            "{file}: that {what} holds one of & < > and the double quote: take it out in the project, and export again"
        )
    }

    fn object(&self) -> String {
        let object = match &self.names {
            Names::Kept => Object::new(self.source, "kept"),
            Names::Broken(name) => Object::new(self.source, "broken")
                .text("what", &name.what.to_string())
                .number("node", name.node as usize)
                .number("byte", name.start)
                .number("line", name.line)
                .bytes("name", name.bytes),
        };
        let repeats = self.repeats.as_deref().map(ids::repeats_as_json);
        object.value("repeats", repeats.as_deref().unwrap_or("null")).line()
    }
}
