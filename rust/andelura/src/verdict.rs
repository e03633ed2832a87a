//! The checker of finished text.

use std::error::Error;
use std::fmt;

use crate::ffi;

/// Judges a finished USX text.
///
/// Accepted is what is in tag form, no higher than 160, one usx tree, and has its chapters and
/// verses paired. The text of every tape whose names are [kept](crate::Names::Kept) is accepted;
/// that is proved.
///
/// ```
/// let text = include_bytes!("../../../examples/listing.usx");
/// let verdict = andelura::check(text);
/// assert_eq!(verdict, andelura::Verdict::Accepted { chapters: 1, verses: 1 });
///
/// let cut = andelura::check(&text[..60]);
/// assert!(!cut.is_accepted());
/// ```
pub fn check(text: &[u8]) -> Verdict {
    let mut numbers = [0; 4];
    let answer = ffi::check(text, &mut numbers);
    let [chapters, verses, place, line] = numbers.map(|n| n as usize);
    match Rule::broken(answer) {
        None => Verdict::Accepted { chapters, verses },
        Some(rule) => Verdict::Refused(Fault { rule, place, line }),
    }
}

/// What the checker says of a text.
#[derive(Clone, Copy, Debug, PartialEq, Eq, Hash)]
pub enum Verdict {
    /// The text keeps every rule.
    Accepted {
        /// How many chapters start.
        chapters: usize,
        /// How many verses start.
        verses: usize,
    },
    /// The text breaks a rule.
    Refused(Fault),
}

impl Verdict {
    /// Whether the text keeps every rule.
    ///
    /// ```
    /// assert!(andelura::check(b"<usx version=\"3.0\">\n</usx>").is_accepted());
    /// ```
    pub fn is_accepted(&self) -> bool {
        matches!(self, Verdict::Accepted { .. })
    }
}

impl fmt::Display for Verdict {
    /// One line: both counts, or the fault.
    fn fmt(&self, f: &mut fmt::Formatter<'_>) -> fmt::Result {
        match self {
            Verdict::Accepted { chapters, verses } => {
                write!(f, "accepted: chapters {chapters}, verses {verses}")
            }
            Verdict::Refused(fault) => fault.fmt(f),
        }
    }
}

/// Which rule a text breaks, and where.
///
/// ```
/// use andelura::{check, Fault, Rule, Verdict};
///
/// let verdict = check(b"<usx version=\"3.0\">\n<para></char></usx>");
/// assert_eq!(verdict, Verdict::Refused(Fault { rule: Rule::NoTree, place: 26, line: 2 }));
/// ```
#[derive(Clone, Copy, Debug, PartialEq, Eq, Hash)]
pub struct Fault {
    /// The rule: of those that are broken, the one with the lowest number.
    pub rule: Rule,
    /// How many bytes stand before the place where the rule broke.
    pub place: usize,
    /// The line of that place, from 1; a line ends at a line feed.
    pub line: usize,
}

impl Fault {
    /// The rule's number.
    ///
    /// ```
    /// use andelura::{Fault, Rule};
    ///
    /// assert_eq!(Fault { rule: Rule::TooHigh, place: 0, line: 1 }.number(), 12);
    /// ```
    pub fn number(self) -> u32 {
        self.rule.number()
    }
}

impl fmt::Display for Fault {
    /// One line: the number, the place, what was found, what to do.
    fn fmt(&self, f: &mut fmt::Formatter<'_>) -> fmt::Result {
        let Fault { rule, place, line } = self;
        write!(
            f,
            "refused by number {} at byte {place}, line {line}: ",
            self.number()
        )?;
        write!(f, "{} {}", rule.found(), rule.advice())
    }
}

impl Error for Fault {}

/// A rule of finished texts.
#[derive(Clone, Copy, Debug, PartialEq, Eq, Hash)]
#[non_exhaustive]
pub enum Rule {
    /// 11: the text is not in tag form.
    NotTags,
    /// 12: elements stand too deep in each other.
    TooHigh,
    /// 13: the elements are not one usx tree.
    NoTree,
    /// 14: chapters and verses are not paired.
    BadMarks,
}

impl Rule {
    /// The rule that an answer of the checker names; 0 names none, and of the numbers it gives 14
    /// is the last.
    fn broken(answer: u32) -> Option<Rule> {
        match answer {
            0 => None,
            11 => Some(Rule::NotTags),
            12 => Some(Rule::TooHigh),
            13 => Some(Rule::NoTree),
            _ => Some(Rule::BadMarks),
        }
    }

    /// The number that `docs/REFUSALS.md` lists it by.
    ///
    /// ```
    /// assert_eq!(andelura::Rule::NotTags.number(), 11);
    /// ```
    pub fn number(self) -> u32 {
        match self {
            Rule::NotTags => 11,
            Rule::TooHigh => 12,
            Rule::NoTree => 13,
            Rule::BadMarks => 14,
        }
    }

    /// What was found.
    ///
    /// ```
    /// assert_eq!(andelura::Rule::NoTree.found(), "The elements are not one usx tree.");
    /// ```
    pub fn found(self) -> &'static str {
        match self {
            Rule::NotTags => {
                "The text is not in tag form: a tag, key, value or text holds what it may not, or \
                 the text does not open with `<usx version=\"3.0\">` or does not end with \
                 `</usx>`."
            }
            Rule::TooHigh => "Some height is over 160.",
            Rule::NoTree => "The elements are not one usx tree.",
            Rule::BadMarks => "The milestones are not paired.",
        }
    }

    /// What to do. Where a name of the project is at fault, [`find_names`](crate::find_names) finds
    /// it in the tape.
    ///
    /// ```
    /// assert!(andelura::Rule::NoTree.advice().starts_with("A tag was lost or moved"));
    /// ```
    pub fn advice(self) -> &'static str {
        match self {
            Rule::NotTags => {
                "Look for a raw quote, `<`, `>` or `&` in a verse label, book code, style or key; \
                 for a text that was cut off or has a line end behind it. `andelura names` finds \
                 such a name in the tape."
            }
            Rule::TooHigh => "Look for an element that is opened again and again and never closed.",
            Rule::NoTree => "A tag was lost or moved: compare with the text as it was written.",
            Rule::BadMarks => {
                "Look for an end that was lost, or for a label or book code that holds an escape \
                 such as `&amp;`: the start escapes it and the end does not. `andelura names` \
                 finds it in the tape."
            }
        }
    }
}
