//! The texts and entries the generators draw from.

use super::rng::Rng;
use crate::tapes::EntryOf;

/// The 25 code points that Unicode marks White_Space.
#[rustfmt::skip]
pub const WHITE: [char; 25] = [
    '\u{9}', '\u{a}', '\u{b}', '\u{c}', '\u{d}', '\u{20}', '\u{85}', '\u{a0}', '\u{1680}', '\u{2000}', '\u{2001}',
    '\u{2002}', '\u{2003}', '\u{2004}', '\u{2005}', '\u{2006}', '\u{2007}', '\u{2008}', '\u{2009}', '\u{200a}',
    '\u{2028}', '\u{2029}', '\u{202f}', '\u{205f}', '\u{3000}',
];

/// Code points beside those, and others that look like white space.
#[rustfmt::skip]
const NEIGHBOURS: [char; 26] = [
    '\u{8}', '\u{e}', '\u{1c}', '\u{1f}', '\u{21}', '\u{84}', '\u{86}', '\u{9f}', '\u{a1}', '\u{167f}', '\u{1681}',
    '\u{180e}', '\u{1fff}', '\u{200b}', '\u{200d}', '\u{2027}', '\u{202a}', '\u{202e}', '\u{2030}', '\u{205e}',
    '\u{2060}', '\u{2fff}', '\u{3001}', '\u{feff}', '\u{0}', '\u{7f}',
];

const ASCII_WHITE: [&str; 8] = [" ", " ", " ", "\n", "\t", "\r\n", "\u{c}", "  "];

const WORDS: [&str; 10] = ["In", "the", "beginning", "God", "a", "x", "é", "שלום", "中文", "😀"];

#[rustfmt::skip]
const ODD: [&str; 27] = [
    "<", ">", "&", "\"", "<\"&>", "&amp;", "a<b", "//", "a//b", "/", "///", "////", "~", "a~b", "~//~", "a~//b", "\\", "|",
    "=", "*", "+", "'", "\u{1}", "\u{301}", "1", "-", "\u{10ffff}",
];

/// One blank character or run: mostly ASCII, at times any of the 25 code points.
pub fn white(r: &mut Rng) -> String {
    if r.once_in(5) { r.pick(&WHITE).to_string() } else { r.pick(&ASCII_WHITE).to_string() }
}

/// Blank text: empty, ASCII or any of the 25 code points.
pub fn blank(r: &mut Rng) -> String {
    (0..r.below(3)).map(|_| white(r)).collect()
}

pub fn word(r: &mut Rng) -> String {
    match r.below(10) {
        0 | 1 => r.pick(&ODD).to_string(),
        2 if r.once_in(3) => r.pick(&NEIGHBOURS).to_string(),
        _ => r.pick(&WORDS).to_string(),
    }
}

/// Running text: words and white space, edges included.
pub fn prose(r: &mut Rng) -> String {
    let mut out = String::new();
    for _ in 0..r.below(7) {
        out += &if r.below(2) == 0 { word(r) } else { white(r) };
    }
    out
}

/// Text that shows something.
pub fn solid(r: &mut Rng) -> String {
    format!("{}{}{}", blank(r), r.pick(&WORDS), prose(r))
}

#[rustfmt::skip]
const ATTRIBUTES: [&str; 56] = [
    "|grace", "|", "", "|  ", "| ", "|\u{a0}", "||", "||x", "x", "|lemma=\"grace\"", "lemma=\"x\"", "|lemma strong=\"l\"",
    "|=v", "|=\"v\" k=\"w\"", "|=", "|= =", "|k=\"x\\\"y\"", "|k=\"x", "|k=\"x\\\"", "|k=\"x\\", "|k=\"a\\b\"", "|k=\"\\\\\"\"", "|k=\"", "|k=\"\"", "|k=", "|k= ",
    "|a=b=c", "|k = \"v\"", "|k=\"v\"l=\"w\"", "|k=v l", "|k=v l=w", "|a=\"1\" a=\"2\"", "|\"q\"", "|k\\\"v", "|k=\\\"v\\\"",
    "|k\u{a0}j=\"v\"", "|k=v\u{3000}l=w", "| k=\"v\" ", "|k=\"<>&'\"", "|k<=\"v\"", "|k&\"=\"v\"", "|é=\"é\"", "|k=\"a\nb\"", "|style=\"s\"",
    "|src=\"f.jpg\" size=\"col\"", "|file=\"f\" src=\"g\"", "|loc=\"MAT 1:1\"", "|loc=a loc=b", "|href=\"GEN 1:1\"",
    "|href=\"a\" href=\"b\"", "|x=\"1\" href=\"<\"", "|id=\"x\"", "|who=\"Paul\" sid=\"s\"", "|link-href=\"#a\"", "|default=\"d\"", "|\u{1}=\u{1}",
];

pub fn attribute(r: &mut Rng) -> String {
    if r.once_in(6) {
        return format!("|{}={}{}", word(r), word(r), prose(r));
    }
    r.pick(&ATTRIBUTES).to_string()
}

/// The positional form of a figure's attribute.
pub fn legacy_fields(r: &mut Rng) -> String {
    let fields = (0..r.below(9)).map(|_| if r.once_in(3) { blank(r) } else { solid(r).replace(['|', '='], "") });
    format!("|{}", fields.collect::<Vec<_>>().join("|"))
}

/// The entries of structured tapes; the odd ones, which share a name with another, stand last.
#[rustfmt::skip]
pub const ENTRIES: &[EntryOf<'static>] = &[
    ("id", 0, 0), ("ide", 0, 0), ("h", 0, 0), ("usfm", 0, 0), ("c", 1, 0), ("v", 2, 0), ("p", 3, 0), ("q", 3, 0), ("b", 3, 0),
    ("s", 3, 0), ("cp", 3, 0), ("nd", 4, 0), ("add", 4, 0), ("w", 4, 0), ("wa", 4, 0), ("wg", 4, 0), ("wh", 4, 0), ("rb", 4, 0),
    ("xt", 4, 0), ("ref", 4, 0), ("jmp", 4, 0), ("qt", 4, 0), ("va", 4, 0), ("vp", 4, 0), ("ca", 4, 0), ("cat", 4, 0), ("fr", 4, 0),
    ("ft", 4, 0), ("fig", 4, 0), ("th", 4, 0), ("thr", 4, 0), ("thc", 4, 0), ("tc", 4, 0), ("tcr", 4, 0), ("tcc", 4, 0), ("f", 5, 0),
    ("x", 5, 0), ("fe", 5, 0), ("ts", 6, 0), ("zms", 6, 0), ("tr", 3, 3), ("esb", 7, 1), ("periph", 7, 2), ("rem", 7, 0),
    ("vv", 2, 0), ("fig", 3, 0), ("fig", 5, 0), ("fig", 6, 0), ("id", 3, 0), ("id", 4, 0), ("usfm", 4, 0), ("tr", 3, 0), ("line", 4, 3),
    ("usfm", 3, 3), ("esb", 4, 1), ("periph", 5, 2), ("ref", 3, 0), ("cat", 3, 0), ("va", 5, 0), ("vp", 6, 0), ("xt", 5, 0), ("", 3, 0), ("", 4, 0),
];

/// The first entry of that name.
pub fn marker(name: &str) -> u16 {
    let at = ENTRIES.iter().position(|e| e.0 == name);
    at.unwrap_or_else(|| panic!("no entry {name}")) as u16
}

/// The entry of that name, category and element.
pub fn odd_marker(entry: EntryOf<'static>) -> u16 {
    let at = ENTRIES.iter().position(|e| *e == entry);
    at.unwrap_or_else(|| panic!("no entry {entry:?}")) as u16
}
