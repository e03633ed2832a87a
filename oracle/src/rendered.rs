//! What the Rust's helpers of render.rs and usx.rs say of every node of a tape, a line an answer.

use std::io::{self, Write};
use std::iter::successors;

use crate::Document;
use crate::cst::Cursor;
use crate::dump::{self, index};
use crate::serialize::render::*;
use crate::serialize::usx::asked;
use crate::tape::NodeKind;

/// Answers a stream of tapes; the forms of the lines stand in the README. A refused tape gives its number alone.
pub fn stream(input: impl io::Read, output: impl Write) -> io::Result<()> {
    dump::each_node(input, output, write_lines)
}

fn write_lines(out: &mut impl Write, document: &Document<'_>, c: Cursor<'_>) -> io::Result<()> {
    let at = index(document.nodes(), c);
    writeln!(out, "{at} is {}", shapes(document, c))?;
    match c.kind() {
        NodeKind::Text => text_lines(out, at, c),
        NodeKind::Root | NodeKind::MarkerOpen => holder_lines(out, at, c),
        NodeKind::Chapter => writeln!(out, "{at} fold {}", fold(document, c)),
        NodeKind::Verse => {
            writeln!(out, "{at} label {}", asked::quoted(verse_label(c)))?;
            writeln!(out, "{at} fold {}", fold(document, c))
        }
        _ => Ok(()),
    }
}

fn digits(answers: &[bool]) -> String {
    answers.iter().map(|&yes| if yes { '1' } else { '0' }).collect()
}

/// The yes-or-nos about a node, and its shape where it is unknown.
fn shapes(document: &Document<'_>, c: Cursor<'_>) -> String {
    let answers = digits(&[
        is_inline(c),
        asked::is_top_level_block(c),
        is_table_row(c),
        is_category_marker(c),
        is_blank(document, c),
        asked::has_content(c),
        is_plain_text(c),
        trim_leading(Some(c)),
        inline_follows(c),
        parent_followed(c, false)(),
        parent_followed(c, true)(),
    ]);
    let shape = match unknown_shape(c) {
        Some(Unknown::Block) => 'b',
        Some(Unknown::Inline) => 'i',
        Some(Unknown::Leaf) => 'l',
        None => '-',
    };
    format!("{answers} {shape}")
}

/// `is_blank` is private; the fold tells it: behind a Root, which no number belongs to, only a blank is passed over.
fn is_blank(document: &Document<'_>, c: Cursor<'_>) -> bool {
    fold_alt_pub(&[document.cursor(), c], 0).2 == 2
}

fn text_lines(out: &mut impl Write, at: usize, c: Cursor<'_>) -> io::Result<()> {
    writeln!(out, "{at} text {} {}", normalized(c.text()), asked::alone(c))?;
    writeln!(out, "{at} rest {}", asked::quoted(remainder_after_first_token(c.text())))
}

/// Lead, trail and whether it shows, for each pair of yes-or-nos, and the body, which is the same for all.
fn normalized(text: &str) -> String {
    let kept = [(false, false), (false, true), (true, false), (true, true)];
    let all = kept.map(|(before, behind)| normalize_text(text, || before, || behind));
    assert!(all.iter().all(|t| t.body == all[0].body));
    let edges = all.each_ref().map(|t| digits(&[t.lead, t.trail, !t.is_empty()]));
    format!("{} {}", edges.join(" "), asked::quoted(&all[0].body))
}

fn holder_lines(out: &mut impl Write, at: usize, c: Cursor<'_>) -> io::Result<()> {
    let name = c.marker_name();
    let follows: Vec<bool> = c.children().map(inline_follows).collect();
    writeln!(out, "{at} follows {}", digits(&follows))?;
    let category = or_dash(category_of(c).map(str::trim));
    writeln!(out, "{at} note {} {category} {}", asked::quoted(note_caller(c)), cell_align(name))?;
    let [own, fig, periph] = [name, "fig", "periph"].map(|marker| asked::attributes(c, marker));
    writeln!(out, "{at} attributes{own} fig{fig} periph{periph}")?;
    writeln!(out, "{at} figure{}", figure(c))?;
    writeln!(out, "{at} {}", asked::book(c))?;
    writeln!(out, "{at} {}{}", asked::ref_tag(c), asked::periph_alt(c))
}

fn or_dash(text: Option<&str>) -> String {
    text.map_or("-".to_string(), asked::quoted)
}

/// The attributes and caption of a figure of old.
fn figure(c: Cursor<'_>) -> String {
    match figure_legacy(c) {
        Some((attributes, caption)) => {
            let attributes = attributes.iter().map(|(key, value)| format!(" {key}={}", asked::quoted(value)));
            format!("{}>{}", attributes.collect::<String>(), asked::escaped(caption))
        }
        None => " -".to_string(),
    }
}

/// The fold behind a Chapter or Verse, over all its later siblings: both numbers, and where the list goes on.
fn fold(document: &Document<'_>, anchor: Cursor<'_>) -> String {
    let list: Vec<_> = successors(Some(anchor), Cursor::next_sibling).collect();
    let (alt, published, next) = fold_alt_pub(&list, 0);
    let next = list.get(next).map_or("-".to_string(), |c| index(document.nodes(), *c).to_string());
    format!("{} {} {next}", or_dash(alt.as_deref()), or_dash(published.as_deref()))
}
