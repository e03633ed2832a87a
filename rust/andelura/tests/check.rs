//! The checker of finished text: counts, and every rule with its place and line.

mod common;

use andelura::{check, Fault, Rule, Verdict};
use common::TEXT;

/// What stands between the usx tags, on lines of its own.
fn usx(inside: &str) -> String {
    format!("<usx version=\"3.0\">\n{inside}\n</usx>")
}

/// The rule breaks where the mark `@` stands, which is taken out.
fn assert_broken(marked: &str, rule: Rule) {
    let place = marked.find('@').expect("a mark");
    let line = 1 + marked[..place].matches('\n').count();
    let text = marked.replacen('@', "", 1);
    assert_eq!(
        check(text.as_bytes()),
        Verdict::Refused(Fault { rule, place, line }),
        "{marked}"
    );
}

fn assert_accepted(text: &str, chapters: usize, verses: usize) {
    assert_eq!(
        check(text.as_bytes()),
        Verdict::Accepted { chapters, verses },
        "{text}"
    );
}

#[test]
fn accepted_texts_are_counted() {
    assert_eq!(
        check(TEXT),
        Verdict::Accepted {
            chapters: 1,
            verses: 1
        }
    );
    assert_accepted("<usx version=\"3.0\"></usx>", 0, 0);
    let verse = "<verse sid=\"GEN 1:1\" /><verse eid=\"GEN 1:1\" />";
    assert_accepted(&usx(&verse.repeat(3)), 0, 3);
    let chapter = format!("<chapter sid=\"GEN 1\" />{verse}{verse}<chapter eid=\"GEN 1\" />");
    assert_accepted(&usx(&chapter.repeat(2)), 2, 4);
}

#[test]
fn number_11_is_not_in_tag_form() {
    assert_broken("@", Rule::NotTags);
    assert_broken(
        "@<?xml version=\"1.0\"?><usx version=\"3.0\"></usx>",
        Rule::NotTags,
    );
    assert_broken(
        &usx("<para>\n@<para style=\"a\"b\"></para></para>"),
        Rule::NotTags,
    );
    assert_broken(&usx("<para>a @& b</para>"), Rule::NotTags);
    assert_broken(&usx("<para>a @> b</para>"), Rule::NotTags);
    assert_broken("<usx version=\"3.0\"></usx>\n@", Rule::NotTags);
}

#[test]
fn number_12_is_too_high() {
    let open = "<para>";
    let close = "</para>";
    // With usx itself, 160 elements stand in each other.
    assert_accepted(&usx(&[open.repeat(159), close.repeat(159)].concat()), 0, 0);
    let over = [&open.repeat(159), "@", open, &close.repeat(160)].concat();
    assert_broken(&usx(&over), Rule::TooHigh);
}

#[test]
fn number_13_is_no_tree() {
    assert_broken(&usx("<para>\n@</char>"), Rule::NoTree);
    assert_broken(&usx("@<usx />"), Rule::NoTree);
    assert_broken(&usx("<para>@</usx>"), Rule::NoTree);
}

#[test]
fn number_14_is_bad_marks() {
    assert_broken(
        &[&usx("<chapter sid=\"GEN 1\" />"), "@"].concat(),
        Rule::BadMarks,
    );
    assert_broken(&usx("@<verse eid=\"GEN 1:1\" />"), Rule::BadMarks);
    assert_broken(
        &usx("<verse sid=\"GEN 1:1\" />\n@<verse eid=\"GEN 1:2\" />"),
        Rule::BadMarks,
    );
    let amp = "<verse sid=\" 1:&amp;lt;\" />@<verse eid=\" 1:&lt;\" />";
    assert_broken(&usx(amp), Rule::BadMarks);
}

#[test]
fn the_lowest_number_is_given() {
    // Not in tag form behind what is no tree and has bad marks.
    assert_broken(&usx("<verse eid=\"1\" /></para>a @& b"), Rule::NotTags);
    assert_broken(&usx("<verse eid=\"1\" />@</para>"), Rule::NoTree);
}

#[test]
fn verdicts_are_one_line() {
    assert_eq!(check(TEXT).to_string(), "accepted: chapters 1, verses 1");
    assert!(check(TEXT).is_accepted());
    let cut = check(&TEXT[..TEXT.len() - 1]);
    assert!(!cut.is_accepted());
    assert!(
        cut.to_string().starts_with("refused by number 11 at byte "),
        "{cut}"
    );
    assert!(!cut.to_string().contains('\n'));
}
