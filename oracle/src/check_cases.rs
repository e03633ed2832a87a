//! Texts on both sides of each rule of the checker, with the answers that document 01 gives them.

use std::io::{self, Write};

use crate::answer::write_tape;
use crate::check::Verdict;

pub struct Case {
    pub text: Vec<u8>,
    pub verdict: Verdict,
}

pub fn write(mut output: impl Write) -> io::Result<()> {
    cases().iter().try_for_each(|case| write_tape(&mut output, &case.text))?;
    output.flush()
}

pub fn cases() -> Vec<Case> {
    [frames(), bytes(), tags(), heights(), trees(), starts_and_ends(), pairs(), lines()].into_iter().flatten().collect()
}

fn accepted(chapters: usize, verses: usize, text: impl AsRef<[u8]>) -> Case {
    Case { text: text.as_ref().to_vec(), verdict: Verdict::Accepted { chapters, verses } }
}

/// The place stands behind a `@` in the text.
fn refused(number: u8, text: impl AsRef<[u8]>) -> Case {
    let mut text = text.as_ref().to_vec();
    let at = text.iter().position(|&c| c == b'@').expect("a place");
    text.remove(at);
    Case { text, verdict: Verdict::Refused { number, at } }
}

fn usx(inner: &str) -> String {
    format!("<usx version=\"3.0\">{inner}</usx>")
}

fn fine(inner: &str) -> Case {
    accepted(0, 0, usx(inner))
}

/// What opens and closes right and breaks a rule inside or at its end.
fn broken(number: u8, inner: &str) -> Case {
    refused(number, if inner.contains('@') { usx(inner) } else { usx(inner) + "@" })
}

fn frames() -> Vec<Case> {
    vec![
        fine(""),
        fine("\n"),
        refused(11, "@"),
        refused(11, "@<"),
        refused(11, "@</usx>"),
        refused(11, "@ <usx version=\"3.0\"></usx>"),
        refused(11, "@<usx version=\"3.1\"></usx>"),
        refused(11, "@<usx version=\"3.0\" ></usx>"),
        refused(11, "@<usx></usx>"),
        refused(11, "@<usx version=\"3.0\" x=\"y\"></usx>"),
        refused(11, "<usx version=\"3.0\">@"),
        refused(11, "<usx version=\"3.0\"></usx> @"),
        refused(11, "<usx version=\"3.0\"></usx>\n@"),
        refused(11, "<usx version=\"3.0\">@</usx"),
        refused(11, "<usx version=\"3.0\"><usx>@"),
        refused(11, "<usx version=\"3.0\"></usx>@<"),
        refused(11, "<usx version=\"3.0\"></usx>@>"),
    ]
}

fn bytes() -> Vec<Case> {
    let mut raw = usx("").into_bytes();
    raw.splice(19..19, [0, 255, 128, 9, 13]);
    vec![
        accepted(0, 0, raw),
        fine("a \"b\" = 'c' / \u{e9}"),
        fine("a &amp; b &lt;&gt;"),
        fine("&amp;quot; &amp;amp"),
        broken(11, "a @& b"),
        broken(11, "@&"),
        broken(11, "a &amp; b @&quot; c"),
        broken(11, "@&apos;"),
        broken(11, "@&#65;"),
        broken(11, "@&AMP;"),
        broken(11, "@&amp"),
        broken(11, "@&lt"),
        broken(11, "a@>b"),
        broken(11, "a@<b"),
        broken(11, "a@<"),
    ]
}

fn tags() -> Vec<Case> {
    vec![
        fine("<book></book><para></para><char></char><note></note><ms></ms><figure></figure><table></table>"),
        fine("<row></row><cell></cell><sidebar></sidebar><periph></periph><optbreak></optbreak><ref></ref>"),
        fine(
            "<book /><para /><char /><note /><ms /><figure /><table /><row /><cell /><sidebar /><periph /><optbreak /><ref />",
        ),
        fine("<para x=\"&quot;&lt;&gt;&amp;\" y=\"\">y</para>"),
        fine("<para /=\"a\" '=\"b\" \u{e9}=\"c\" x=\"1\" x=\"2\" />"),
        fine("<para a=\"/\" />"),
        fine("<para a=\" b='c' = \" />"),
        fine("<para \n=\"\"></para>"),
        broken(11, "@<para x=\"&quot\">y</para>"),
        broken(11, "@<para x=\"&\">y</para>"),
        broken(11, "@<para x=\"a>b\">y</para>"),
        broken(11, "@<para x=\"a<b\">y</para>"),
        broken(11, "@<para x=\"a\"\">y</para>"),
        broken(11, "@<para x=\"a>y</para>"),
        broken(11, "@<para x=a>y</para>"),
        broken(11, "@<para x='a'>y</para>"),
        broken(11, "@<para x =\"a\">y</para>"),
        broken(11, "@<para x= \"a\">y</para>"),
        broken(11, "@<para x>y</para>"),
        broken(11, "@<para =\"y\"></para>"),
        broken(11, "@<para a&b=\"y\"></para>"),
        broken(11, "@<para a\"b=\"y\"></para>"),
        broken(11, "@<para a=b=\"y\"></para>"),
        broken(11, "@<para  x=\"y\"></para>"),
        broken(11, "@<para\tx=\"y\"></para>"),
        broken(11, "@<para x=\"y\"z=\"w\"></para>"),
        broken(11, "@<para x=\"y\" ></para>"),
        broken(11, "@<para ></para>"),
        broken(11, "@<para/>"),
        broken(11, "@<para x=\"y\"/>"),
        broken(11, "@<para  />"),
        broken(11, "@<para / >"),
        broken(11, "<para>@</para >"),
        broken(11, "<para>@</para x=\"y\">"),
        broken(11, "<para>@</ para>"),
        broken(11, "<para>@</para/>"),
        broken(11, "@<rows></rows>"),
        broken(11, "@<paras></paras>"),
        broken(11, "@<par></par>"),
        broken(11, "@<Para></Para>"),
        broken(11, "@< para></para>"),
        broken(11, "@<>"),
        broken(11, "@</>"),
        broken(11, "@<!-- x -->"),
        broken(11, "@<?x?>"),
        broken(11, "<para>@</rows>"),
    ]
}

fn nested(n: usize, inner: &str) -> String {
    "<char>".repeat(n) + inner + &"</char>".repeat(n)
}

fn heights() -> Vec<Case> {
    let closed = "</char>".repeat(3);
    vec![
        fine(&nested(158, "")),
        fine(&nested(159, "")),
        fine(&nested(159, "<ref /><optbreak />a")),
        fine(&nested(159, "").repeat(2)),
        broken(12, &nested(160, "").replacen("<char></char>", "@<char></char>", 1)),
        broken(12, &nested(161, "").replacen("<char><char></char>", "@<char><char></char>", 1)),
        // the height is counted whether or not the tree is right
        broken(12, &("<char>".repeat(159) + "@<para>" + &"</char>".repeat(160))),
        broken(12, &("<usx>".repeat(159) + "@<usx>")),
        broken(13, &format!("@{closed}{}", "<char>".repeat(162))),
        broken(12, &format!("{closed}{}@<char>", "<char>".repeat(162))),
    ]
}

fn trees() -> Vec<Case> {
    vec![
        fine("<para><char></char></para>"),
        fine("<table><row><cell>a</cell></row></table>"),
        broken(13, "<para>@</char>"),
        broken(13, "<para><char>@</para></char>"),
        broken(13, "@<usx></usx>"),
        broken(13, "@<usx version=\"3.0\"></usx>"),
        broken(13, "<para>@<usx></usx></para>"),
        broken(13, "@<usx />"),
        broken(13, "</usx>@<usx>"),
        broken(13, "</usx>@</usx>"),
        broken(13, "</usx>@ <usx>"),
        broken(13, "</usx>@<ref /><usx>"),
        broken(13, "</usx>@<usx version=\"3.0\">"),
        broken(13, "@</para>"),
        broken(13, "<para>@</usx><usx></para>"),
        // only the last closing tag is wrong
        refused(13, "<usx version=\"3.0\"><para>@</usx>"),
        refused(13, "<usx version=\"3.0\"><chapter sid=\"1\" /><para>@</usx>"),
    ]
}

fn starts_and_ends() -> Vec<Case> {
    vec![
        accepted(0, 1, usx("<verse sid=\"a\" /><verse eid=\"a\" />")),
        accepted(0, 1, usx("<verse number=\"1\" sid=\"a\" style=\"v\" /><verse eid=\"a\" />")),
        accepted(0, 1, usx("<verse sid=\"\" /><verse eid=\"\" />")),
        accepted(0, 1, usx("<verse SID=\"b\" sid=\"a\" EID=\"c\" /><verse eid=\"a\" />")),
        accepted(1, 0, usx("<chapter x=\"1\" x=\"2\" sid=\"&quot;\" /><chapter eid=\"&quot;\" />")),
        accepted(0, 1, usx("<para><verse sid=\"a\" /></para><verse eid=\"a\" />")),
        broken(14, "@<verse sid=\"a\" sid=\"b\" /><verse eid=\"a\" />"),
        broken(14, "@<verse sid=\"a\" sid=\"a\" /><verse eid=\"a\" />"),
        broken(14, "@<verse sid=\"a\" eid=\"a\" />"),
        broken(14, "@<verse eid=\"a\" sid=\"a\" />"),
        broken(14, "<verse sid=\"a\" />@<verse eid=\"a\" x=\"\" />"),
        broken(14, "<verse sid=\"a\" />@<verse x=\"\" eid=\"a\" />"),
        broken(14, "<verse sid=\"a\" />@<verse eid=\"a\" eid=\"a\" />"),
        broken(14, "@<verse />"),
        broken(14, "@<verse number=\"1\" />"),
        broken(14, "@<verse sid=\"a\"></verse>"),
        broken(14, "@<verse></verse>"),
        broken(14, "@<chapter></chapter>"),
        broken(14, "<verse sid=\"a\" /><verse eid=\"a\" />@<chapter eid=\"a\"></chapter>"),
        // the start escaped, the end raw: example 11, and a label that is itself an escape
        broken(11, "<verse number=\"1&quot;\" style=\"v\" sid=\" 1:1&quot;\" />x@<verse eid=\" 1:1\"\" />"),
        broken(14, "<verse sid=\"&amp;amp;\" />@<verse eid=\"&amp;\" />"),
    ]
}

fn pairs() -> Vec<Case> {
    let one = "<chapter sid=\"1\" />";
    let end = "<chapter eid=\"1\" />";
    let a = "<verse sid=\"a\" />";
    let z = "<verse eid=\"a\" />";
    let b = "<verse sid=\"b\" />";
    let y = "<verse eid=\"b\" />";
    vec![
        accepted(1, 0, usx(&format!("{one}{end}"))),
        accepted(2, 0, usx(&format!("{one}{end}{one}{end}"))),
        accepted(1, 1, usx(&format!("{one}{a}{z}{end}"))),
        accepted(1, 2, usx(&format!("{one}{a}{z}{b}{y}{end}"))),
        accepted(1, 2, usx(&format!("{a}{z}{one}{end}{a}{z}"))),
        accepted(0, 2, usx(&format!("{a}{z}{a}{z}"))),
        broken(14, one),
        broken(14, a),
        broken(14, &format!("{one}{a}{z}")),
        broken(14, &format!("@{end}")),
        broken(14, &format!("@{z}")),
        broken(14, &format!("{one}@<chapter eid=\"2\" />")),
        broken(14, &format!("{one}{end}@{end}")),
        broken(14, &format!("{a}{z}@{z}")),
        broken(14, &format!("{a}@{b}{z}")),
        broken(14, &format!("{a}@{b}{y}{z}")),
        broken(14, &format!("{a}@{a}{z}")),
        // an end belongs to the last start before it, and to no earlier one
        broken(14, &format!("{a}{z}{b}@{z}")),
        broken(14, &format!("{a}{z}{b}{y}@{z}")),
        broken(14, &format!("{one}@<chapter sid=\"2\" /><chapter eid=\"2\" />{end}")),
        broken(14, &format!("{one}{a}@{end}{z}")),
        broken(14, &format!("{a}@{one}{z}{end}")),
        broken(14, &format!("{one}{a}@<chapter eid=\"2\" />")),
        broken(14, &format!("{one}@<verse eid=\"1\" />{end}")),
    ]
}

fn lines() -> Vec<Case> {
    vec![
        accepted(1, 1, LISTING),
        refused(11, LISTING.replace("Sing", "Sing @& go")),
        refused(11, LISTING.replace("  <para", "  @<para ")),
        refused(11, LISTING.to_string() + "\n\n@"),
        refused(13, LISTING.replace("</para>", "@</char>")),
        refused(13, LISTING.replace("</book>", "").replace("</usx>", "@</usx>")),
        refused(13, LISTING.replace("\n</usx>", "\n</usx>@\n</usx>")),
        refused(14, LISTING.replace("<chapter eid=\"GEN 2\" />", "") + "@"),
        refused(14, LISTING.replace("<verse eid=\"GEN 2:1\" />", "").replace("<chapter eid", "@<chapter eid")),
        refused(14, LISTING.replace("<verse eid=\"GEN 2:1\"", "@<verse eid=\"GEN 2:2\"")),
        refused(
            14,
            LISTING.replace("  <chapter number=\"2\" style=\"c\" sid", "  @<chapter number=\"2\" style=\"c\" id"),
        ),
        refused(12, LISTING.replace("Sing", &("\n".repeat(158) + &"<char>\n".repeat(158) + "@<char>"))),
    ]
}

const LISTING: &str = r#"<usx version="3.0">
  <book code="GEN" style="id">x</book>
  <chapter number="2" style="c" sid="GEN 2" />
  <para style="p"><verse number="1" style="v" sid="GEN 2:1" />Sing</para><verse eid="GEN 2:1" /><chapter eid="GEN 2" />
</usx>"#;
