//! The examples of document 01, "Both sides of each line", and the whole listing.

use oracle::answer::{Answer, answer, print, write_tape};
use oracle::both_sides::{deep, example, listing};
use oracle::{replay, tapes};

fn text(tape: &[u8]) -> String {
    match answer(tape) {
        Answer::Written(text) => text,
        other => panic!("{other:?}"),
    }
}

/// The texts of an example's tapes.
fn texts(number: usize) -> Vec<String> {
    example(number).iter().map(|tape| text(tape)).collect()
}

fn doc(inner: &str) -> String {
    format!("<usx version=\"3.0\">{inner}\n</usx>")
}

fn para(inner: &str) -> String {
    doc(&format!("\n  <para style=\"p\">{inner}</para>"))
}

#[test]
fn example_1_root_alone() {
    let [written] = &texts(1)[..] else { panic!() };
    assert_eq!(written, "<usx version=\"3.0\">\n</usx>");
    assert_eq!(written.len(), 26);
}

#[test]
fn example_2_empty_file_and_no_nodes() {
    assert_eq!(example(2).iter().map(|tape| answer(tape).number()).collect::<Vec<_>>(), [1, 2]);
}

#[test]
fn example_3_depth() {
    assert_eq!(answer(&deep(3)).number(), 0);
    assert_eq!(example(3).iter().map(|tape| answer(tape).number()).collect::<Vec<_>>(), [0, 6]);
}

#[test]
fn example_4_verse_at_block_level() {
    let block = r#"<para style="p"><verse number="3" style="v" sid=" 1:3" />x</para><verse eid=" 1:3" />"#;
    assert_eq!(texts(4), [doc(&format!("\n  {block}"))]);
}

#[test]
fn example_5_optional_break() {
    let note = r#"<note caller="+" style="f">a // b</note>"#;
    assert_eq!(texts(5), [para("a<optbreak />b"), para(note)]);
}

#[test]
fn example_6_new_no_break_space_is_trimmed() {
    assert_eq!(texts(6), [para("a<optbreak />b")]);
}

#[test]
fn example_7_escapes() {
    let char = r#"<char style="w" lemma="&lt;&quot;&amp;&gt;"></char>"#;
    assert_eq!(texts(7), [para(&format!(r#"&lt;"&amp;&gt;{char}"#))]);
}

fn w_with(attributes: &str) -> String {
    para(&format!("<char style=\"w\"{attributes}></char>"))
}

#[test]
fn example_8_dangling_word_and_empty_key() {
    assert_eq!(texts(8), [w_with(r#" strong="l""#), w_with("")]);
}

#[test]
fn example_9_escaped_and_unclosed_quote() {
    assert_eq!(texts(9), [w_with(r#" k="x&quot;y""#), w_with(r#" k="x""#)]);
}

#[test]
fn example_10_second_alternate_stays() {
    let verse = r#"<verse number="1" style="v" altnumber="2" sid=" 1:1" />"#;
    let inner = format!(r#"{verse}<char style="va">3</char></para><verse eid=" 1:1" />"#);
    assert_eq!(texts(10), [doc(&format!("\n  <para style=\"p\">{inner}"))]);
}

#[test]
fn example_11_raw_eid() {
    let verse = r#"<verse number="1&quot;" style="v" sid=" 1:1&quot;" /></para><verse eid=" 1:1"" />"#;
    assert_eq!(texts(11), [doc(&format!("\n  <para style=\"p\">{verse}"))]);
}

#[test]
fn example_12_alignment() {
    let cells = [("tcr2", "end", "a"), ("thc1", "center", "b"), ("tc1", "start", "c")];
    let cell = |(style, align, inner)| format!("\n      <cell style=\"{style}\" align=\"{align}\">{inner}</cell>");
    let cells: String = cells.map(cell).concat();
    let table = format!("\n  <table>\n    <row style=\"tr\">{cells}\n    </row>\n  </table>");
    assert_eq!(texts(12), [doc(&table)]);
}

#[test]
fn example_13_note_without_caller() {
    let note = r#"<note caller="+" style="f"><char style="nd">x</char></note>"#;
    assert_eq!(texts(13), [para(note)]);
}

/// What `oracle replay` writes of an example's tapes.
fn replayed(number: usize) -> String {
    let mut input = Vec::new();
    example(number).iter().for_each(|tape| write_tape(&mut input, tape).unwrap());
    let mut output = Vec::new();
    replay::stream(&input[..], &mut output).unwrap();
    String::from_utf8(output).unwrap()
}

#[test]
fn example_1_with_buffers_of_several_lengths() {
    let lines = r#"room 0: number 8, length 26, 0 unchanged
room 25: number 8, length 26, 25 unchanged
room 26: number 0, length 26, 0 unchanged
<usx version="3.0">
</usx>
room 126: number 0, length 26, 100 unchanged
<usx version="3.0">
</usx>

"#;
    assert_eq!(replayed(1), lines);
}

#[test]
fn example_2_with_buffers_of_several_lengths() {
    let lines = |number| {
        format!(
            "room 0: number {number}, length 0, 0 unchanged\nroom 100: number {number}, length 0, 100 unchanged\n\n"
        )
    };
    assert_eq!(replayed(2), lines(1) + &lines(2));
}

const LISTING: &str = r#"<usx version="3.0">
  <book code="GEN" style="id">x</book>
  <chapter number="2" style="c" sid="GEN 2" />
  <para style="p"><verse number="1" style="v" sid="GEN 2:1" />Sing</para><verse eid="GEN 2:1" /><chapter eid="GEN 2" />
</usx>"#;

#[test]
fn the_listing() {
    assert_eq!(listing().nodes.len(), 9);
    assert_eq!(listing().file(), include_bytes!("../../examples/listing.tape"));
    assert_eq!(String::from_utf8(print(&listing().file())).unwrap(), LISTING);
}

#[test]
fn printing_of_refusals() {
    assert_eq!(print(b""), b"refused 1 0\n");
    assert_eq!(print(&deep(65)), b"refused 6 0\n");
    // The length comes before every other check.
    assert_eq!(print(&vec![0; 65_536]), b"refused 1 0\n");
    assert_eq!(print(&vec![0; 65_537]), b"refused 2 0\n");
}

/// What is printed for a paragraph of `amps` ampersands, each five bytes of text, and `letters` letters.
fn printed(amps: usize, letters: usize) -> Vec<u8> {
    let inner = "&".repeat(amps) + &"a".repeat(letters);
    let p = tapes::container(0, "", tapes::BLOCK_END, vec![tapes::text(&inner)]);
    print(&tapes::tape(&[p], &[("p", 3, 0)], false).file())
}

#[test]
fn printing_at_the_end_of_the_buffer() {
    let room = 65_536 - printed(0, 0).len();
    assert_eq!(printed(room / 5, room % 5).len(), 65_536);
    assert_eq!(printed(room / 5, room % 5 + 1), b"refused 8 65537\n");
}
