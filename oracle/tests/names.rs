//! What is said of the names of tapes written by hand: one for each kind of name, kept ones and a refused one.

use oracle::answer::write_tape;
use oracle::names;
use oracle::notation;

/// What `oracle names` writes of a stream of this one tape.
fn said(tape: Vec<u8>) -> String {
    let mut out = Vec::new();
    names::stream(&alone(&tape)[..], &mut out).expect("a Vec takes all");
    String::from_utf8(out).expect("UTF-8")
}

/// What `oracle name-list` writes of it.
fn listed(tape: Vec<u8>) -> String {
    let mut out = Vec::new();
    names::list(&alone(&tape)[..], &mut out).expect("a Vec takes all");
    String::from_utf8(out).expect("UTF-8")
}

fn alone(tape: &[u8]) -> Vec<u8> {
    let mut stream = Vec::new();
    write_tape(&mut stream, tape).expect("a Vec takes all");
    stream
}

#[test]
fn names_that_hold_none_of_the_four_bytes_are_kept() {
    assert_eq!(said(notation::file("")), "kept\n\n");
    assert_eq!(
        said(notation::file(r#"id{T" GEN <&>"} C1"\c 1" p{V"\v 1 <" T"<\u{22}&>" w[A"|k=\u{22}<&>\u{22}"]}"#)),
        "kept\n\n"
    );
}

#[test]
fn a_book_code() {
    let text = "found book code in node 1\nat byte 4, line 1 of the source: G<N\n\n";
    assert_eq!(said(notation::file(r#"id{T" G<N x"}"#)), text);
    // A known entry `id` that another writer takes has none.
    for other in [r#"id"\ref"{T" G<N"}"#, r#"ide{T" G<N"}"#, r#"usfm{T" G<N"}"#, r#"?"\id"{T" G<N"}"#] {
        assert_eq!(said(notation::file(other)), "kept\n\n", "{other}");
    }
}

#[test]
fn a_label() {
    let text = "found label in node 3\nat byte 6, line 2 of the source: 1\"\n\n";
    assert_eq!(said(notation::file(r#"p{T"\u{A}" V"\v 1\u{22}"}"#)), text);
    assert_eq!(
        said(notation::file(r#"V"\v1&amp;""#)),
        "found label in node 1\nat byte 2, line 1 of the source: 1&amp;\n\n"
    );
}

#[test]
fn a_marker_name() {
    assert_eq!(
        said(notation::file(r#"p"\p>"{}"#)),
        "found marker name in node 1\nat byte 1, line 1 of the source: p>\n\n"
    );
    assert_eq!(
        said(notation::file(r#"V"\v< 1""#)),
        "found marker name in node 1\nat byte 1, line 1 of the source: v<\n\n"
    );
    assert_eq!(
        said(notation::file(r#"C1"\c&""#)),
        "found marker name in node 1\nat byte 1, line 1 of the source: c&\n\n"
    );
    // Not those of kinds that bear no marker.
    assert_eq!(said(notation::file(r#"T"\p<" E"\p<" A"\p<""#)), "kept\n\n");
}

#[test]
fn a_key() {
    let text = "found key in node 2\nat byte 11, line 1 of the source: k<y\n\n";
    assert_eq!(said(notation::file(r#"p{w[A"|a=\u{22}1\u{22} k<y=\u{22}x\u{22}"]}"#)), text);
    assert_eq!(said(notation::file(r#"A"|k>=1""#)), "found key in node 0\nat byte 1, line 1 of the source: k>\n\n");
    // A key is looked for where it is collected, not in its value or in a body without one.
    assert_eq!(said(notation::file(r#"p{A"|k=< y" A"|<" A"|x<"}"#)), "kept\n\n");
}

#[test]
fn the_first_of_a_tape_and_of_a_node() {
    let tape = r#"C1"\c" id"\id<"{T" G&N" A"|k>=1"} p"\p\u{22}"{}"#;
    assert_eq!(said(notation::file(tape)), "found book code in node 2\nat byte 7, line 1 of the source: G&N\n\n");
    assert_eq!(said(notation::file(r#"V"\v< 1>""#)), "found label in node 1\nat byte 4, line 1 of the source: 1>\n\n");
    assert_eq!(
        said(notation::file(r#"w"\w<"[A"|k>=1"]"#)),
        "found marker name in node 1\nat byte 1, line 1 of the source: w<\n\n"
    );
}

#[test]
fn a_refused_tape() {
    assert_eq!(said(Vec::new()), "refused 1\n\n");
    assert_eq!(listed(Vec::new()), "refused 1\n\n");
}

#[test]
fn all_names_in_order() {
    let tape = r#"id{T" G<N x"} V"\v1" fig[A"|src=1 a=2" A"|x"] periph{A"|x"} A"|x""#;
    let text = "0 key 64656661756c74\n1 book code 473c4e\n1 marker name 6964\n3 marker name -\n4 label 31\n4 marker name 7631\n\
                5 marker name 666967\n5 key 66696c65\n5 key 61\n5 key 64656661756c74\n8 marker name -\n\
                9 marker name 706572697068\n9 key 6964\n11 marker name -\n\n";
    assert_eq!(listed(notation::file(tape)), text);
}
