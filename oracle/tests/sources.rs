//! What is compiled is docs/src with the one patch, and one module behind usx.rs.

const PUBLISHED: &str = include_str!("../../docs/src/crates/usfm3/src/serialize/render.rs");
const COMPILED: &str = include_str!(concat!(env!("OUT_DIR"), "/render.rs"));
const PUBLISHED_USX: &str = include_str!("../../docs/src/crates/usfm3/src/serialize/usx.rs");
const COMPILED_USX: &str = include_str!(concat!(env!("OUT_DIR"), "/usx.rs"));
const LIB: &str = include_str!("../../docs/src/crates/usfm3/src/lib.rs");

#[test]
fn render_differs_in_is_table_row_alone() {
    let (old, new): (Vec<_>, Vec<_>) = (PUBLISHED.lines().collect(), COMPILED.lines().collect());
    assert_eq!(old.len(), new.len());
    let changed: Vec<_> = (0..old.len()).filter(|&i| old[i] != new[i]).collect();
    let at = old.iter().position(|line| line.contains("fn is_table_row(")).unwrap();
    // The comment above it and its one line.
    assert_eq!(changed, [at - 1, at + 1]);
    assert_eq!(old[at + 1].replace("m.name) == Some(\"tr\")", "m.usx_element) == Some(\"row\")"), new[at + 1]);
}

#[test]
fn usx_is_as_published_with_a_module_behind_it() {
    let behind: Vec<_> = COMPILED_USX.strip_prefix(PUBLISHED_USX).unwrap().lines().collect();
    assert_eq!(behind.len(), 2);
    assert!(behind[0].starts_with("#[path = ") && behind[1] == "pub(crate) mod asked;");
}

/// `Document::implicit_chapter` is written anew, lib.rs being cut down to it; this is the line it follows.
#[test]
fn the_first_chapter_is_as_in_lib() {
    assert!(LIB.contains("if has_chapter { 0 } else { 1 }"));
}
