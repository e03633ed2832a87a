//! The exporter beside another `is_table_row`, which asks for the name in the source: rows that no file can hold.

use self::tape_file::{ExportError, export};
use crate::made::{Made, PARA, node, open, root};
use crate::tape::NodeKind;

mod render {
    use crate::cst::Cursor;

    pub(super) fn is_table_row(c: Cursor<'_>) -> bool {
        c.marker_name() == "tr"
    }
}

// The module a second time, on purpose.
#[allow(dead_code, clippy::duplicate_mod)]
#[path = "../../../rust/usfm3-tape/tape_file.rs"]
mod tape_file;

/// The element code of each entry, or the error, which has no number and says this.
fn elements(made: &Made, says: &str) -> Result<Vec<u8>, ExportError> {
    let file = made.with(export).inspect_err(|error| {
        assert_eq!((error.refusal(), error.to_string()), (None, format!("{says}: {}", error.advice())));
    })?;
    oracle::loader::load(&file).unwrap();
    Ok(oracle::tapes::Parts::read(&file).entries.iter().map(|entry| entry.element).collect())
}

#[test]
fn rows_are_those_of_the_nodes() {
    let row = Made::new(&[root(2), open(1, 0).over(0, 3)]).source("\\tr");
    assert_eq!(elements(&row.entry("q", PARA).entry("tr", PARA), ""), Ok(vec![3, 0]));
}

#[test]
fn mixed_rows() {
    let made = Made::new(&[root(3), open(1, 0).over(0, 3), open(2, 0).over(3, 2)]).source("\\tr\\q").entry("q", PARA);
    let says = "of node 2 and another of entry 0 one is a row";
    assert_eq!(elements(&made, says), Err(ExportError::MixedRows { node: 2, entry: 0 }));
}

#[test]
fn stray_row() {
    let says = "node 1 is a row and no MarkerOpen of an entry";
    let unknown = Made::new(&[root(2), open(1, 0).over(0, 3)]).source("\\tr");
    assert_eq!(elements(&unknown, says), Err(ExportError::StrayRow { node: 1 }));
    let text = Made::new(&[root(2), node(NodeKind::Text).over(0, 3)]).source("\\tr").entry("q", PARA);
    assert_eq!(elements(&text, says), Err(ExportError::StrayRow { node: 1 }));
}
