//! The serializer: usx.rs as published with the module `asked` behind it, render.rs with the patch of is_table_row.diff (see build.rs).
//! Beside it the exporter, where it stands in the Rust.

#[path = "../../rust/usfm3-tape/tape_file.rs"]
pub(crate) mod tape_file;

include!(concat!(env!("OUT_DIR"), "/modules.rs"));
