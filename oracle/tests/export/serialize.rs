//! The published serializer, and the exporter beside it.

#[path = "../../../docs/src/crates/usfm3/src/serialize/render.rs"]
mod render;
#[path = "../../../rust/usfm3-tape/tape_file.rs"]
pub(crate) mod tape_file;
#[path = "../../../docs/src/crates/usfm3/src/serialize/usx.rs"]
mod usx;
