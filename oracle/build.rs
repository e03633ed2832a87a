//! Writes into OUT_DIR what the unchanged sources need: the marker tables, render.rs with its one patch, and usx.rs with one module behind it.

use std::path::{Path, PathBuf};
use std::{env, fs};

const RENDER: &str = "../docs/src/crates/usfm3/src/serialize/render.rs";
const PATCH: &str = "is_table_row.diff";
const USX: &str = "../docs/src/crates/usfm3/src/serialize/usx.rs";
const ASKED: &str = "src/asked.rs";
const TABLES: &str = "src/marker_tables.rs";

fn main() {
    let out = PathBuf::from(env::var_os("OUT_DIR").expect("OUT_DIR"));
    for input in [RENDER, PATCH, USX, TABLES] {
        println!("cargo::rerun-if-changed={input}");
    }
    fs::copy(TABLES, out.join("marker_tables.rs")).expect("marker_tables.rs");
    let render = out.join("render.rs");
    fs::write(&render, apply(&read(RENDER), &read(PATCH))).expect("render.rs");
    // A module behind usx.rs may call its private functions.
    let asked = env::current_dir().expect("the package's folder").join(ASKED);
    let usx = out.join("usx.rs");
    fs::write(&usx, read(USX) + &declared(&asked, "asked")).expect("usx.rs");
    let modules = declared(&render, "render") + &declared(&usx, "usx");
    fs::write(out.join("modules.rs"), modules).expect("modules.rs");
}

/// The declaration of a module; `#[path]` takes a literal, so it is written here.
fn declared(file: &Path, name: &str) -> String {
    format!("#[path = {file:?}]\npub(crate) mod {name};\n")
}

fn read(path: impl AsRef<Path>) -> String {
    let path = path.as_ref();
    fs::read_to_string(path).unwrap_or_else(|e| panic!("{}: {e}", path.display()))
}

/// Applies a unified diff of one file; every context and removed line must stand where the diff says.
fn apply(text: &str, diff: &str) -> String {
    let old: Vec<&str> = text.split_inclusive('\n').collect();
    let mut new = String::new();
    let mut at = 0;
    assert!(diff.contains("\n@@ -"), "the patch has no hunk");
    for line in diff.split_inclusive('\n').skip_while(|line| !line.starts_with("@@ ")) {
        match line.as_bytes()[0] {
            b'@' => {
                let start = first_old_line(line) - 1;
                assert!(start >= at, "hunks out of order");
                new.extend(old[at..start].iter().copied());
                at = start;
            }
            b'+' => new.push_str(&line[1..]),
            sign @ (b' ' | b'-') => {
                assert_eq!(old.get(at), Some(&&line[1..]), "the patch does not fit line {}", at + 1);
                if sign == b' ' {
                    new.push_str(old[at]);
                }
                at += 1;
            }
            _ => panic!("not a line of a unified diff: {line}"),
        }
    }
    new.extend(old[at..].iter().copied());
    new
}

/// The number behind `@@ -`.
fn first_old_line(hunk: &str) -> usize {
    let rest = hunk.strip_prefix("@@ -").expect("a hunk");
    let digits: String = rest.chars().take_while(char::is_ascii_digit).collect();
    digits.parse().expect("a line number")
}
