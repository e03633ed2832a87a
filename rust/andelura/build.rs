//! Finds the archive of the proved library and has it linked, or says in one sentence what is
//! missing.

use std::env;
use std::fs;
use std::path::{Path, PathBuf};

/// The folder that holds `libandelura.a`, where the caller names one.
const LIB_DIR: &str = "ANDELURA_LIB_DIR";

/// A function that an archive from before this crate does not have.
const NEEDED: &[u8] = b"andelura_find_names";

fn main() {
    println!("cargo::rerun-if-env-changed={LIB_DIR}");
    println!("cargo::rerun-if-changed=build.rs");
    if let Err(sentence) = target_fits().and_then(|()| link()) {
        println!("cargo::error={sentence}");
    }
}

/// The library is machine code for x86-64 Linux.
fn target_fits() -> Result<(), String> {
    let is = |name: &str, value: &str| env::var(name).is_ok_and(|v| v == value);
    if is("CARGO_CFG_TARGET_ARCH", "x86_64")
        && is("CARGO_CFG_TARGET_OS", "linux")
        && is("CARGO_CFG_TARGET_ENV", "gnu")
    {
        return Ok(());
    }
    let target = env::var("TARGET").unwrap_or_default();
    Err(format!(
        "the proved library is for x86_64-unknown-linux-gnu and this build is for {target}: build \
         with the repository's scripts/cargo in place of cargo, which builds for x86-64 on Arm too"
    ))
}

/// Hands the archive to the linker.
fn link() -> Result<(), String> {
    let (folder, name) = place();
    let archive = folder.join(format!("lib{name}.a"));
    let shown = archive.display();
    println!("cargo::rerun-if-changed={shown}");
    let advice = "run scripts/library api in the repository, or set ANDELURA_LIB_DIR to the whole \
                  path of the folder that holds libandelura.a";
    let bytes = fs::read(&archive).map_err(|e| {
        format!("the archive of the proved library is missing ({shown}: {e}): {advice}")
    })?;
    if !bytes.windows(NEEDED.len()).any(|part| part == NEEDED) {
        return Err(format!(
            "the archive {shown} is older than this crate: {advice}"
        ));
    }
    println!("cargo::rustc-link-search=native={}", folder.display());
    println!("cargo::rustc-link-lib=static={name}");
    Ok(())
}

/// The archive's folder and name: where the caller says, else where the repository has it.
fn place() -> (PathBuf, &'static str) {
    let named = env::var_os(LIB_DIR).filter(|folder| !folder.is_empty());
    let here = env::var_os("CARGO_MANIFEST_DIR").unwrap_or_default();
    let own = Path::new(&here).join("../../crates/api/out");
    let name = if named.is_some() { "andelura" } else { "api" };
    let folder = named.map_or(own, PathBuf::from);
    (fs::canonicalize(&folder).unwrap_or(folder), name)
}
