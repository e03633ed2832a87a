//! Links the static libraries of bench_api, bench_words and api, by `scripts/library` for x86-64 and by `bench/lower` for another processor, and of libxml2 and expat what is installed.
use std::env;
use std::path::Path;
use std::process::Command;

fn main() {
    let here = env::var("CARGO_MANIFEST_DIR").expect("cargo sets it");
    let root = Path::new(&here).ancestors().find(|folder| folder.join("crates.txt").is_file()).expect("the repository");
    let x86 = env::var("CARGO_CFG_TARGET_ARCH").is_ok_and(|arch| arch == "x86_64");
    for name in ["bench_api", "bench_words", "api"] {
        let folder = if x86 { root.join("crates").join(name).join("out") } else { root.join("target").join("lowered") };
        let archive = folder.join(format!("lib{name}.a"));
        println!("cargo::rustc-link-search=native={}", folder.display());
        println!("cargo::rustc-link-lib=static={name}");
        println!("cargo::rerun-if-changed={}", archive.display());
        if !archive.is_file() {
            println!("cargo::error={} is missing: bench/run builds it", archive.display());
        }
    }
    // pkg-config knows the libraries of this machine: a build for another has none of them.
    let own = env::var("HOST") == env::var("TARGET");
    for (package, library, cfg) in [("libxml-2.0", "xml2", "libxml2"), ("expat", "expat", "expat")] {
        println!("cargo::rustc-check-cfg=cfg({cfg})");
        if own && Command::new("pkg-config").args(["--exists", package]).status().is_ok_and(|s| s.success()) {
            println!("cargo::rustc-cfg={cfg}");
            println!("cargo::rustc-link-lib={library}");
        }
    }
}
