//! A million numbers in decimal digits: written to a buffer, and measured into an empty window.

use crate::api;
use crate::measure::{row, Row};
use std::fmt::Write;
use std::hint::black_box;

fn ours(numbers: &[u32], out: &mut [u8]) -> usize {
    numbers.iter().fold(0, |at, &n| api::put_number(out, at, 0, n))
}

fn rust(numbers: &[u32], out: &mut String) {
    for n in numbers {
        write!(out, "{n}").expect("a String takes all");
    }
}

fn rows_of(what: &str, numbers: &[u32]) -> Vec<Row> {
    let mut want = String::new();
    rust(numbers, &mut want);
    let mut out = vec![0u8; want.len()];
    assert_eq!(ours(numbers, &mut out), want.len());
    assert!(out == want.as_bytes());
    let (bytes, mut kept) = (want.len(), want);
    let mut both = |name: &str, out: &mut [u8]| {
        row(
            format!("{what}, {name}"),
            bytes,
            &mut || {
                black_box(ours(black_box(numbers), black_box(out)));
            },
            &mut || {
                kept.clear();
                rust(black_box(numbers), &mut kept);
                black_box(&kept);
            },
        )
    };
    vec![both("written", &mut out), both("measured; Rust writes", &mut [])]
}

pub fn rows() -> Vec<Row> {
    let small: Vec<u32> = (0..1 << 20).map(|i| i % 151).collect();
    let large: Vec<u32> = (0..1u32 << 20).map(|i| i.wrapping_mul(0x9E37_79B1)).collect();
    let mut all = rows_of("numbers below 151", &small);
    all.extend(rows_of("numbers of 32 bits", &large));
    all
}
