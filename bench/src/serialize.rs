//! `serialize` against the Rust's `to_usx`: books as they double, books of the caller's, and the families that the Rust is slow on.

use crate::measure::best;
use crate::{andelura, api};
use oracle::loader;
use oracle::tapes::{attribute, container, single, tape, text, Item, BLOCK_END, CHAPTER, CLOSE, ERROR, TEXT, UNKNOWN, VERSE};

const ENTRIES: [(&str, u8, u8); 11] =
    [("id", 0, 0), ("c", 1, 0), ("v", 2, 0), ("p", 3, 0), ("w", 4, 0), ("nd", 4, 0), ("f", 5, 0), ("fr", 4, 0), ("ft", 4, 0), ("tr", 3, 3), ("tc1", 4, 0)];

fn entry(name: &str) -> u16 {
    ENTRIES.iter().position(|e| e.0 == name).expect("an entry") as u16
}

fn span(name: &str, children: Vec<Item>) -> Item {
    container(entry(name), &format!("\\{name}"), CLOSE, children)
}

fn block(name: &str, children: Vec<Item>) -> Item {
    container(entry(name), &format!("\\{name}"), BLOCK_END, children)
}

/// A word of a verse with its lemma's number.
fn word(k: usize) -> Vec<Item> {
    let spelled = ["beginning", "God", "created", "heaven", "earth", "& darkness"][k % 6];
    let number = attribute(&format!("|strong=\"H{:04}\"", k * 37 % 9000));
    vec![span("w", vec![text(&format!(" {spelled}")), number]), text(", and the ")]
}

/// A verse: its number, words, the divine name, and a note in every fifth.
fn verse(n: usize) -> Vec<Item> {
    let mut items = vec![single(VERSE, entry("v"), 0, &format!("\\v {n}")), text(" In the ")];
    items.extend((0..6).flat_map(|k| word(n * 7 + k)));
    items.push(span("nd", vec![text(" Lord")]));
    items.push(text(" was upon\n the face of the deep. "));
    if n % 5 == 0 {
        let inside = vec![text(" + "), span("fr", vec![text(" 1:2 ")]), span("ft", vec![text(" Heb. without form")])];
        items.push(span("f", inside));
    }
    items
}

/// A book of about so many nodes: chapters of thirty verses, a paragraph for every third.
fn book(nodes: usize) -> Vec<u8> {
    let mut items = vec![block("id", vec![text(" GEN A book")])];
    let (mut made, mut verses) = (4, 0);
    while made + 120 < nodes {
        if verses % 30 == 0 {
            let number = verses / 30 + 1;
            items.push(single(CHAPTER, entry("c"), number as u32 % 151, &format!("\\c {number}")));
            made += 1;
        }
        let inside: Vec<Item> = (0..3).flat_map(|k| verse(verses % 30 + k + 1)).collect();
        made += 2 + 3 * 31 + 7;
        items.push(block("p", inside));
        verses += 3;
    }
    tape(&items, &ENTRIES, false).file()
}

/// A word and so many blank texts, each of `size` spaces.
fn blanks(count: usize, size: usize) -> Vec<u8> {
    let blank = " ".repeat(size);
    let mut inside = vec![text("word")];
    inside.extend((0..count).map(|_| text(&blank)));
    tape(&[block("p", inside)], &ENTRIES, false).file()
}

/// A tape whose empty texts all are the span of its first text, so many spaces.
fn shared(items: &[Item], size: usize) -> Vec<u8> {
    let first = block("p", vec![text(&" ".repeat(size))]);
    let mut parts = tape(&[&[first], items].concat(), &ENTRIES, false);
    let blank = parts.nodes[2];
    for node in parts.nodes.iter_mut().filter(|n| n.kind == TEXT && n.length == 0) {
        (node.start, node.length) = (blank.start, blank.length);
    }
    parts.file()
}

/// A word and so many blank texts of one span.
fn shared_run(count: usize, size: usize) -> Vec<u8> {
    let blanks = (0..count).map(|_| text(""));
    shared(&[block("p", [text("word")].into_iter().chain(blanks).collect())], size)
}

/// Paragraphs, chars, verses and cells, so many of each, with a blank of one span in each or behind it.
fn shared_apart(count: usize, size: usize) -> Vec<u8> {
    let paras = (0..count).map(|_| block("p", vec![text("")]));
    let chars = (0..count).flat_map(|_| [span("nd", vec![text("")]), text("")]);
    let verses = (0..count).flat_map(|n| [single(VERSE, entry("v"), 0, &format!("\\v {n}")), text("")]);
    let cells = (0..count).map(|_| span("tc1", vec![text("")]));
    let row = block("tr", cells.collect());
    let mut items: Vec<Item> = paras.collect();
    items.extend([block("p", chars.collect()), block("p", verses.collect()), row]);
    shared(&items, size)
}

/// So many Errors in a marker, and as many behind it.
fn errors(count: usize) -> Vec<u8> {
    let error = |_| single(ERROR, UNKNOWN, 0, "x");
    let mut inside = vec![span("nd", (0..count).map(error).collect())];
    inside.extend((0..count).map(error));
    tape(&[block("p", inside)], &ENTRIES, false).file()
}

/// Uses a result up, so that its making is not left out.
fn sink<T>(result: T) {
    std::hint::black_box(result);
}

/// Times of our whole call, of its admission and measuring, of admission alone, of the whole text as one window, of all that a caller in Rust asks for, of the Rust's text and of its loading.
fn times(name: &str, file: &[u8], runs: usize) -> (usize, [f64; 7]) {
    let document = loader::load(file).unwrap_or_else(|r| panic!("{name}: refused by {}", r.0));
    let written = document.to_usx();
    let mut out = vec![0; written.len()];
    assert_eq!(api::serialize(file, &mut out), (0, written.len()), "{name}");
    assert!(out == written.as_bytes(), "{name}");
    let mut shown = vec![0; written.len()];
    assert_eq!(api::window(file, 0, &mut shown), (0, [written.len() as u64; 2]), "{name}");
    assert!(shown == out, "{name}");
    assert!(andelura::serialize(file).is_ok_and(|text| text == out), "{name}");
    let taken = best(
        runs,
        [
            &mut || sink(api::serialize(file, &mut out)),
            &mut || sink(api::serialize(file, &mut [])),
            &mut || sink(api::admit(file)),
            &mut || sink(api::window(file, 0, &mut shown)),
            &mut || sink(andelura::serialize(file)),
            &mut || sink(document.to_usx()),
            &mut || sink(loader::load(file).is_ok()),
        ],
    );
    (written.len(), taken)
}

/// One row: what a byte of the text takes, and what ours takes of the Rust's.
fn row(name: &str, file: &[u8], runs: usize) {
    let (bytes, [whole, measured, admitted, shown, job, rust, loaded]) = times(name, file, runs);
    let nodes = u32::from_le_bytes(file[4..8].try_into().expect("four bytes"));
    let per = |t: f64| t * 1e9 / bytes as f64;
    let [a, m, w] = [admitted, measured - admitted, whole - measured].map(per);
    let ours = format!("{:.2} = {a:.2} + {m:.2} + {w:.2}", per(whole));
    let [job, exact, window] = [job, whole, shown].map(|t| t / rust);
    let both = whole / (rust + loaded);
    println!("{name:<28} {nodes:>6} {bytes:>8} {ours:>28} {:>7.2} {:>6.2} {job:>7.2} {exact:>7.2} {window:>7.2} {both:>7.2}", per(rust), per(loaded));
}

/// Ours alone, where the Rust takes time with the square of the tape.
fn alone(name: &str, file: &[u8]) {
    let mut out = vec![0; 1 << 24];
    let (number, length) = api::serialize(file, &mut out);
    let [whole] = best(3, [&mut || sink(api::serialize(file, &mut out))]);
    println!("{name:<34} file {:>9} bytes, number {number}, text {length} bytes: ours {:>8.2} ms", file.len(), whole * 1e3);
}

/// The Rust alone, once.
fn slow(name: &str, file: &[u8]) {
    let document = loader::load(file).unwrap_or_else(|r| panic!("{name}: refused by {}", r.0));
    let [rust] = best(1, [&mut || sink(document.to_usx())]);
    println!("{name:<34} the Rust {:>8.2} ms", rust * 1e3);
}

/// A file's name with its folder's.
fn short(name: &str) -> &str {
    name.rmatch_indices('/').nth(1).map_or(name, |(at, _)| &name[at + 1..])
}

pub fn print(tapes: &[String]) {
    println!("serialize, ns for a byte of the text: ours into an exact buffer = admission + measuring + writing; the Rust's to_usx; its loader. Then ours / to_usx:");
    println!("job, all that rust/andelura's serialize does (admission, memory, one walk); exact, into an exact buffer; window, one of the whole text. Last exact / (to_usx + loader)");
    println!("{:<28} {:>6} {:>8} {:>28} {:>7} {:>6} {:>7} {:>7} {:>7} {:>7}", "", "nodes", "bytes", "ours", "to_usx", "loader", "job", "exact", "window", "/both");
    for nodes in [10_000, 20_000, 40_000, 80_000, 160_000, 180_000] {
        row("generated", &book(nodes), 15);
    }
    for name in tapes {
        let file = std::fs::read(name).unwrap_or_else(|e| panic!("{name}: {e}"));
        row(short(name), &file, 15);
    }
    slow("a word, 200 blanks of one 8 KB span", &shared_run(200, 8_000));
    for count in [1_000, 2_000, 4_000] {
        slow(&format!("a word, {count} blank texts"), &blanks(count, 1));
        slow(&format!("{count} Errors, as many behind"), &errors(count));
    }
    for (count, size) in [(2_000, 32_000), (4_000, 32_000), (2_000, 64_000), (200_000, 4_000_000)] {
        alone(&format!("a word, {count} blanks, a span of {size}"), &shared_run(count, size));
    }
    for (count, size) in [(500, 32_000), (1_000, 32_000), (500, 64_000), (20_000, 3_000_000)] {
        alone(&format!("5 * {count} blanks apart, a span of {size}"), &shared_apart(count, size));
    }
    for count in [1_000, 2_000, 4_000, 64_000, 128_000] {
        alone(&format!("a word, {count} blank texts"), &blanks(count, 1));
        alone(&format!("{count} Errors, as many behind"), &errors(count));
    }
}
