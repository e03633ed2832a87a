//! Admitted tapes that look like scripture, with every odd case woven in.

use super::pool::{self, marker, odd_marker};
use super::rng::Rng;
use crate::tapes::*;

const MODE: u64 = 1;

/// Containers that may be open at once.
const DEPTH: usize = 64;

/// Tape `number` of `seed`.
pub fn structured(seed: u64, number: u64) -> Vec<u8> {
    parts(seed, number).file()
}

/// The same, before it is a file.
pub(super) fn parts(seed: u64, number: u64) -> Parts {
    let mut r = Rng::new(MODE, seed, number);
    let fuel = r.pick(&[4, 12, 30, 60]);
    let mut writer = Writer { r, fuel };
    let items = if writer.r.once_in(30) { writer.tower() } else { writer.book() };
    // Markers above a shortened table are unknown.
    let known = if writer.r.once_in(8) { writer.r.below(pool::ENTRIES.len()) } else { pool::ENTRIES.len() };
    let root_end = writer.r.once_in(3);
    tape(&items, &pool::ENTRIES[..known], root_end)
}

struct Writer {
    r: Rng,
    /// Containers and verses that may still be made.
    fuel: usize,
}

/// A container of a known name, its text being `\` and that name.
fn named(name: &str, close: u8, children: Vec<Item>) -> Item {
    container(marker(name), &format!("\\{name}"), close, children)
}

/// A container of an entry whose name another entry has too.
fn odd(entry: EntryOf<'static>, close: u8, children: Vec<Item>) -> Item {
    container(odd_marker(entry), &format!("\\{}", entry.0), close, children)
}

fn with_flags(item: Item, more: u8) -> Item {
    match item {
        Item::Container { flags, marker, text, children, close } => {
            Item::Container { flags: flags | more, marker, text, children, close }
        }
        other => other,
    }
}

fn with_synthetic_close(item: Item) -> Item {
    match item {
        Item::Container { flags, marker, text, children, close } => {
            let close = Shut { flags: SYNTHETIC, ..close };
            Item::Container { flags, marker, text, children, close }
        }
        other => other,
    }
}

impl Writer {
    /// Uses up one unit of fuel; false if none was left.
    fn burn(&mut self) -> bool {
        let left = self.fuel > 0;
        self.fuel = self.fuel.saturating_sub(1);
        left
    }

    /// The item, at times with a synthetic close.
    fn ended(&mut self, item: Item) -> Item {
        if self.r.once_in(4) { with_synthetic_close(item) } else { item }
    }

    fn book(&mut self) -> Vec<Item> {
        let mut items = Vec::new();
        if !self.r.once_in(6) {
            items.push(self.id());
        }
        if self.r.once_in(4) {
            items.push(named("usfm", BLOCK_END, vec![text(" 3.0")]));
        }
        items.extend(self.blocks(DEPTH));
        items
    }

    fn id(&mut self) -> Item {
        let raw = match self.r.below(8) {
            0 => String::new(),
            1 => pool::blank(&mut self.r),
            2 => pool::prose(&mut self.r),
            3 => " GEN".into(),
            4 => " A\"<&>\u{a0}b \u{2003}c".into(),
            _ => format!(" GEN {}", pool::prose(&mut self.r)),
        };
        let mut children = vec![text(&raw)];
        if self.r.once_in(8) {
            children.clear();
        }
        if self.r.once_in(6) {
            children.push(self.verse());
        }
        named("id", BLOCK_END, children)
    }

    fn blocks(&mut self, depth: usize) -> Vec<Item> {
        let mut items = Vec::new();
        while self.burn() && !self.r.once_in(10) {
            self.block(depth, &mut items);
        }
        items
    }

    fn block(&mut self, depth: usize, items: &mut Vec<Item>) {
        if depth == 0 {
            return items.push(self.single());
        }
        let inner = depth - 1;
        match self.r.below(24) {
            0..=6 => items.push(self.paragraph(inner)),
            7..=9 => self.chapter_with_numbers(inner, items),
            10..=12 => self.verse_run(depth, items),
            13 | 14 => (0..self.r.within(1, 3)).for_each(|_| {
                let row = self.row(inner);
                items.push(row);
            }),
            15 => items.push(self.sidebar(inner)),
            16 => items.push(self.periph(inner)),
            17 => items.push(self.unknown(inner)),
            18 => items.push(self.figure(inner)),
            19 => items.push(self.odd_block(inner)),
            20 => items.push(self.id()),
            21 => items.extend(self.one_inline(depth)),
            22 => items.push(self.empty_block()),
            _ => items.push(self.single()),
        }
    }

    fn paragraph(&mut self, inner: usize) -> Item {
        let names = ["p", "q", "s", "b", "ide", "h", "rem", "cp"];
        let name = self.r.pick(&names);
        let level = self.r.pick(&["", "", "", "1", "2<", "\"&", " x", "*", "|", "\\"]);
        let children = self.inlines(inner);
        let item = container(marker(name), &format!("\\{name}{level}"), BLOCK_END, children);
        self.ended(item)
    }

    fn empty_block(&mut self) -> Item {
        let name = self.r.pick(&["p", "b", "tr", "esb", "periph", "id", "fig", "ref", "rem"]);
        match self.r.below(3) {
            0 => named(name, BLOCK_END, Vec::new()),
            1 => leaf(marker(name), &format!("\\{name}")),
            _ => named(name, BLOCK_END, vec![text(&pool::blank(&mut self.r))]),
        }
    }

    /// Entries whose name, category and element do not go together.
    fn odd_block(&mut self, inner: usize) -> Item {
        #[rustfmt::skip]
        const ODD: [EntryOf<'static>; 16] = [
            ("fig", 3, 0), ("fig", 5, 0), ("fig", 6, 0), ("id", 3, 0), ("id", 4, 0), ("usfm", 4, 0), ("tr", 3, 0), ("line", 4, 3), ("usfm", 3, 3),
            ("esb", 4, 1), ("periph", 5, 2), ("ref", 3, 0), ("cat", 3, 0), ("xt", 5, 0), ("", 3, 0), ("", 4, 0),
        ];
        let entry = self.r.pick(&ODD);
        let close = self.r.pick(&[CLOSE, BLOCK_END]);
        let children = if self.r.once_in(2) { self.blocks(inner) } else { self.inlines(inner) };
        let item = odd(entry, close, children);
        self.ended(item)
    }

    // --- chapters and verses ---

    fn chapter(&mut self) -> Item {
        let number = self.r.pick(&[1, 2, 3, 0, 150, u32::MAX]);
        let text = self.r.pick(&["\\c 1", "\\c", "", "\\c2", "\\cé"]);
        let entry = self.r.pick(&["c", "c", "c", "p", "v"]);
        single(CHAPTER, marker(entry), number, text)
    }

    fn verse(&mut self) -> Item {
        let shown = match self.r.below(14) {
            0 => "\\v".to_string(),
            1 => "\\v11".into(),
            2 => "\\v3b".into(),
            3 => "\\+v4é".into(),
            4 => "v 9".into(),
            5 => String::new(),
            6 => format!("\\v{}5", self.r.pick(&pool::WHITE)),
            7 => "\\v 1\" 2".into(),
            8 => "\\v &amp;".into(),
            9 => "\\v5*".into(),
            10 => format!("\\v {}", pool::word(&mut self.r)),
            n => format!("\\v {}", n - 10),
        };
        // `vv` is as long as a short name, or longer; `v` never cuts inside a character here.
        let entry = if shown.is_ascii() && self.r.once_in(6) { "vv" } else { "v" };
        let known = if self.r.once_in(12) { UNKNOWN } else { marker(entry) };
        single(VERSE, known, 1, &shown)
    }

    fn chapter_with_numbers(&mut self, inner: usize, items: &mut Vec<Item>) {
        items.push(self.chapter());
        if self.r.once_in(2) {
            self.numbers("ca", "cp", inner, items);
        }
    }

    fn verse_with_numbers(&mut self, depth: usize, items: &mut Vec<Item>) {
        items.push(self.verse());
        if depth > 0 && self.r.once_in(2) {
            self.numbers("va", "vp", depth - 1, items);
        }
    }

    /// Numbers that fold, in any order and number, with blanks, wrong anchors and markup between.
    fn numbers(&mut self, alt: &str, published: &str, inner: usize, items: &mut Vec<Item>) {
        for _ in 0..self.r.within(1, 4) {
            if self.r.once_in(2) {
                items.push(text(&pool::blank(&mut self.r)));
            }
            let name = match self.r.below(10) {
                0 => self.r.pick(&["ca", "cp", "va", "vp"]),
                1..=5 => alt,
                _ => published,
            };
            items.push(self.number(name, inner));
        }
    }

    fn number(&mut self, name: &str, inner: usize) -> Item {
        let mut children = vec![text(&format!(" {}", pool::word(&mut self.r)))];
        match self.r.below(12) {
            0 => children.clear(),
            1 => children.push(text(&pool::prose(&mut self.r))),
            2 => children.push(self.single()),
            3 if inner > 0 => children.push(named("add", CLOSE, vec![text("m")])),
            4 => children.push(leaf(UNKNOWN, "\\z")),
            5 => children = vec![text(&pool::blank(&mut self.r))],
            6 => children.push(self.verse()),
            _ => {}
        }
        let written = format!("\\{name}");
        match self.r.below(10) {
            0 => leaf(marker(name), &written),
            1 => container(UNKNOWN, &written, self.r.pick(&[CLOSE, BLOCK_END]), children),
            2 => container(odd_marker(("va", 5, 0)), &written, CLOSE, children),
            3 => container(odd_marker(("vp", 6, 0)), &format!("\\+{name}"), CLOSE, children),
            _ => named(name, CLOSE, children),
        }
    }

    /// Verses and inline content at block level.
    fn verse_run(&mut self, depth: usize, items: &mut Vec<Item>) {
        self.verse_with_numbers(depth, items);
        for _ in 0..self.r.below(4) {
            match self.r.below(8) {
                0 if depth > 0 => items.push(odd(("line", 4, 3), BLOCK_END, vec![named("tc", CLOSE, vec![text("x")])])),
                1 if depth > 0 => items.push(odd(("esb", 4, 1), BLOCK_END, vec![text("x ")])),
                2 if depth > 0 => items.push(named("cat", CLOSE, vec![text("c")])),
                _ => items.extend(self.one_inline(depth)),
            }
        }
    }

    // --- tables, sidebars, peripherals ---

    fn row(&mut self, inner: usize) -> Item {
        let mut children = Vec::new();
        for _ in 0..self.r.below(5) {
            let cell = match self.r.below(8) {
                0 => self.single(),
                1 => self.verse(),
                2 if inner > 0 => self.unknown(inner - 1),
                _ if inner > 0 => self.cell(inner - 1),
                _ => leaf(marker("tc"), "\\tc1"),
            };
            children.push(cell);
        }
        named("tr", BLOCK_END, children)
    }

    fn cell(&mut self, inner: usize) -> Item {
        let name = self.r.pick(&["th", "thr", "thc", "tc", "tcr", "tcc"]);
        let written = format!("\\{name}{}", self.r.pick(&["1", "2-3", "", " "]));
        let children = match self.r.below(6) {
            0 => Vec::new(),
            1 => vec![text(&pool::blank(&mut self.r))],
            2 => vec![attribute("|x"), text(" ")],
            3 => vec![single(ERROR, UNKNOWN, 0, "e")],
            _ => self.inlines(inner),
        };
        let close = self.r.pick(&[CLOSE, BLOCK_END]);
        container(marker(name), &written, close, children)
    }

    /// A `cat` with a text, with none, with more than one, or without content.
    fn category(&mut self, depth: usize) -> Item {
        if depth == 0 || self.r.once_in(8) {
            return leaf(marker("cat"), "\\cat");
        }
        let children = match self.r.below(6) {
            0 => Vec::new(),
            1 => vec![text(&pool::blank(&mut self.r))],
            2 => vec![attribute("|a"), text("b"), text("c")],
            3 => vec![self.verse()],
            _ => vec![text(&pool::prose(&mut self.r))],
        };
        let known = if self.r.once_in(6) { UNKNOWN } else { marker("cat") };
        container(known, "\\cat", CLOSE, children)
    }

    fn sidebar(&mut self, inner: usize) -> Item {
        let mut children = Vec::new();
        for _ in 0..self.r.below(3) {
            children.push(self.category(inner));
        }
        match self.r.below(6) {
            0 => children.push(text("stray")),
            1 => children.push(self.verse()),
            _ => children.extend(self.blocks(inner)),
        }
        // A `cat` anywhere: it leaves the list of blocks and of folds.
        if self.r.once_in(3) {
            let at = self.r.below(children.len() + 1);
            children.insert(at, self.category(inner));
        }
        let close = self.r.pick(&[CLOSE, BLOCK_END]);
        let item = named("esb", close, children);
        self.ended(item)
    }

    fn periph(&mut self, inner: usize) -> Item {
        let mut children = Vec::new();
        if !self.r.once_in(4) {
            children.push(text(&pool::prose(&mut self.r)));
        }
        for _ in 0..self.r.below(3) {
            children.push(attribute(&pool::attribute(&mut self.r)));
        }
        if !self.r.once_in(4) {
            children.extend(self.blocks(inner));
        }
        named("periph", BLOCK_END, children)
    }

    // --- inline content ---

    fn inlines(&mut self, depth: usize) -> Vec<Item> {
        let mut items = Vec::new();
        for _ in 0..self.r.below(6) {
            items.extend(self.one_inline(depth));
        }
        items
    }

    fn one_inline(&mut self, depth: usize) -> Vec<Item> {
        if depth == 0 || !self.burn() {
            return vec![self.single()];
        }
        let inner = depth - 1;
        vec![match self.r.below(20) {
            0..=3 => text(&pool::prose(&mut self.r)),
            4 | 5 => {
                let mut items = Vec::new();
                self.verse_with_numbers(depth, &mut items);
                return items;
            }
            6..=9 => self.character(inner),
            10 => self.note(inner),
            11 => self.figure(inner),
            12 => self.cross_reference(inner),
            13 => self.reference(inner),
            14 => self.milestone(inner),
            15 => self.unknown(inner),
            16 => self.chapter(),
            17 => self.odd_inline(inner),
            _ => self.single(),
        }]
    }

    /// A node that is no container.
    fn single(&mut self) -> Item {
        match self.r.below(12) {
            0 => single(ERROR, UNKNOWN, 0, &pool::word(&mut self.r)),
            1 => attribute(&pool::attribute(&mut self.r)),
            2 => leaf(UNKNOWN, "\\zleaf"),
            3 => leaf(marker("nd"), "\\nd"),
            4 => Item::Leaf { flags: SYNTHETIC | NESTED, marker: marker("xt"), text: "\\+xt".into() },
            5 => text(&pool::blank(&mut self.r)),
            6 => leaf(marker(self.r.pick(&["ts", "f", "ref", "fig", "usfm", "p", "cat"])), "\\ref"),
            _ => text(&pool::prose(&mut self.r)),
        }
    }

    fn character(&mut self, inner: usize) -> Item {
        let names = ["nd", "add", "w", "wa", "wg", "wh", "rb", "jmp", "qt", "xt", "fr", "va", "ca", "cat", "tc"];
        let name = self.r.pick(&names);
        let mut children = self.inlines(inner);
        if self.r.once_in(3) {
            children.push(attribute(&pool::attribute(&mut self.r)));
        }
        let close = if self.r.once_in(4) { BLOCK_END } else { CLOSE };
        let written = format!("\\{}{name}{}", self.r.pick(&["", "+"]), self.r.pick(&["", "", " ", "<", "1"]));
        let item = container(marker(name), &written, close, children);
        self.ended(item)
    }

    fn note(&mut self, inner: usize) -> Item {
        let name = self.r.pick(&["f", "x", "fe"]);
        let mut children = Vec::new();
        match self.r.below(8) {
            0 => {}
            1 => children.push(text(&pool::blank(&mut self.r))),
            2 => children.push(text(&pool::prose(&mut self.r))),
            3 => children.push(text("\"<")),
            _ => children.push(text(&format!(" {} {}", self.r.pick(&["+", "-", "a"]), pool::prose(&mut self.r)))),
        }
        if self.r.once_in(3) {
            children.push(self.category(inner));
        }
        for _ in 0..self.r.below(4) {
            match self.r.below(8) {
                0 | 1 if inner > 0 => {
                    let inside = self.inlines(inner - 1);
                    let name = self.r.pick(&["fr", "ft", "xt"]);
                    children.push(with_synthetic_close(named(name, CLOSE, inside)));
                }
                2 => children.push(self.verse()),
                3 => children.push(self.category(inner)),
                4 if inner > 0 => children.push(self.number("va", inner - 1)),
                5 => children.push(text(&pool::prose(&mut self.r))),
                _ => children.extend(self.one_inline(inner)),
            }
        }
        named(name, CLOSE, children)
    }

    fn figure(&mut self, inner: usize) -> Item {
        let mut children = Vec::new();
        if !self.r.once_in(3) {
            children.push(text(&pool::prose(&mut self.r)));
        }
        match self.r.below(6) {
            0 => {}
            1 | 2 => children.push(attribute(&pool::legacy_fields(&mut self.r))),
            3 => children.push(attribute("|src=\"a.jpg\" size=\"col\" ref=\"1.1\"")),
            4 => {
                children.push(attribute(&pool::attribute(&mut self.r)));
                children.push(attribute(&pool::legacy_fields(&mut self.r)));
            }
            _ => children.push(attribute(&pool::attribute(&mut self.r))),
        }
        if self.r.once_in(3) {
            children.extend(self.one_inline(inner));
        }
        if self.r.once_in(3) { odd(("fig", 3, 0), BLOCK_END, children) } else { named("fig", CLOSE, children) }
    }

    /// `xt`, nested or not, with or without content, `href` and `ref`.
    fn cross_reference(&mut self, inner: usize) -> Item {
        let mut children = if self.r.once_in(5) { Vec::new() } else { self.inlines(inner) };
        if self.r.once_in(2) {
            children.push(text(&pool::solid(&mut self.r)));
        }
        match self.r.below(5) {
            0 => {}
            1 => children.push(attribute(&pool::attribute(&mut self.r))),
            2 => children.push(attribute("|x=\"1\" href=\"GEN <1:1\" href=\"2\"")),
            _ => children.push(attribute("|GEN 1:1")),
        }
        if inner > 0 && self.r.once_in(4) {
            children.push(self.reference(inner - 1));
        }
        let item = container(marker("xt"), "\\+xt", CLOSE, children);
        let item = if self.r.once_in(4) { item } else { with_flags(item, NESTED) };
        self.ended(item)
    }

    fn reference(&mut self, inner: usize) -> Item {
        let mut children = self.inlines(inner);
        if !self.r.once_in(4) {
            let forms = ["|MAT 1:1", "|loc=\"MAT 1:1\"", "|loc=\"a\" loc=\"b\"", "|gen=\"x\"", "|"];
            children.push(attribute(self.r.pick(&forms)));
        }
        // The written name decides: any known entry, a block's too.
        let entry = self.r.pick(&["ref", "nd", "p", "f"]);
        let known = if self.r.once_in(6) { UNKNOWN } else { marker(entry) };
        container(known, "\\ref", self.r.pick(&[CLOSE, BLOCK_END]), children)
    }

    fn milestone(&mut self, inner: usize) -> Item {
        let written = self.r.pick(&["\\ts-s", "\\qt1-s", "\\zms", "\\fig", "\\ts\\*"]);
        if self.r.once_in(3) {
            return leaf(marker("ts"), written);
        }
        let mut children: Vec<Item> = (0..self.r.below(3)).map(|_| attribute(&pool::attribute(&mut self.r))).collect();
        if self.r.once_in(3) {
            children.extend(self.one_inline(inner));
        }
        container(marker(self.r.pick(&["ts", "zms"])), written, CLOSE, children)
    }

    /// An unknown marker of each shape.
    fn unknown(&mut self, inner: usize) -> Item {
        let written = self.r.pick(&["\\zz", "\\z<\"", "\\", "", "\\va", "\\cat", "\\ref", "\\zz x", "\\é\u{2003}"]);
        match self.r.below(5) {
            0 => leaf(UNKNOWN, written),
            1 | 2 => container(UNKNOWN, written, CLOSE, self.inlines(inner)),
            _ => container(UNKNOWN, written, BLOCK_END, self.inlines(inner)),
        }
    }

    /// Blocks, rows and sidebars inside running text, and entries that do not go together.
    fn odd_inline(&mut self, inner: usize) -> Item {
        match self.r.below(8) {
            0 => self.paragraph(inner),
            1 => self.row(inner),
            2 => self.sidebar(inner),
            3 => self.periph(inner),
            4 => self.id(),
            5 => named("usfm", BLOCK_END, vec![text(" 3.0"), single(VERSE, marker("v"), 0, "\\v 1")]),
            _ => self.odd_block(inner),
        }
    }

    // --- depth ---

    /// Containers inside each other, up to 64, with some content at every level.
    fn tower(&mut self) -> Vec<Item> {
        let height = self.r.within(50, DEPTH);
        let blocks = self.r.below(height);
        let mut items = self.single_list();
        for level in (0..height).rev() {
            items = vec![if level < blocks { self.block_around(items) } else { self.inline_around(items) }];
            if self.r.once_in(4) {
                items.insert(0, self.single());
            }
            if self.r.once_in(4) {
                items.push(self.single());
            }
        }
        items
    }

    fn single_list(&mut self) -> Vec<Item> {
        (0..self.r.below(3)).map(|_| self.single()).collect()
    }

    fn block_around(&mut self, mut items: Vec<Item>) -> Item {
        if self.r.once_in(4) {
            items.push(leaf(marker("p"), "\\p"));
        }
        named(self.r.pick(&["esb", "periph"]), BLOCK_END, items)
    }

    fn inline_around(&mut self, mut items: Vec<Item>) -> Item {
        match self.r.below(8) {
            0 => named("p", BLOCK_END, items),
            1 => named("f", CLOSE, items),
            2 => container(UNKNOWN, "\\zz", CLOSE, items),
            3 => container(UNKNOWN, "\\zz", BLOCK_END, items),
            4 => named("ref", CLOSE, items),
            5 | 6 => {
                items.push(attribute("|GEN 1"));
                with_flags(named("xt", CLOSE, items), NESTED)
            }
            _ => named("nd", CLOSE, items),
        }
    }
}
