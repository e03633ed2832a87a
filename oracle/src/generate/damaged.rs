//! Tapes on both sides of every boundary of refusals 1 to 7, pairs of faults, and tapes with bytes changed at random.

use super::rng::Rng;
use super::structured::structured;
use crate::tapes::*;

const MODE: u64 = 3;

/// A tape with the number it is meant to get; none where bytes were changed at random.
pub struct Damaged {
    pub file: Vec<u8>,
    pub number: Option<u8>,
}

/// A change to the parts of a tape. `faulty` asks for the far side of the boundary.
#[derive(Clone, Copy)]
struct Fault {
    number: u8,
    change: fn(&mut Parts, &mut Rng, bool),
}

/// Tape `number` of `seed`.
pub fn damaged(seed: u64, number: u64) -> Damaged {
    let mut r = Rng::new(MODE, seed, number);
    let base = base(&mut r);
    match r.below(8) {
        0 => shaken(&mut r, base.file()),
        1 | 2 => layout(&mut r, base),
        3 => two_faults(&mut r, base),
        _ => one_fault(&mut r, base),
    }
}

/// A tape of few nodes that holds what the faults need: a paragraph, text of several widths, a table and an open end.
fn base(r: &mut Rng) -> Parts {
    let entries = [("p", 3, 0), ("v", 2, 0), ("esb", 7, 1), ("periph", 7, 2), ("tr", 3, 3), ("vv", 2, 0), ("nd", 4, 0)];
    let items = [
        container(0, "\\p", BLOCK_END, vec![single(VERSE, 1, 1, "\\v 1"), text(" aé中😀 ")]),
        container(0, "\\p", BLOCK_END, vec![container(6, "\\nd", CLOSE, vec![text("x")])]),
    ];
    tape(&items[..r.within(0, 2)], &entries[..], false)
}

fn one_fault(r: &mut Rng, mut parts: Parts) -> Damaged {
    let fault = r.pick(FAULTS);
    let faulty = r.once_in(2);
    (fault.change)(&mut parts, r, faulty);
    Damaged { file: parts.file(), number: Some(if faulty { fault.number } else { 0 }) }
}

/// Two faults, the lower number applied first: the lower one is given.
fn two_faults(r: &mut Rng, mut parts: Parts) -> Damaged {
    let (a, b) = (r.pick(FAULTS), r.pick(FAULTS));
    let (low, high) = if a.number <= b.number { (a, b) } else { (b, a) };
    (low.change)(&mut parts, r, true);
    if high.number > low.number {
        (high.change)(&mut parts, r, true);
    }
    Damaged { file: parts.file(), number: Some(low.number) }
}

// --- refusals 1 and 2: the header ---

fn set_word(file: &mut [u8], word: usize, value: u32) {
    file[4 * word..4 * word + 4].copy_from_slice(&value.to_le_bytes());
}

fn word_of(file: &[u8], word: usize) -> u32 {
    u32::from_le_bytes([file[4 * word], file[4 * word + 1], file[4 * word + 2], file[4 * word + 3]])
}

/// Faults of the header and of the file's length; each gives 1, or 2 for a count of nodes that is 0.
fn layout(r: &mut Rng, parts: Parts) -> Damaged {
    let mut file = parts.file();
    let number = match r.below(9) {
        0 => {
            // Every length below a whole tape, the header's end among them.
            let length = r.pick(&[0, 1, 35, 36, 37, file.len() - 1]);
            file.truncate(length.min(file.len() - 1));
            1
        }
        1 => {
            file.push(b'a');
            1
        }
        2 => {
            set_word(&mut file, 0, r.pick(&[0, 2, 0x0100_0001, u32::MAX]));
            1
        }
        3 | 4 => {
            // Any word but the format, one off or far off.
            let word = r.within(1, 8);
            let off = r.pick(&[1, u32::MAX, 16, 1 << 31]);
            let old = word_of(&file, word);
            set_word(&mut file, word, old.wrapping_add(off));
            1
        }
        5 => return wrapped(r, parts),
        6 => {
            // One header word for empty sections: every offset counts.
            let mut empty = Parts { nodes: vec![Node { link: 1, ..parts.nodes[0] }], ..Parts::default() };
            empty.nodes[0].length = 0;
            file = empty.file();
            let word = r.pick(&[4, 6, 8]);
            let old = word_of(&file, word);
            let faulty = r.once_in(2);
            set_word(&mut file, word, if faulty { old.wrapping_sub(r.within(1, 52) as u32) } else { old });
            u8::from(faulty)
        }
        7 => {
            file = Parts { nodes: Vec::new(), ..parts }.file();
            2
        }
        _ => 0,
    };
    Damaged { file, number: Some(number) }
}

/// Counts so large that the sums come out right if they wrap at 2^32.
fn wrapped(r: &mut Rng, parts: Parts) -> Damaged {
    let mut file = parts.file();
    let (word, step) = r.pick(&[(1, 1 << 28), (1, 1 << 29), (3, 1 << 29), (3, 1 << 30), (3, 1 << 31)]);
    let count = word_of(&file, word).wrapping_add(step);
    set_word(&mut file, word, count);
    Damaged { file, number: Some(1) }
}

// --- bytes changed at random ---

/// Some bytes changed, in a base tape or in a structured one.
fn shaken(r: &mut Rng, base: Vec<u8>) -> Damaged {
    let mut file = if r.once_in(2) { base } else { structured(r.next(), 0) };
    for _ in 0..r.within(1, 3) {
        let at = r.below(file.len());
        file[at] = match r.below(4) {
            0 => file[at].wrapping_add(1),
            1 => file[at].wrapping_sub(1),
            2 => file[at] ^ (1 << r.below(8)),
            _ => r.next() as u8,
        };
    }
    if r.once_in(10) {
        file.truncate(r.below(file.len()));
    }
    Damaged { file, number: None }
}

// --- refusals 2 to 7: the parts ---

const FAULTS: &[Fault] = &[
    Fault { number: 2, change: entry_count },
    Fault { number: 2, change: name_bytes },
    Fault { number: 3, change: utf8 },
    Fault { number: 3, change: utf8 },
    Fault { number: 4, change: name_byte },
    Fault { number: 4, change: entry_span },
    Fault { number: 4, change: category_or_element },
    Fault { number: 5, change: kind },
    Fault { number: 5, change: flags },
    Fault { number: 5, change: root_place },
    Fault { number: 5, change: span_end },
    Fault { number: 5, change: span_in_character },
    Fault { number: 5, change: element_of_milestone },
    Fault { number: 5, change: label_cut },
    Fault { number: 6, change: depth },
    Fault { number: 6, change: depth_after_closes },
    Fault { number: 7, change: root_link },
    Fault { number: 7, change: container_link },
    Fault { number: 7, change: stray_close },
    Fault { number: 7, change: shared_close },
    Fault { number: 7, change: crossing },
    Fault { number: 7, change: just_not_too_deep },
];

fn entry_count(parts: &mut Parts, _: &mut Rng, faulty: bool) {
    let entry = parts.entries[0];
    parts.entries.resize(1_024 + usize::from(faulty), entry);
}

fn name_bytes(parts: &mut Parts, _: &mut Rng, faulty: bool) {
    parts.names.resize(16_384 + usize::from(faulty), b'n');
}

/// Well-formed and ill-formed sequences on both sides of each line of Unicode's table 3-7.
#[rustfmt::skip]
const GOOD_UTF8: [&[u8]; 14] = [
    b"\x00", b"\x7F", b"\xC2\x80", b"\xDF\xBF", b"\xE0\xA0\x80", b"\xE0\xBF\xBF", b"\xE1\x80\x80", b"\xEC\xBF\xBF", b"\xED\x9F\xBF",
    b"\xEE\x80\x80", b"\xEF\xBF\xBF", b"\xF0\x90\x80\x80", b"\xF1\x80\x80\x80", b"\xF4\x8F\xBF\xBF",
];
#[rustfmt::skip]
const BAD_UTF8: [&[u8]; 26] = [
    b"\x80", b"\xBF", b"\xC0\x80", b"\xC1\xBF", b"\xC2", b"\xC2\x7F", b"\xC2\xC0", b"\xDF\xC0", b"\xE0\x9F\xBF", b"\xE0\xC0\x80", b"\xE0\xA0",
    b"\xE1\x7F\x80", b"\xE1\x80\x7F", b"\xE1\x80\xC0", b"\xED\xA0\x80", b"\xED\xBF\xBF", b"\xEF\xBF", b"\xF0\x8F\xBF\xBF", b"\xF0\x90\x80",
    b"\xF1\x80\x80\x7F", b"\xF3\xBF\xC0\xBF", b"\xF4\x90\x80\x80", b"\xF5\x80\x80\x80", b"\xF8\x88\x80\x80\x80", b"\xFE", b"\xFF",
];

/// Puts a sequence at the source's end, where no span lies.
fn utf8(parts: &mut Parts, r: &mut Rng, faulty: bool) {
    let bytes = if faulty { r.pick(&BAD_UTF8) } else { r.pick(&GOOD_UTF8) };
    parts.source.extend(bytes);
    if r.once_in(2) {
        parts.source.push(b'a');
    }
}

/// A byte in the names that no entry uses.
fn name_byte(parts: &mut Parts, r: &mut Rng, faulty: bool) {
    let byte = if faulty { r.pick(&[0, 0x20, 0x7F, 0x80, 0xFF]) } else { r.pick(&[0x21, 0x7E]) };
    parts.names.push(byte);
}

fn entry_span(parts: &mut Parts, r: &mut Rng, faulty: bool) {
    let names = parts.names.len() as u32;
    let (start, length) = match (faulty, r.below(4)) {
        (false, 0) => (names, 0),
        (false, 1) => (0, names.min(65_535) as u16),
        (false, _) => (names - 1, 1),
        (true, 0) => (names + 1, 0),
        (true, 1) => (u32::MAX, 2),
        (true, 2) => (u32::MAX - 65_534, 65_535),
        (true, _) => (names, 1),
    };
    parts.entries.push(Entry { start, length, category: 3, element: 0 });
}

fn category_or_element(parts: &mut Parts, r: &mut Rng, faulty: bool) {
    let far = r.pick(&[1, 2, 248]);
    let add = if faulty { far } else { 0 };
    let (category, element) = if r.once_in(2) { (7 + add, 0) } else { (3, 3 + add) };
    parts.entries.push(Entry { start: 0, length: 1, category, element });
}

/// Puts a node before the end of Root's children.
fn add_last(parts: &mut Parts, node: Node) {
    parts.nodes.push(node);
    parts.nodes[0].link += 1;
}

fn plain(kind: u8) -> Node {
    Node { kind, flags: 0, marker: UNKNOWN, link: 0, start: 0, length: 0 }
}

fn kind(parts: &mut Parts, r: &mut Rng, faulty: bool) {
    let kind = if faulty { r.pick(&[9, 10, 255]) } else { r.pick(&[TEXT, ATTRIBUTE, CHAPTER, VERSE, ERROR]) };
    add_last(parts, plain(kind));
}

fn flags(parts: &mut Parts, r: &mut Rng, faulty: bool) {
    let flags = if faulty { r.pick(&[4, 5, 8, 255]) } else { r.below(4) as u8 };
    let at = r.below(parts.nodes.len());
    parts.nodes[at].flags = flags;
}

fn root_place(parts: &mut Parts, r: &mut Rng, faulty: bool) {
    if faulty && r.once_in(2) {
        parts.nodes[0].kind = r.pick(&[TEXT, OPEN, ERROR]);
    } else {
        add_last(parts, plain(if faulty { ROOT } else { ERROR }));
    }
}

fn span_end(parts: &mut Parts, r: &mut Rng, faulty: bool) {
    let source = parts.source.len() as u32;
    let (start, length) = match (faulty, r.below(4)) {
        (false, 0) => (source, 0),
        (false, _) => (0, source),
        (true, 0) => (source, 1),
        (true, 1) => (source + 1, 0),
        (true, 2) => (u32::MAX, 1),
        (true, _) => (0, source + 1),
    };
    let kind = r.pick(&[TEXT, ATTRIBUTE, ERROR]);
    add_last(parts, Node { start, length, ..plain(kind) });
}

/// Spans around and inside a character of two, three or four bytes put at the source's end.
fn span_in_character(parts: &mut Parts, r: &mut Rng, faulty: bool) {
    let at = parts.source.len() as u32;
    let wide = r.pick(&["é", "中", "😀"]);
    parts.source.extend(wide.bytes());
    let width = wide.len() as u32;
    let inside = r.within(1, width as usize - 1) as u32;
    let (start, length) = match (faulty, r.below(3)) {
        (false, 0) => (at, 0),
        (false, 1) => (at + width, 0),
        (false, _) => (at, width),
        (true, 0) => (at + inside, 0),
        (true, 1) => (at, inside),
        (true, _) => (at + inside, width - inside),
    };
    let kind = r.pick(&[TEXT, ATTRIBUTE, CHAPTER, ERROR]);
    add_last(parts, Node { start, length, ..plain(kind) });
}

/// Chapter and Verse with an entry of each element; other kinds may have any.
fn element_of_milestone(parts: &mut Parts, r: &mut Rng, faulty: bool) {
    let entries = parts.entries.len() as u16;
    let element = if faulty { r.within(1, 3) as u8 } else { 0 };
    parts.entries.push(Entry { start: 0, length: 0, category: 3, element });
    let kind = r.pick(&[CHAPTER, VERSE]);
    add_last(parts, Node { marker: entries, ..plain(kind) });
    if !faulty {
        parts.entries.push(Entry { start: 0, length: 0, category: 3, element: 1 });
        add_last(parts, Node { marker: entries + 1, ..plain(r.pick(&[TEXT, ATTRIBUTE, ERROR])) });
    }
}

/// A verse label glued to its marker and cut by an entry's name length.
fn label_cut(parts: &mut Parts, r: &mut Rng, faulty: bool) {
    let bad: [(&str, u16); 4] = [("\\vé", 2), ("é", 1), ("\\+v中", 3), ("\\v😀 ", 4)];
    let good: [(&str, u16); 7] =
        [("\\vé", 1), ("\\vé", 3), ("\\vé", 0), ("\\vé x", 2), ("\\vé", 9), ("\\v *é", 2), ("v*é", 2)];
    // A Chapter has no label of that kind and may be cut anywhere.
    let chapter = !faulty && r.once_in(3);
    let (text, length) = if faulty || chapter { r.pick(&bad) } else { r.pick(&good) };
    let marker = parts.entries.len() as u16;
    // The base has names enough; adding some could mend an entry's fault.
    parts.entries.push(Entry { start: 0, length, category: 2, element: 0 });
    let at = parts.source.len() as u32;
    parts.source.extend(text.bytes());
    let kind = if chapter { CHAPTER } else { VERSE };
    add_last(parts, Node { marker, start: at, length: text.len() as u32, ..plain(kind) });
}

/// 64 or 65 containers open before a node, the innermost empty or not.
fn depth(parts: &mut Parts, r: &mut Rng, faulty: bool) {
    let count = if faulty { r.within(65, 70) } else { r.within(62, 64) };
    let first = parts.nodes.len();
    let inside = r.below(3);
    let last = first + 2 * count + inside - 1;
    for i in 0..count {
        add_last(parts, Node { link: (last - i) as u32, ..plain(OPEN) });
    }
    (0..inside).for_each(|_| add_last(parts, plain(TEXT)));
    for _ in 0..count {
        let close = r.pick(&[CLOSE, BLOCK_END]);
        add_last(parts, plain(close));
    }
}

/// Closes take the count below zero; what follows may open that many more. The near side is a plain list of leaves.
fn depth_after_closes(parts: &mut Parts, r: &mut Rng, faulty: bool) {
    if !faulty {
        for _ in 0..r.within(60, 80) {
            let own = parts.nodes.len() as u32;
            add_last(parts, Node { link: own, ..plain(OPEN) });
        }
        return;
    }
    let below = r.below(5);
    (0..below).for_each(|_| add_last(parts, plain(CLOSE)));
    (0..below + 65).for_each(|_| add_last(parts, Node { link: 0, ..plain(OPEN) }));
    add_last(parts, plain(TEXT));
}

fn root_link(parts: &mut Parts, r: &mut Rng, faulty: bool) {
    let count = parts.nodes.len() as u32;
    match (faulty, r.below(5)) {
        (false, 0) => {}
        // Root's own BlockEnd.
        (false, _) => parts.nodes.push(plain(BLOCK_END)),
        (true, 0) => parts.nodes[0].link = count + 1,
        (true, 1) => parts.nodes[0].link = r.pick(&[0, u32::MAX]),
        (true, 2) => parts.nodes.push(plain(CLOSE)),
        // The last node is no BlockEnd.
        (true, 3) => parts.nodes.push(plain(TEXT)),
        (true, _) => {
            parts.nodes.push(plain(BLOCK_END));
            parts.nodes[0].link = count + 1;
        }
    }
}

/// A container or leaf with a link to itself, before, behind, to a text or beyond the end.
fn container_link(parts: &mut Parts, r: &mut Rng, faulty: bool) {
    let at = parts.nodes.len() as u32;
    add_last(parts, plain(OPEN));
    add_last(parts, plain(TEXT));
    let link = match (faulty, r.below(4)) {
        (false, 0) => at,
        (false, _) => at + 2,
        (true, 0) => r.pick(&[0, at - 1]),
        (true, 1) => at + 1,
        (true, 2) => at + 3,
        (true, _) => u32::MAX,
    };
    parts.nodes[at as usize].link = link;
    if link != at {
        let close = r.pick(&[CLOSE, BLOCK_END]);
        add_last(parts, plain(close));
    }
}

/// A close that nothing names; on the near side something does.
fn stray_close(parts: &mut Parts, r: &mut Rng, faulty: bool) {
    let at = parts.nodes.len() as u32;
    add_last(parts, Node { link: at + u32::from(!faulty), ..plain(OPEN) });
    let close = r.pick(&[CLOSE, BLOCK_END]);
    add_last(parts, plain(close));
}

/// One close for two containers, or for a container and Root; on the near side two closes.
fn shared_close(parts: &mut Parts, r: &mut Rng, faulty: bool) {
    let at = parts.nodes.len() as u32;
    if faulty && r.once_in(2) {
        parts.nodes.push(Node { link: at + 1, ..plain(OPEN) });
        parts.nodes.push(plain(BLOCK_END));
        parts.nodes[0].link = at + 1;
        return;
    }
    add_last(parts, Node { link: at + 3 - u32::from(faulty), ..plain(OPEN) });
    add_last(parts, Node { link: at + 2, ..plain(OPEN) });
    add_last(parts, plain(CLOSE));
    if !faulty {
        add_last(parts, plain(BLOCK_END));
    }
}

/// Two containers that cross; on the near side one lies in the other, or they follow each other.
fn crossing(parts: &mut Parts, r: &mut Rng, faulty: bool) {
    let at = parts.nodes.len() as u32;
    let (first, second) = if faulty { (at + 2, at + 3) } else { (at + 3, at + 2) };
    add_last(parts, Node { link: first, ..plain(OPEN) });
    add_last(parts, Node { link: second, ..plain(OPEN) });
    for _ in 0..2 {
        let close = r.pick(&[CLOSE, BLOCK_END]);
        add_last(parts, plain(close));
    }
}

/// 64 open before the last node, or 65 with no node behind them, counted below zero first; the near side adds nothing.
fn just_not_too_deep(parts: &mut Parts, r: &mut Rng, faulty: bool) {
    if !faulty {
        return;
    }
    let below = r.below(5);
    let last = r.below(2);
    (0..below).for_each(|_| add_last(parts, plain(CLOSE)));
    (0..below + 65 - last).for_each(|_| add_last(parts, Node { link: 0, ..plain(OPEN) }));
    (0..last).for_each(|_| add_last(parts, plain(TEXT)));
}
