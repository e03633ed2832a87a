//! Both sides of every boundary of refusals 1 to 7, by document 01, "The tape file".

use oracle::answer::answer;
use oracle::notation;
use oracle::tapes::*;

fn number(file: &[u8]) -> u8 {
    answer(file).number()
}

fn root(link: u32) -> Node {
    Node { kind: ROOT, flags: 0, marker: UNKNOWN, link, start: 0, length: 0 }
}

fn node(kind: u8) -> Node {
    Node { kind, ..root(0) }
}

fn open(link: u32) -> Node {
    Node { kind: OPEN, ..root(link) }
}

/// Root with this link, then these nodes; no entries, no source.
fn nodes(link: u32, nodes: &[Node]) -> Parts {
    let nodes = std::iter::once(root(link)).chain(nodes.iter().copied()).collect();
    Parts { nodes, ..Parts::default() }
}

/// Root and one node.
fn one(node: Node) -> Parts {
    nodes(2, &[node])
}

/// Checks cases of (what is given, the number).
fn check<T>(cases: impl IntoIterator<Item = (T, u8)>, file: impl Fn(&T) -> Vec<u8>)
where
    T: std::fmt::Debug,
{
    for (case, want) in cases {
        assert_eq!(number(&file(&case)), want, "{case:?}");
    }
}

// --- 1 ---

const SMALL: &str = r#"p{V"\v 1" T" x"}"#;

fn with_word(file: &[u8], word: usize, value: u32) -> Vec<u8> {
    let mut file = file.to_vec();
    file[4 * word..4 * word + 4].copy_from_slice(&value.to_le_bytes());
    file
}

fn word(file: &[u8], word: usize) -> u32 {
    u32::from_le_bytes(file[4 * word..4 * word + 4].try_into().unwrap())
}

#[test]
fn refusal_1_length() {
    let file = notation::file(SMALL);
    assert_eq!(number(&file), 0);
    for length in 0..file.len() {
        assert_eq!(number(&file[..length]), 1, "{length}");
    }
    assert_eq!(number(&[file, vec![b'a']].concat()), 1);
}

#[test]
fn refusal_1_format() {
    let file = notation::file(SMALL);
    check([(0, 1), (1, 0), (2, 1), (0x0101, 1), (0x0100_0000, 1)], |&format| with_word(&file, 0, format));
}

#[test]
fn refusal_1_counts_and_offsets() {
    for file in [notation::file(SMALL), nodes(1, &[]).file()] {
        for at in 1..=8 {
            let right = word(&file, at);
            for off in [1, 2, 8, 16, u32::MAX, 1 << 31] {
                let wrong = with_word(&file, at, right.wrapping_add(off));
                assert_eq!(number(&wrong), 1, "word {at} off by {off}");
            }
        }
    }
}

#[test]
fn refusal_1_sums_do_not_wrap() {
    let file = notation::file(SMALL);
    // Sixteen times 2^28 and eight times 2^29 are 0 modulo 2^32.
    for (at, step) in [(1, 1 << 28), (1, 15 << 28), (3, 1 << 29), (3, 7 << 29)] {
        let wrapped = word(&file, at).wrapping_add(step);
        assert_eq!(number(&with_word(&file, at, wrapped)), 1, "word {at}");
    }
}

#[test]
fn refusal_1_before_2() {
    assert_eq!(number(&Parts::default().file()), 2);
    assert_eq!(number(&with_word(&Parts::default().file(), 0, 2)), 1);
}

// --- 2: the large limits are in tests/generators.rs ---

#[test]
fn refusal_2_entries_and_names() {
    let entry = Entry { start: 0, length: 0, category: 0, element: 0 };
    check([(0, 0), (1_024, 0), (1_025, 2)], |&n| Parts { entries: vec![entry; n], ..nodes(1, &[]) }.file());
    check([(0, 0), (16_384, 0), (16_385, 2)], |&n| Parts { names: vec![b'n'; n], ..nodes(1, &[]) }.file());
}

// --- 3 ---

#[test]
fn refusal_3() {
    #[rustfmt::skip]
    let good: [&[u8]; 9] = [
        b"", b"\x00\x7F", b"\xC2\x80", b"\xDF\xBF", b"\xE0\xA0\x80", b"\xED\x9F\xBF", b"\xEE\x80\x80", b"\xF0\x90\x80\x80", b"\xF4\x8F\xBF\xBF",
    ];
    #[rustfmt::skip]
    let bad: [&[u8]; 11] = [
        b"\x80", b"\xC0\x80", b"\xC1\xBF", b"\xC2", b"\xC2\x7F", b"\xE0\x9F\xBF", b"\xED\xA0\x80", b"\xF0\x8F\xBF\xBF", b"\xF4\x90\x80\x80",
        b"\xF5\x80\x80\x80", b"\xFF",
    ];
    let file = |source: &&[u8]| Parts { source: source.to_vec(), ..nodes(1, &[]) }.file();
    check(good.map(|s| (s, 0)), file);
    check(bad.map(|s| (s, 3)), file);
}

// --- 4 ---

#[test]
fn refusal_4_name_bytes() {
    let cases = [(0x20, 4), (0x21, 0), (0x7E, 0), (0x7F, 4), (0x80, 4), (0, 4), (0xFF, 4)];
    check(cases, |&byte| Parts { names: vec![byte], ..nodes(1, &[]) }.file());
}

#[test]
fn refusal_4_entries() {
    let right = Entry { start: 0, length: 2, category: 7, element: 3 };
    let file = |&entry: &Entry| Parts { entries: vec![entry], names: b"ab".to_vec(), ..nodes(1, &[]) }.file();
    let cases = [
        (right, 0),
        (Entry { category: 8, ..right }, 4),
        (Entry { category: 255, ..right }, 4),
        (Entry { element: 4, ..right }, 4),
        (Entry { element: 255, ..right }, 4),
        (Entry { length: 3, ..right }, 4),
        (Entry { start: 1, ..right }, 4),
        (Entry { start: 1, length: 1, ..right }, 0),
        (Entry { start: 2, length: 0, ..right }, 0),
        (Entry { start: 3, length: 0, ..right }, 4),
        (Entry { start: u32::MAX, length: 3, ..right }, 4),
    ];
    check(cases, file);
}

// --- 5 ---

#[test]
fn refusal_5_kinds_and_flags() {
    for kind in [TEXT, ATTRIBUTE, CHAPTER, VERSE, ERROR] {
        assert_eq!(number(&one(node(kind)).file()), 0, "{kind}");
    }
    check([(9, 5), (10, 5), (255, 5)], |&kind| one(node(kind)).file());
    check([(0, 0), (3, 0), (4, 5), (255, 5)], |&flags| one(Node { flags, ..node(TEXT) }).file());
    check([(3, 0), (4, 5)], |&flags| Parts { nodes: vec![Node { flags, ..root(1) }], ..Parts::default() }.file());
}

#[test]
fn refusal_5_root() {
    assert_eq!(number(&one(node(ROOT)).file()), 5);
    for kind in [TEXT, OPEN, BLOCK_END] {
        assert_eq!(number(&Parts { nodes: vec![node(kind)], ..Parts::default() }.file()), 5);
    }
}

#[test]
fn refusal_5_spans() {
    // Characters of 1, 2, 3 and 4 bytes: places 0, 1, 3, 6, 10.
    let source = "aé中😀";
    let places = [0, 1, 3, 6, 10];
    for start in 0..=11_u32 {
        for end in start..=11 {
            let length = end - start;
            let want = if places.contains(&start) && places.contains(&end) { 0 } else { 5 };
            for at in [0, 1] {
                let mut parts = one(node(ERROR));
                parts.source = source.into();
                (parts.nodes[at].start, parts.nodes[at].length) = (start, length);
                assert_eq!(number(&parts.file()), want, "node {at}, {start} to {end}");
            }
        }
    }
}

#[test]
fn refusal_5_span_sums_do_not_wrap() {
    let cases = [((0, 0), 0), ((u32::MAX, 1), 5), ((1, u32::MAX), 5), ((u32::MAX, u32::MAX), 5)];
    check(cases, |&(start, length)| one(Node { start, length, ..node(TEXT) }).file());
}

#[test]
fn refusal_5_elements() {
    let file = |kind: u8, element: u8, marker: u16| {
        let mut parts = one(Node { marker, ..node(kind) });
        parts.add_entry("", 3, element);
        parts.file()
    };
    for element in 0..=3 {
        let want = if element == 0 { 0 } else { 5 };
        assert_eq!(number(&file(CHAPTER, element, 0)), want);
        assert_eq!(number(&file(VERSE, element, 0)), want);
        assert_eq!(number(&file(TEXT, element, 0)), 0);
        assert_eq!(number(&file(ATTRIBUTE, element, 0)), 0);
        assert_eq!(number(&file(VERSE, element, 1)), 0);
    }
}

#[test]
fn refusal_5_labels() {
    let file = |&(kind, text, length): &(u8, &str, usize)| {
        let mut parts = Parts::default();
        parts.add_entry(&"v".repeat(length), 2, 0);
        parts.nodes.push(root(2));
        parts.add_node(kind, 0, 0, 0, text);
        parts.file()
    };
    let cases = [
        ((VERSE, "\\vé", 1), 0),
        ((VERSE, "\\vé", 2), 5),
        ((VERSE, "\\vé", 3), 0),
        ((VERSE, "\\vé", 4), 0),
        ((VERSE, "\\vé", 0), 0),
        ((VERSE, "\\vé 1", 2), 0),
        ((VERSE, "\\vé ", 2), 5),
        ((VERSE, "\\+vé", 2), 5),
        ((VERSE, "\\v*é", 2), 0),
        ((VERSE, "\\v\u{a0}é", 2), 0),
        ((VERSE, "😀", 1), 5),
        ((VERSE, "😀", 3), 5),
        ((VERSE, "😀", 4), 0),
        ((CHAPTER, "\\vé", 2), 0),
    ];
    check(cases, file);
    // An unknown entry counts 0.
    let mut parts = nodes(2, &[]);
    parts.add_node(VERSE, 0, 7, 0, "é");
    assert_eq!(number(&parts.file()), 0);
}

#[test]
fn refusal_5_asks_unwritten_verses_too() {
    let mut parts = Parts::default();
    parts.add_entry("vv", 2, 0);
    parts.add_entry("usfm", 0, 0);
    parts.nodes = vec![root(4), Node { marker: 1, ..open(3) }];
    parts.add_node(VERSE, 0, 0, 0, "\\vé");
    parts.nodes.push(node(BLOCK_END));
    assert_eq!(number(&parts.file()), 5);
}

// --- 6 ---

/// Root, `closes` closes, `opens` containers linked to node 0, `texts` texts.
fn unbalanced(closes: usize, opens: usize, texts: usize) -> Vec<u8> {
    let all = [vec![node(CLOSE); closes], vec![open(0); opens], vec![node(TEXT); texts]].concat();
    nodes(all.len() as u32 + 1, &all).file()
}

#[test]
fn refusal_6_counts_before_each_node() {
    // The end of the tape is no node.
    assert_eq!(number(&unbalanced(0, 64, 1)), 7);
    assert_eq!(number(&unbalanced(0, 65, 0)), 7);
    assert_eq!(number(&unbalanced(0, 65, 1)), 6);
    assert_eq!(number(&unbalanced(0, 66, 0)), 6);
}

#[test]
fn refusal_6_count_is_signed() {
    assert_eq!(number(&unbalanced(3, 67, 1)), 7);
    assert_eq!(number(&unbalanced(3, 68, 1)), 6);
}

#[test]
fn refusal_6_leaves_do_not_count() {
    let leaves: Vec<_> = (1..=100).map(open).collect();
    assert_eq!(number(&nodes(101, &leaves).file()), 0);
    let inner = |n: usize| {
        let items = (0..n).fold(vec![leaf(UNKNOWN, "")], |kids, _| vec![container(UNKNOWN, "", CLOSE, kids)]);
        number(&tape(&items, &[], false).file())
    };
    assert_eq!(inner(64), 0);
    assert_eq!(inner(65), 6);
}

// --- 7 ---

#[test]
fn refusal_7_root() {
    check([(0, 7), (1, 0), (2, 7), (u32::MAX, 7)], |&link| nodes(link, &[]).file());
    check([(1, 7), (2, 0), (3, 7)], |&link| nodes(link, &[node(TEXT)]).file());
    // Its own close is a BlockEnd and the last node.
    check([(1, 0), (2, 7), (0, 7)], |&link| nodes(link, &[node(BLOCK_END)]).file());
    check([(1, 7), (2, 7)], |&link| nodes(link, &[node(CLOSE)]).file());
    check([(1, 7), (2, 7), (3, 7)], |&link| nodes(link, &[node(BLOCK_END), node(TEXT)]).file());
}

#[test]
fn refusal_7_containers() {
    let cases = [(0, 7), (1, 7), (2, 7), (3, 0), (4, 7), (5, 7), (u32::MAX, 7)];
    check(cases, |&link| nodes(4, &[open(link), node(TEXT), node(CLOSE)]).file());
    // A leaf, a link to an earlier close.
    check([(1, 0), (2, 7)], |&link| nodes(3, &[open(link), node(TEXT)]).file());
    assert_eq!(number(&nodes(5, &[open(2), node(CLOSE), open(2), node(TEXT)]).file()), 7);
}

#[test]
fn refusal_7_one_opener_for_each_close() {
    // Two containers, a container and Root, none.
    assert_eq!(number(&nodes(4, &[open(3), open(3), node(CLOSE)]).file()), 7);
    assert_eq!(number(&nodes(2, &[open(2), node(BLOCK_END)]).file()), 7);
    assert_eq!(number(&nodes(3, &[open(2), node(BLOCK_END)]).file()), 0);
    assert_eq!(number(&nodes(3, &[open(1), node(CLOSE)]).file()), 7);
    assert_eq!(number(&nodes(3, &[open(2), node(BLOCK_END), node(BLOCK_END)]).file()), 0);
    assert_eq!(number(&nodes(4, &[open(2), node(BLOCK_END), node(BLOCK_END)]).file()), 7);
}

#[test]
fn refusal_7_containers_nest() {
    let cases = [((3, 4), 7), ((4, 3), 0), ((3, 3), 7), ((4, 4), 7)];
    check(cases, |&(a, b)| nodes(5, &[open(a), open(b), node(CLOSE), node(BLOCK_END)]).file());
    assert_eq!(number(&nodes(5, &[open(2), node(CLOSE), open(4), node(CLOSE)]).file()), 0);
    // Markers of an open and its close need not match.
    let close = Node { marker: 7, ..node(CLOSE) };
    assert_eq!(number(&nodes(3, &[open(2), close]).file()), 0);
}
