//! The second tape writer: each step and each refusal of request One, what stands in the buffer, the listing step by step.

use oracle::answer::answer;
use oracle::both_sides::listing;
use oracle::steps::{Command, Item, lines};
use oracle::tapes::*;
use oracle::writer::{AT_WORK, Adds, Answer, FINISHED, Given, State, Step, Writer};

const MARKER_CLOSE: Adds = Adds::Close { block: false };
const BLOCK_CLOSE: Adds = Adds::Close { block: true };

#[rustfmt::skip]
const ALL: [Adds; 9] = [
    Adds::Open, MARKER_CLOSE, BLOCK_CLOSE, Adds::Leaf, Adds::Text, Adds::Attribute, Adds::Error, Adds::Chapter, Adds::Verse,
];

const EMPTY: Given = Given { flags: 0, marker: UNKNOWN, number: 0, start: 0, length: 0 };
const WORKING: State = State { phase: AT_WORK, nodes: 0, entries: 0, names: 0, source: 0, inner: 0, depth: 0 };

fn entry(start: u32, length: u16, name: &str) -> Step {
    Step::Entry(Entry { start, length, category: 3, element: 0 }, name.into())
}

fn source(piece: impl AsRef<[u8]>) -> Step {
    Step::Source(piece.as_ref().to_vec())
}

fn node(adds: Adds, start: u32, length: u32) -> Step {
    Step::Node(adds, Given { start, length, ..EMPTY })
}

fn empty(adds: Adds) -> Step {
    node(adds, 0, 0)
}

/// A writer before start, over a buffer of this length.
fn fresh(room: usize) -> Writer {
    Writer::new((0..room).map(|i| (i % 251) as u8).collect())
}

/// A writer with these steps done.
fn done(room: usize, steps: &[Step]) -> Writer {
    let mut writer = fresh(room);
    check(&mut writer, [(Step::Start, 0)]);
    check(&mut writer, steps.iter().map(|step| (step.clone(), 0)));
    writer
}

/// Takes steps, each with the number it is meant to get; a refused one leaves all as it was.
fn check(writer: &mut Writer, steps: impl IntoIterator<Item = (Step, u8)>) {
    for (step, number) in steps {
        let before = writer.clone();
        let answer = writer.take(&step);
        assert_eq!(answer.number, number, "{step:?}");
        match number {
            0 => assert_eq!(answer.length, writer.state.size()),
            8 => assert!(answer.length > writer.buffer.len() as u64),
            _ => assert_eq!(answer.length, 0),
        }
        assert!(number == 0 || *writer == before, "{step:?}");
    }
}

/// The sections of the file that is finished at the buffer's front.
fn finished(mut writer: Writer) -> Parts {
    let answer = writer.take(&Step::Finish);
    assert_eq!(answer.number, 0);
    Parts::read(&writer.buffer[..answer.length as usize])
}

// --- 16 ---

#[test]
fn start() {
    assert_eq!(fresh(51).take(&Step::Start), Answer { number: 8, length: 52 });
    let mut writer = fresh(52);
    assert_eq!(writer.take(&Step::Start), Answer { number: 0, length: 52 });
    assert_eq!((writer.state, &writer.buffer), (WORKING, &fresh(52).buffer));
    check(&mut writer, [(Step::Start, 16)]);
}

/// Each step, and some with faults of their own.
fn each_step() -> Vec<Step> {
    let plain = [entry(0, 1, "p"), entry(9, 9, " "), source("a"), source(b"\xFF"), Step::Finish];
    plain.into_iter().chain(ALL.map(empty)).chain(ALL.map(|adds| node(adds, 9, 9))).collect()
}

#[test]
fn before_start_and_behind_finish() {
    check(&mut fresh(500), each_step().into_iter().map(|step| (step, 16)));
    let mut writer = done(500, &[Step::Finish]);
    check(&mut writer, each_step().into_iter().map(|step| (step, 16)));
    check(&mut writer, [(Step::Start, 16)]);
}

#[test]
fn entry_after_the_first_node() {
    for first in [Adds::Text, Adds::Open, Adds::Leaf] {
        let mut writer = done(500, &[entry(0, 1, "p"), source("a"), entry(0, 1, ""), empty(first)]);
        check(&mut writer, [(entry(0, 1, ""), 16), (entry(9, 9, " "), 16), (source("b"), 0)]);
    }
}

// --- 2 ---

#[test]
fn limits_of_entries_and_names() {
    let at = |entries, names| {
        let state = State { entries, names, ..WORKING };
        Writer { state, ..fresh(state.size() as usize + 40) }
    };
    check(&mut at(1_023, 0), [(entry(0, 0, ""), 0), (entry(0, 0, ""), 2), (entry(9, 9, " "), 2)]);
    check(
        &mut at(0, 16_383),
        [(entry(0, 0, "nn"), 2), (entry(0, 0, "n"), 0), (entry(0, 0, "n"), 2), (entry(0, 0, ""), 0)],
    );
    let names = |n: usize| entry(0, 0, &"n".repeat(n));
    check(&mut done(500, &[]), [(names(16_384), 8), (names(16_385), 2)]);
}

#[test]
fn limits_of_nodes_and_source() {
    let nodes = State { nodes: 262_142, ..WORKING };
    let mut writer = Writer { state: nodes, ..fresh(nodes.size() as usize + 40) };
    check(&mut writer, [(empty(Adds::Text), 0), (empty(Adds::Text), 2), (node(Adds::Text, 9, 9), 2), (source("a"), 0)]);
    let source_bytes = State { source: 4_194_303, ..WORKING };
    let mut writer = Writer { state: source_bytes, ..fresh(source_bytes.size() as usize + 40) };
    check(&mut writer, [(source("é"), 2), (source(b"\xFFa"), 2), (source("a"), 0), (source("a"), 2), (source(""), 0)]);
}

// --- 3 ---

#[test]
fn pieces_are_utf8_by_themselves() {
    let mut writer = done(500, &[]);
    check(&mut writer, [(source("é"), 0), (source(b"\xC3"), 3), (source(b"\xA9"), 3), (source(b"a\xED\xA0\x80"), 3)]);
    check(&mut writer, [(source(""), 0), (source("中"), 0)]);
    assert_eq!(finished(writer).source, "é中".as_bytes());
}

// --- 4 ---

#[test]
fn name_bytes() {
    for (byte, number) in [(0x20, 4), (0x21, 0), (0x7E, 0), (0x7F, 4), (0x80, 4), (0, 4), (0xFF, 4)] {
        let brought = Entry { start: 0, length: 0, category: 0, element: 0 };
        check(&mut done(500, &[]), [(Step::Entry(brought, vec![b'a', byte]), number)]);
    }
}

#[test]
fn spans_and_codes_of_entries() {
    let right = Entry { start: 0, length: 2, category: 7, element: 3 };
    let cases = [
        (right, 0),
        (Entry { category: 8, ..right }, 4),
        (Entry { element: 4, ..right }, 4),
        (Entry { length: 3, ..right }, 4),
        (Entry { start: 1, length: 1, ..right }, 0),
        (Entry { start: 1, ..right }, 4),
        (Entry { start: 2, length: 0, ..right }, 0),
        (Entry { start: 3, length: 0, ..right }, 4),
        (Entry { start: u32::MAX, ..right }, 4),
    ];
    let mut writer = done(500, &[entry(0, 0, "a"), entry(0, 0, "b")]);
    check(&mut writer, cases.map(|(given, number)| (Step::Entry(given, Vec::new()), number)));
    check(&mut writer, [(entry(1, 2, "c"), 0), (entry(1, 3, "d"), 0), (entry(3, 3, "e"), 4)]);
    let parts = finished(writer);
    assert_eq!(parts.names, b"abcd");
    assert_eq!(parts.entries.iter().map(|e| (e.start, e.length)).collect::<Vec<_>>()[2..5], [(0, 2), (1, 1), (2, 0)]);
}

// --- 5 ---

/// Characters of 1, 2, 3 and 4 bytes; for a close something is open.
fn with_widths(adds: Adds) -> Writer {
    let opens = if matches!(adds, Adds::Close { .. }) { 40 } else { 0 };
    done(4_000, &[vec![entry(0, 1, "p"), source("aé中😀")], vec![empty(Adds::Open); opens]].concat())
}

#[test]
fn spans() {
    let places = [0, 1, 3, 6, 10];
    for adds in ALL {
        let mut writer = with_widths(adds);
        for (start, end) in (0..=11).flat_map(|start| (start..=11).map(move |end| (start, end))) {
            let number = if places.contains(&start) && places.contains(&end) { 0 } else { 5 };
            check(&mut writer, [(node(adds, start, end - start), number)]);
        }
        let far = [(u32::MAX, 0), (u32::MAX, 1), (1, u32::MAX), (u32::MAX, u32::MAX)];
        check(&mut writer, far.map(|(start, length)| (node(adds, start, length), 5)));
    }
}

#[test]
fn spans_of_the_source_so_far() {
    let mut writer = done(500, &[source("a")]);
    check(&mut writer, [(node(Adds::Text, 0, 3), 5), (source("é"), 0), (node(Adds::Text, 0, 3), 0)]);
}

#[test]
fn flags() {
    for adds in ALL {
        let cases = [(0, 0), (1, 0), (2, 0), (3, 0), (4, 5), (255, 5)];
        let step = |flags| Step::Node(adds, Given { flags, ..EMPTY });
        check(&mut with_widths(adds), cases.map(|(flags, number)| (step(flags), number)));
    }
}

#[test]
fn elements() {
    let entries = [0, 1, 2, 3].map(|element| Entry { start: 0, length: 0, category: 3, element });
    let steps: Vec<Step> = entries.into_iter().map(|e| Step::Entry(e, Vec::new())).collect();
    for adds in ALL {
        let opens = vec![empty(Adds::Open); if matches!(adds, Adds::Close { .. }) { 6 } else { 0 }];
        let mut writer = done(1_000, &[steps.clone(), opens].concat());
        for (marker, known) in [(0, 0), (1, 5), (2, 5), (3, 5), (4, 0), (UNKNOWN, 0)] {
            let number = if matches!(adds, Adds::Chapter | Adds::Verse) { known } else { 0 };
            check(&mut writer, [(Step::Node(adds, Given { marker, ..EMPTY }), number)]);
        }
    }
}

#[test]
fn labels() {
    let cases = [
        ("\\vé", 1, 0),
        ("\\vé", 2, 5),
        ("\\vé", 3, 0),
        ("\\vé", 4, 0),
        ("\\vé", 0, 0),
        ("\\vé 1", 2, 0),
        ("\\vé ", 2, 5),
        (" \\vé", 2, 0),
        ("\\+vé", 2, 5),
        ("\\v*é", 2, 0),
        ("\\v\u{a0}é", 2, 0),
        ("\\vé\u{3000}", 2, 5),
        ("😀", 1, 5),
        ("😀", 3, 5),
        ("😀", 4, 0),
    ];
    for (text, length, number) in cases {
        let verse = |adds, marker| Step::Node(adds, Given { marker, length: text.len() as u32, ..EMPTY });
        let mut writer = done(500, &[entry(0, length, "vvvv"), source(text)]);
        check(&mut writer, [(verse(Adds::Verse, 0), number), (verse(Adds::Verse, 1), 0), (verse(Adds::Chapter, 0), 0)]);
    }
}

// --- 6 and 7 ---

#[test]
fn a_65th_container() {
    let mut writer = done(4_000, &vec![empty(Adds::Open); 64]);
    check(&mut writer, [(empty(Adds::Open), 6), (node(Adds::Open, 1, 0), 5), (empty(Adds::Leaf), 0)]);
    check(&mut writer, [(Step::Finish, 7), (empty(MARKER_CLOSE), 0), (empty(Adds::Open), 0), (empty(Adds::Open), 6)]);
    check(&mut writer, vec![(empty(BLOCK_CLOSE), 0); 64]);
    check(&mut writer, [(empty(BLOCK_CLOSE), 7), (Step::Finish, 0)]);
}

#[test]
fn closes_and_finish() {
    let mut writer = done(500, &[]);
    check(&mut writer, [(empty(MARKER_CLOSE), 7), (empty(BLOCK_CLOSE), 7), (node(MARKER_CLOSE, 1, 0), 5)]);
    check(&mut writer, [(empty(Adds::Leaf), 0), (empty(MARKER_CLOSE), 7), (empty(Adds::Open), 0), (Step::Finish, 7)]);
    check(&mut writer, [(empty(MARKER_CLOSE), 0), (empty(MARKER_CLOSE), 7), (Step::Finish, 0), (Step::Finish, 16)]);
}

#[test]
fn fields_of_each_kind() {
    let given = Given { flags: 3, marker: 7, number: 9, start: 0, length: 0 };
    let steps = [Adds::Open, Adds::Open, Adds::Leaf].into_iter().chain(ALL.into_iter().skip(4));
    let steps = steps.chain([MARKER_CLOSE, BLOCK_CLOSE]).map(|adds| Step::Node(adds, given));
    let parts = finished(done(500, &steps.collect::<Vec<_>>()));
    let fields: Vec<_> = parts.nodes.iter().map(|n| (n.kind, n.flags, n.marker, n.link)).collect();
    let meant = [
        (ROOT, SYNTHETIC, UNKNOWN, 11),
        (OPEN, 3, 7, 10),
        (OPEN, 3, 7, 9),
        (OPEN, 3, 7, 3),
        (TEXT, 3, UNKNOWN, 0),
        (ATTRIBUTE, 3, UNKNOWN, 0),
        (ERROR, 3, UNKNOWN, 0),
        (CHAPTER, 3, 7, 9),
        (VERSE, 3, 7, 9),
        (CLOSE, 3, 7, 0),
        (BLOCK_END, 3, 7, 0),
    ];
    assert_eq!(fields, meant);
}

// --- 8 ---

#[test]
fn room_for_each_step() {
    let setup = [entry(0, 1, "p"), source("é"), empty(Adds::Open)];
    let size = 52 + 8 + 1 + 2;
    let cases = [(entry(0, 1, ""), 8), (entry(1, 3, "abc"), 11), (source("é"), 2), (source(""), 0)];
    let cases = cases.map(|(step, more)| (2, step, more)).into_iter();
    for (steps, step, more) in cases.chain(ALL.map(|adds| (3, empty(adds), 16))) {
        let needed = size + more + if steps == 3 { 16 } else { 0 };
        let answer = |room: usize| done(room, &setup[..steps]).take(&step);
        assert_eq!(answer(needed), Answer { number: 0, length: needed as u64 }, "{step:?}");
        if more > 0 {
            assert_eq!(answer(needed - 1), Answer { number: 8, length: needed as u64 }, "{step:?}");
        }
    }
}

#[test]
fn room_comes_last() {
    let mut writer = done(52, &[]);
    check(&mut writer, [(entry(0, 1, " "), 4), (entry(0, 1, "p"), 8), (source(b"\xFF"), 3), (source("a"), 8)]);
    check(&mut writer, [(node(Adds::Text, 1, 0), 5), (empty(Adds::Text), 8), (empty(MARKER_CLOSE), 7)]);
    let mut writer = done(52 + 64 * 16, &vec![empty(Adds::Open); 64]);
    check(&mut writer, [(empty(Adds::Open), 6), (empty(MARKER_CLOSE), 8), (Step::Finish, 7)]);
}

// --- the buffer ---

#[test]
fn the_buffer_while_it_is_built() {
    let writer = done(140, &[entry(0, 1, "p"), source("x"), entry(1, 1, "q"), source("é"), node(Adds::Open, 0, 1)]);
    let open = Node { kind: OPEN, flags: 0, marker: UNKNOWN, link: 0, start: 0, length: 1 };
    let text = Node { kind: TEXT, start: 1, length: 2, ..open };
    let entries = [0, 1].map(|start| Entry { start, length: 1, category: 3, element: 0 }.bytes()).concat();
    let turned = |nodes: &[Node]| nodes.iter().flat_map(Node::bytes).rev().collect::<Vec<u8>>();
    let meant = |nodes: &[Node]| {
        let behind = [turned(nodes), entries.clone(), b"pq".to_vec()].concat();
        let mut buffer = fresh(140).buffer;
        buffer[52..55].copy_from_slice("xé".as_bytes());
        buffer[140 - behind.len()..].copy_from_slice(&behind);
        buffer
    };
    assert_eq!(writer.buffer, meant(&[open]));
    let mut writer = writer;
    check(&mut writer, [(node(Adds::Text, 1, 2), 0)]);
    assert_eq!(writer.buffer, meant(&[open, text]));
    check(&mut writer, [(empty(MARKER_CLOSE), 0)]);
    let close = Node { kind: CLOSE, start: 0, length: 0, ..open };
    assert_eq!(writer.buffer, meant(&[Node { link: 3, ..open }, text, close]));
    assert_eq!(writer.state, State { nodes: 3, entries: 2, names: 2, source: 3, ..WORKING });
}

#[test]
fn the_buffer_behind_the_file() {
    let steps = [entry(0, 1, "p"), source("xé"), empty(Adds::Text)];
    let (size, moved) = (52 + 3 + 25, 25);
    for free in [0, 1, 24, 25, 26, 60] {
        let mut writer = done(size + free, &steps);
        let before = writer.clone();
        check(&mut writer, [(Step::Finish, 0)]);
        assert_eq!(writer.state, State { phase: FINISHED, ..before.state });
        let kept = free.saturating_sub(moved);
        assert_eq!(writer.buffer[size..size + kept], before.buffer[size..size + kept]);
        assert_eq!(writer.buffer[size + kept..], vec![0; free - kept]);
        assert_eq!(answer(&writer.buffer[..size]).number(), 0);
    }
}

#[test]
fn the_listing_step_by_step() {
    let given = |flags, marker, number, start, length| Given { flags, marker, number, start, length };
    let entries = [(0, 2, 0, "id"), (2, 1, 1, "c"), (3, 1, 3, "p"), (4, 1, 2, "v")];
    let named = |(start, length, category, name): (u32, u16, u8, &str)| {
        Step::Entry(Entry { start, length, category, element: 0 }, name.into())
    };
    let nodes = [
        (Adds::Open, given(0, 0, 0, 0, 3)),
        (Adds::Text, given(0, UNKNOWN, 0, 3, 6)),
        (BLOCK_CLOSE, given(1, 0, 0, 9, 0)),
        (Adds::Chapter, given(0, 1, 2, 9, 0)),
        (Adds::Open, given(0, 2, 0, 9, 2)),
        (Adds::Verse, given(0, 3, 0, 11, 4)),
        (Adds::Text, given(0, UNKNOWN, 0, 15, 5)),
        (BLOCK_CLOSE, given(1, 2, 0, 20, 0)),
    ];
    let pieces = ["\\id GEN x", "\\p\\v 1 Sing"].map(source);
    let nodes = nodes.map(|(adds, given)| Step::Node(adds, given));
    let steps = [entries.map(named).to_vec(), pieces.to_vec(), nodes.to_vec()].concat();
    let tape = include_bytes!("../../examples/listing.tape");
    let mut writer = done(tape.len(), &steps);
    check(&mut writer, [(Step::Finish, 0)]);
    assert_eq!(writer.buffer, tape);
    assert_eq!(finished(done(1_000, &steps)), listing());
}

// --- states that no step gave ---

#[test]
fn states_that_do_not_fit_are_before_start() {
    let fits = State { nodes: 2, entries: 1, names: 3, source: 5, inner: 2, depth: 64, ..WORKING };
    let room = fits.size() as usize + 16;
    let others = [
        State { phase: 3, ..fits },
        State { nodes: 262_144, ..fits },
        State { entries: 1_025, ..fits },
        State { names: 16_385, ..fits },
        State { source: 4_194_305, ..fits },
        State { inner: 3, ..fits },
        State { depth: 65, ..fits },
        State { source: 22, ..fits },
        State { nodes: u32::MAX, entries: u32::MAX, names: u32::MAX, source: u32::MAX, ..fits },
    ];
    check(&mut Writer { state: fits, ..fresh(room) }, [(empty(Adds::Open), 6), (Step::Finish, 7), (Step::Start, 16)]);
    check(&mut Writer { state: State { source: 21, ..fits }, ..fresh(room) }, [(source(""), 0), (source("a"), 8)]);
    for state in others {
        let mut writer = Writer { state, ..fresh(room) };
        check(&mut writer, [(empty(Adds::Text), 16), (Step::Finish, 16), (Step::Start, 0)]);
        assert_eq!(writer.state, WORKING);
    }
}

#[test]
fn what_is_open_told_wrong() {
    let chapter = Step::Node(Adds::Chapter, Given { number: 77, ..EMPTY });
    let built = done(500, &[empty(Adds::Text), chapter, empty(Adds::Open)]);
    let told = |inner, depth| Writer { state: State { inner, depth, ..built.state }, ..built.clone() };
    check(&mut told(0, 1), [(empty(MARKER_CLOSE), 7), (Step::Finish, 7)]);
    check(&mut told(3, 0), [(empty(MARKER_CLOSE), 7), (Step::Finish, 7)]);
    // A Text's link is 0; a Chapter's link is its number, which is no node.
    check(&mut told(1, 2), [(empty(MARKER_CLOSE), 0), (empty(MARKER_CLOSE), 7)]);
    let mut writer = told(2, 2);
    check(&mut writer, [(empty(MARKER_CLOSE), 0), (empty(MARKER_CLOSE), 16), (Step::Start, 0)]);
    let mut writer = told(0, 0);
    check(&mut writer, [(Step::Finish, 0)]);
    assert_eq!(answer(&writer.buffer[..100]).number(), 7);
}

/// A byte that begins no character is one of its own; one that continues a character is no place of a span.
#[test]
fn a_source_cut_inside_a_character() {
    let verse = |length| Step::Node(Adds::Verse, Given { marker: 0, length, ..EMPTY });
    let mut writer = done(500, &[entry(0, 2, "vv"), source("\\vé")]);
    writer.state.source = 3;
    check(&mut writer, [(verse(3), 0), (source("é"), 0), (verse(5), 0), (verse(4), 5), (verse(3), 0)]);
    writer.state.source = 1;
    writer.buffer[52] = 0xA9;
    check(&mut writer, [(node(Adds::Text, 0, 1), 5), (node(Adds::Text, 1, 0), 0), (Step::Finish, 0)]);
    assert_eq!(answer(&writer.buffer[..writer.state.size() as usize]).number(), 3);
}

// --- the stream ---

fn item(room: u32, steps: Vec<Step>) -> Item {
    Item { room, fill: 250, commands: steps.into_iter().map(Command::Step).collect() }
}

#[test]
fn lines_of_an_item() {
    let mut item = item(70, vec![Step::Finish, Step::Start, source("ab"), node(Adds::Text, 1, 1), source("c")]);
    item.commands.push(Command::State(State { nodes: 1, source: 2, ..WORKING }));
    item.commands.push(Command::Step(Step::Finish));
    // Header and Root, then the node with its bytes turned around and as they stand in the file.
    let head =
        "0100000002000000240000000000000044000000000000004400000002000000440000000001ffff020000000000000000000000";
    let (turned, node) = ("000000010000000100000000ffff0001", "0100ffff000000000100000001000000");
    let meant = format!(
        "finish number 16 length 0 state 0 0 0 0 0 0 0
start number 0 length 52 state 1 0 0 0 0 0 0
source number 0 length 54 state 1 0 0 0 2 0 0 at 52 6162
text number 0 length 70 state 1 1 0 0 2 0 0 at 54 {turned}
source number 8 length 71 state 1 1 0 0 2 0 0
state 1 1 0 0 2 0 0
finish number 0 length 70 state 2 1 0 0 2 0 0 at 0 {head}{node}6162
admitted
"
    );
    assert_eq!(lines(&item), meant);
}

#[test]
fn items_are_read_as_they_are_written() {
    let mut steps = vec![Step::Start, entry(1, 2, "abc"), source("é"), Step::Finish];
    steps.extend(ALL.map(|adds| Step::Node(adds, Given { flags: 3, start: 4, length: 5, ..EMPTY })));
    let mut whole = item(300, steps);
    whole.commands.push(Command::State(State {
        nodes: 1,
        entries: 2,
        names: 3,
        source: 4,
        inner: 5,
        depth: 6,
        ..WORKING
    }));
    let bytes = whole.bytes();
    assert_eq!(Item::read(&bytes), Some(whole.clone()));
    // A step that is cut off, or unknown, ends the item.
    whole.commands.pop();
    assert_eq!(Item::read(&bytes[..bytes.len() - 1]), Some(whole.clone()));
    assert_eq!(Item::read(&[whole.bytes(), vec![13, 0]].concat()), Some(whole));
    assert_eq!(Item::read(&bytes[..5]).map(|item| item.commands.len()), Some(0));
    assert_eq!(Item::read(&bytes[..4]), None);
}
