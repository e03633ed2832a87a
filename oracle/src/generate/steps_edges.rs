//! Lists of steps on both sides of each refusal of each step.

use crate::loader::{MAX_ENTRIES, MAX_NAMES, MAX_NODES, MAX_SOURCE};
use crate::steps::{Command, Item};
use crate::tapes::{Entry, UNKNOWN};
use crate::writer::{AT_WORK, Adds, FINISHED, Given, HEAD_BYTES, State, Step, Writer};

/// A buffer that no list but those of `limits` fills.
const AMPLE: usize = 4_000;

/// All items, in order; each buffer is filled in its own way.
pub fn steps_edges() -> impl Iterator<Item = Item> {
    let groups = [
        starts(),
        entries(),
        sources(),
        nodes(),
        numbers(),
        labels(),
        nests(),
        short_rooms(),
        orders(),
        finishes(),
        states(),
        odd_states(),
        limits(),
    ];
    let filled = |(i, item): (usize, Item)| Item { fill: (37 * i) as u8, ..item };
    groups.into_iter().flatten().enumerate().map(filled)
}

// --- parts of lists ---

const ALL: [Adds; 9] = [
    Adds::Open,
    Adds::Close { block: false },
    Adds::Close { block: true },
    Adds::Leaf,
    Adds::Text,
    Adds::Attribute,
    Adds::Error,
    Adds::Chapter,
    Adds::Verse,
];

const CLOSE: Adds = Adds::Close { block: false };

/// Characters of 1, 2, 3 and 4 bytes: places 0, 1, 3, 6, 10.
const WIDTHS: &str = "aé中😀";

fn source(piece: impl AsRef<[u8]>) -> Step {
    Step::Source(piece.as_ref().to_vec())
}

fn entry(start: u32, length: u16, name: impl AsRef<[u8]>) -> Step {
    with_codes(start, length, 3, 0, name)
}

fn with_codes(start: u32, length: u16, category: u8, element: u8, name: impl AsRef<[u8]>) -> Step {
    Step::Entry(Entry { start, length, category, element }, name.as_ref().to_vec())
}

const EMPTY: Given = Given { flags: 0, marker: UNKNOWN, number: 0, start: 0, length: 0 };

fn spanned(adds: Adds, start: u32, length: u32) -> Step {
    Step::Node(adds, Given { start, length, ..EMPTY })
}

fn empty(adds: Adds) -> Step {
    spanned(adds, 0, 0)
}

/// Each step once, none of them with a fault of its own but for the close.
fn each() -> Vec<Step> {
    let mut steps = vec![Step::Start, entry(0, 1, "p"), source("é")];
    steps.extend(ALL.map(empty));
    steps.push(Step::Finish);
    steps
}

fn item(room: usize, steps: Vec<Step>) -> Item {
    Item { room: room as u32, fill: 0, commands: steps.into_iter().map(Command::Step).collect() }
}

/// Start and these steps, in a buffer with some bytes to spare.
fn work(steps: Vec<Step>) -> Item {
    let steps = [vec![Step::Start], steps].concat();
    item(size(&steps) + 40, steps)
}

/// How long the file is behind these steps, in a buffer that holds it.
fn size(steps: &[Step]) -> usize {
    let mut writer = Writer::new(vec![0; AMPLE]);
    for step in steps {
        writer.take(step);
    }
    writer.state.size() as usize
}

/// A state set by hand, then these steps.
fn by_hand(room: usize, state: State, steps: Vec<Step>) -> Item {
    let mut item = item(room, steps);
    item.commands.insert(0, Command::State(state));
    item
}

const WORKING: State = State { phase: AT_WORK, nodes: 0, entries: 0, names: 0, source: 0, inner: 0, depth: 0 };

// --- 16, before start and behind finish ---

fn starts() -> Vec<Item> {
    let rooms = [0, HEAD_BYTES - 1, HEAD_BYTES, HEAD_BYTES + 1];
    let mut items: Vec<Item> = rooms.map(|room| item(room, vec![Step::Start, Step::Start, Step::Finish])).into();
    let before = each().split_off(1);
    items.extend([0, HEAD_BYTES - 1, 500].map(|room| item(room, before.clone())));
    items.push(work([vec![Step::Finish], each()].concat()));
    items.push(work([vec![source("a"), empty(Adds::Text), Step::Start, Step::Finish], wrong_each()].concat()));
    items
}

/// Steps with faults of their own, which 16 comes before.
fn wrong_each() -> Vec<Step> {
    let far = ALL.map(|adds| spanned(adds, u32::MAX, u32::MAX));
    [vec![with_codes(9, 9, 9, 9, b"\xFF"), source(b"\xFF")], far.into()].concat()
}

// --- 2 and 4, entries ---

fn entries() -> Vec<Item> {
    let bytes = [0x20, 0x21, 0x7E, 0x7F, 0x80, 0x00, 0xFF].map(|byte| entry(0, 0, [b'a', byte, b'b']));
    let codes = [(7, 3), (8, 0), (255, 0), (0, 4), (0, 255), (7, 0), (0, 3), (8, 4)];
    let codes = codes.map(|(category, element)| with_codes(0, 0, category, element, ""));
    let spans = [(0, 3), (0, 4), (3, 0), (4, 0), (1, 2), (2, 2), (u32::MAX, 1), (u32::MAX, 0), (0, u16::MAX)];
    let spans = spans.map(|(start, length)| entry(start, length, ""));
    let brought = [(0, 2, "ab"), (2, 2, "cd"), (4, 3, "ef"), (3, 3, "ef"), (7, 0, ""), (6, 0, "")];
    let brought = brought.map(|(start, length, name)| entry(start, length, name));
    let shared = [(0, 2, "vw"), (0, 2, ""), (0, 1, ""), (1, 1, "x"), (1, 2, "")];
    let shared = shared.map(|(start, length, name)| entry(start, length, name));
    let after_node = [entry(0, 0, ""), entry(9, 9, b"\xFF"), Step::Finish];
    vec![
        work(bytes.into()),
        work(codes.into()),
        work([vec![entry(0, 3, "abc")], spans.into()].concat()),
        work(brought.into()),
        work([shared.to_vec(), vec![source("x"), empty(Adds::Text), Step::Finish]].concat()),
        work([vec![source("xy"), entry(0, 1, "p"), source("z"), entry(0, 1, "")], vec![Step::Finish]].concat()),
        work([vec![entry(0, 1, "p"), empty(Adds::Text)], after_node.to_vec()].concat()),
        work([vec![empty(Adds::Open)], after_node.to_vec()].concat()),
    ]
}

// --- 3, sources ---

fn sources() -> Vec<Item> {
    #[rustfmt::skip]
    let good: [&[u8]; 9] = [
        b"", b"\x00\x7F", b"\xC2\x80", b"\xDF\xBF", b"\xE0\xA0\x80", b"\xED\x9F\xBF", b"\xEE\x80\x80", b"\xF0\x90\x80\x80", b"\xF4\x8F\xBF\xBF",
    ];
    #[rustfmt::skip]
    let bad: [&[u8]; 12] = [
        b"\x80", b"\xC0\x80", b"\xC1\xBF", b"\xC2", b"\xC2\x7F", b"\xE0\x9F\xBF", b"\xED\xA0\x80", b"\xF0\x8F\xBF\xBF", b"\xF4\x90\x80\x80",
        b"\xF5\x80\x80\x80", b"\xFF", b"a\xE4\xB8",
    ];
    let halves = [b"a\xC3".as_slice(), b"\xA9b", b"a\xC3\xA9b"];
    vec![
        work([good.map(source).to_vec(), vec![Step::Finish]].concat()),
        work([bad.map(source).to_vec(), vec![Step::Finish]].concat()),
        work([halves.map(source).to_vec(), vec![Step::Finish]].concat()),
        work(vec![source("a"), spanned(Adds::Text, 0, 2), source("é"), spanned(Adds::Text, 0, 3), Step::Finish]),
    ]
}

// --- 5, each kind of node ---

#[rustfmt::skip]
const SPANS: [(u32, u32); 20] = [
    (0, 0), (0, 10), (10, 0), (1, 2), (3, 3), (6, 4), (0, 11), (11, 0), (10, 1), (2, 0), (1, 1), (2, 1), (0, 5), (4, 2), (7, 3), (6, 3), (u32::MAX, 0),
    (u32::MAX, 1), (1, u32::MAX), (u32::MAX, u32::MAX),
];

/// Every span and every bound of flags for each kind of node; what a close needs is open.
fn nodes() -> Vec<Item> {
    let tries = |adds: Adds| {
        let given = Given { marker: 0, number: u32::MAX, ..EMPTY };
        let flags = [1, 2, 3, 4, 8, 255].map(|flags| Step::Node(adds, Given { flags, ..given }));
        let spans = SPANS.map(|(start, length)| Step::Node(adds, Given { start, length, ..given }));
        let opens = if matches!(adds, Adds::Close { .. }) { 12 } else { 0 };
        let setup = vec![entry(0, 1, "p"), source(WIDTHS)];
        work([setup, vec![empty(Adds::Open); opens], flags.to_vec(), spans.to_vec(), vec![Step::Finish]].concat())
    };
    ALL.map(tries).into()
}

/// Markers of entries of every element, and unknown ones, for each kind of node.
fn numbers() -> Vec<Item> {
    let tries = |adds: Adds| {
        let mut steps: Vec<Step> = (0..4).map(|element| with_codes(0, 0, 3, element, "")).collect();
        let opens = if matches!(adds, Adds::Close { .. }) { 6 } else { 0 };
        steps.extend(vec![empty(Adds::Open); opens]);
        let marked = |marker| Step::Node(adds, Given { marker, number: 7, ..EMPTY });
        steps.extend([0, 1, 2, 3, 4, UNKNOWN].map(marked));
        steps.push(Step::Finish);
        work(steps)
    };
    ALL.map(tries).into()
}

#[rustfmt::skip]
const LABELS: [&str; 22] = [
    "\\vé", "\\vé 1", "\\vé ", " \\vé", "\\+vé", "\\v*é", "\\v|é", "\\v\\é", "\\v\u{a0}é", "\\v\u{3000}é", "\\v\u{85}é x", "😀", "\\😀", "é", "\\", "+", "", "\\++é",
    "+\\é", "\\v中中", "vvvv", "\\vé\u{2028}x",
];

/// Verses, and a Chapter, over each text, by entries with names of 0 to 5 bytes and by an unknown one.
fn labels() -> Vec<Item> {
    let tries = |text: &str| {
        let mut steps = vec![entry(0, 0, "vvvvv")];
        steps.extend((1..=5).map(|length| entry(0, length, "")));
        steps.push(source(text));
        let length = text.len() as u32;
        let marked = |adds, marker| Step::Node(adds, Given { marker, number: 1, length, ..EMPTY });
        steps.extend((0..=6).map(|marker| marked(Adds::Verse, marker)));
        steps.extend([marked(Adds::Chapter, 2), Step::Finish]);
        work(steps)
    };
    LABELS.map(tries).into()
}

// --- 6 and 7, nesting ---

fn nests() -> Vec<Item> {
    let deep = |n: usize| vec![empty(Adds::Open); n];
    let shut = |n: usize| vec![empty(CLOSE); n];
    let block = Adds::Close { block: true };
    let mixed = [Adds::Open, Adds::Text, Adds::Open, Adds::Leaf, CLOSE, Adds::Open, block, block, block, Adds::Leaf];
    let at_64 = [Adds::Leaf, Adds::Verse, CLOSE, Adds::Open, Adds::Open].map(empty).to_vec();
    vec![
        work([deep(64), vec![Step::Finish], shut(65), vec![Step::Finish]].concat()),
        work([deep(66), vec![Step::Finish]].concat()),
        work([deep(64), at_64].concat()),
        work([mixed.map(empty).to_vec(), vec![Step::Finish]].concat()),
        work([shut(1), vec![empty(block), empty(Adds::Leaf)], shut(1), vec![Step::Finish]].concat()),
        work([deep(1), vec![Step::Finish], shut(2), deep(2), shut(1), vec![Step::Finish]].concat()),
    ]
}

// --- 8, and what comes before it ---

/// Each kind of step in a buffer of just its length, and in one that lacks a byte.
fn short_rooms() -> Vec<Item> {
    let base = vec![Step::Start, entry(0, 2, "pv"), source(WIDTHS)];
    let tried = |setup: &[Step], step: Step| {
        let steps = [setup, &[step, source("y"), Step::Finish]].concat();
        let full = size(&steps[..setup.len() + 1]);
        [full, full - 1].map(|room| item(room, steps.clone()))
    };
    let opened = [base.clone(), vec![empty(Adds::Open)]].concat();
    let mut items = Vec::new();
    for step in [entry(0, 1, ""), entry(2, 3, "abc"), source("z"), source("é"), source("")] {
        items.extend(tried(&base, step));
    }
    for adds in ALL {
        items.extend(tried(if matches!(adds, Adds::Close { .. }) { &opened } else { &base }, empty(adds)));
    }
    // The same steps in buffers of many lengths, the first that of the whole file.
    let whole = [opened, vec![spanned(Adds::Text, 1, 2), empty(CLOSE), Step::Finish]].concat();
    items.extend((HEAD_BYTES..=size(&whole)).rev().step_by(5).map(|room| item(room, whole.clone())));
    items
}

/// Two faults at once: the lower number is given, 16 before all.
fn orders() -> Vec<Item> {
    let full = |steps: Vec<Step>, tries: Vec<Step>| {
        let steps = [vec![Step::Start], steps].concat();
        item(size(&steps), [steps, tries].concat())
    };
    let far = |adds| spanned(adds, 1, 0);
    let many = vec![b'n'; MAX_NAMES as usize + 1];
    let full_tries = vec![entry(0, 1, [0x20]), entry(0, 1, "p"), source(b"\xFF"), source("a"), Step::Start];
    let node_tries = ALL.iter().flat_map(|&adds| [far(adds), empty(adds)]).collect();
    let deep = vec![empty(Adds::Open); 64];
    let deep_tries = [far(Adds::Open), empty(Adds::Open), far(CLOSE), empty(CLOSE), empty(Adds::Text), Step::Finish];
    vec![
        full(vec![], full_tries.clone()),
        full(vec![entry(0, 1, "p")], full_tries),
        full(vec![], node_tries),
        full(deep, deep_tries.to_vec()),
        full(vec![empty(Adds::Leaf)], vec![entry(9, 9, [0x20]), entry(0, 0, ""), Step::Finish]),
        full(vec![empty(Adds::Open)], vec![empty(CLOSE), entry(0, 0, ""), Step::Finish]),
        full(vec![], vec![entry(0, 0, &many[1..]), entry(0, 0, [&[0x20], &many[1..]].concat())]),
        full(vec![], vec![entry(0, 0, &many), entry(0, 0, [&many[2..], &[0x20]].concat())]),
    ]
}

// --- finish ---

/// Drafts of every shape in buffers with no byte free, fewer than finish moves, as many, and more.
fn finishes() -> Vec<Item> {
    let entered = vec![entry(0, 1, "p"), entry(0, 1, "")];
    let noded = [Adds::Open, Adds::Text, CLOSE].map(empty).to_vec();
    let drafts = [
        vec![],
        vec![source("In the beginning")],
        entered.clone(),
        noded.clone(),
        [entered.clone(), vec![source("x")], noded.clone()].concat(),
        [entered, vec![source("word ".repeat(30))], noded].concat(),
    ];
    let tried = |draft: Vec<Step>| {
        let steps = [vec![Step::Start], draft, vec![Step::Finish, Step::Finish]].concat();
        let pieces = steps.iter().map(|step| if let Step::Source(piece) = step { piece.len() } else { 0 });
        let moved = size(&steps) - HEAD_BYTES - pieces.sum::<usize>();
        let mut free = vec![0, 1, moved.saturating_sub(1), moved, moved + 1, 2 * moved + 3];
        free.sort();
        free.dedup();
        free.into_iter().map(move |free| item(size(&steps) + free, steps.clone())).collect::<Vec<_>>()
    };
    drafts.into_iter().flat_map(tried).collect()
}

// --- states that no step gave ---

/// Each bound of a state that fits, in a buffer of 200 bytes.
fn states() -> Vec<Item> {
    let small = State { nodes: 2, entries: 1, names: 3, source: 5, inner: 1, depth: 1, ..WORKING };
    let full = 200 - small.size() as u32 + small.source;
    let all = [
        small,
        State { phase: 0, ..small },
        State { phase: FINISHED, ..small },
        State { phase: 3, ..small },
        State { phase: 255, ..small },
        State { inner: 2, ..small },
        State { inner: 3, ..small },
        State { inner: u32::MAX, ..small },
        State { depth: 64, ..small },
        State { depth: 65, ..small },
        State { depth: u32::MAX, ..small },
        State { source: full, ..small },
        State { source: full + 1, ..small },
        State { nodes: MAX_NODES - 1, ..small },
        State { nodes: MAX_NODES, ..small },
        State { entries: MAX_ENTRIES, ..small },
        State { names: MAX_NAMES, ..small },
        State { source: MAX_SOURCE, ..small },
        State { nodes: u32::MAX, entries: u32::MAX, names: u32::MAX, source: u32::MAX, ..small },
    ];
    let tries = || [empty(Adds::Text), empty(Adds::Open), empty(CLOSE), Step::Finish, Step::Start, Step::Finish];
    let mut items: Vec<Item> = all.map(|state| by_hand(200, state, tries().into())).into();
    items.extend([51, 52, 53].map(|room| by_hand(room, State { source: 1, ..WORKING }, tries().into())));
    items
}

/// What is open is told wrong, a character is cut, nodes and entries are any bytes.
fn odd_states() -> Vec<Item> {
    let setup = vec![Step::Start, entry(0, 2, "vv"), source("\\vé"), empty(Adds::Text), empty(Adds::Leaf)];
    let number = Given { marker: 9, number: 77, ..EMPTY };
    let setup = [setup, vec![Step::Node(Adds::Chapter, number), empty(Adds::Open), empty(Adds::Open)]].concat();
    let built = State { nodes: 5, entries: 1, names: 2, source: 4, inner: 5, depth: 2, ..WORKING };
    let verse = |length| Step::Node(Adds::Verse, Given { marker: 0, length, ..EMPTY });
    let shut = vec![empty(CLOSE), empty(CLOSE), Step::Finish, Step::Start, Step::Finish];
    let with = |state: State, steps: Vec<Step>| {
        let mut item = item(size(&setup) + 60, setup.clone());
        item.commands.push(Command::State(state));
        item.commands.extend(steps.into_iter().map(Command::Step));
        item
    };
    let opened = [(5, 0), (0, 2), (5, 1), (4, 2), (3, 2), (2, 2), (1, 2), (0, 0), (5, 64), (1, 1)];
    let mut items: Vec<Item> = opened.map(|(inner, depth)| with(State { inner, depth, ..built }, shut.clone())).into();
    // The source ends inside a character, and goes on with another.
    let cut = vec![verse(3), spanned(Adds::Text, 0, 3), source("é"), verse(5), verse(3), verse(4), shut[0].clone()];
    items.push(with(State { source: 3, ..built }, cut.clone()));
    items.push(with(State { source: 3, nodes: 0, inner: 0, depth: 0, ..built }, [cut, vec![Step::Finish]].concat()));
    items.push(with(State { entries: 0, names: 0, ..built }, shut.clone()));
    items.push(with(State { names: 10, ..built }, vec![verse(4), empty(Adds::Chapter), Step::Finish]));
    items.push(with(State { source: 20, ..built }, vec![verse(20), spanned(Adds::Text, 20, 0), source("y")]));
    let any = State { nodes: 2, entries: 3, names: 4, source: 30, ..WORKING };
    let spans = (0..30).map(|start| spanned(Adds::Text, start, 30 - start)).collect();
    items.push(by_hand(400, State { nodes: 0, ..any }, vec![entry(0, 4, ""), entry(4, 1, "n"), Step::Finish]));
    items.push(by_hand(700, any, spans));
    items.push(by_hand(200, any, vec![verse(30), verse(0), Step::Finish]));
    items
}

/// 2 for entries and names, by states that count as many as there may be.
fn limits() -> Vec<Item> {
    let tries = || vec![entry(0, 0, "n"), entry(0, 0, [0x20]), entry(0, 0, ""), empty(Adds::Text)];
    let state = |entries: u32, names: u32| {
        let state = State { entries, names, ..WORKING };
        by_hand(state.size() as usize + 30, state, tries())
    };
    vec![
        state(MAX_ENTRIES - 1, 0),
        state(MAX_ENTRIES, 0),
        state(MAX_ENTRIES + 1, 0),
        state(0, MAX_NAMES - 1),
        state(0, MAX_NAMES),
        state(0, MAX_NAMES + 1),
    ]
}
