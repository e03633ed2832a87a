//! Random lists of steps: right and wrong steps mixed, states set by hand, buffers that run out.

use super::pool;
use super::rng::Rng;
use crate::loader::{MAX_ENTRIES, MAX_NAMES, MAX_NODES, MAX_SOURCE};
use crate::steps::{Command, Item};
use crate::tapes::{Entry, UNKNOWN};
use crate::writer::{AT_WORK, Adds, Given, HEAD_BYTES, State, Step, Writer};

const MODE: u64 = 7;

/// A buffer that these lists do not fill.
const AMPLE: u32 = 6_000;

/// Item `number` of `seed`.
pub fn steps(seed: u64, number: u64) -> Item {
    let mut r = Rng::new(MODE, seed, number);
    let build: fn(&mut List) = match r.below(100) {
        0..=58 => List::right,
        59 | 60 => List::deep,
        61..=79 => List::by_hand,
        80 => List::at_the_limits,
        _ => List::any,
    };
    let mut list = List::new(r, AMPLE);
    build(&mut list);
    list.item
}

struct List {
    r: Rng,
    item: Item,
    /// The second writer behind the steps so far.
    writer: Writer,
    /// Where the pieces of the source end.
    ends: Vec<usize>,
}

impl List {
    fn new(mut r: Rng, room: u32) -> List {
        let item = Item { room, fill: r.next() as u8, commands: Vec::new() };
        let writer = Writer::new(item.buffer());
        List { r, item, writer, ends: vec![0] }
    }

    /// Another buffer, before the first step.
    fn set_room(&mut self, room: usize) {
        self.item.room = room as u32;
        self.writer = Writer::new(self.item.buffer());
    }

    /// Adds a step, whatever the answer.
    fn put(&mut self, step: Step) {
        self.writer.take(&step);
        self.note(step);
    }

    /// Adds the first of a few steps that is done.
    fn offer(&mut self, make: fn(&mut List) -> Step) {
        for _ in 0..6 {
            let step = make(self);
            if self.writer.take(&step).number == 0 {
                return self.note(step);
            }
        }
    }

    fn note(&mut self, step: Step) {
        if let Step::Source(_) = step {
            self.ends.push(self.writer.state.source as usize);
        }
        self.item.commands.push(Command::Step(step));
    }

    fn set_state(&mut self, state: State) {
        self.writer.state = state;
        self.item.commands.push(Command::State(state));
    }
}

// --- whole lists ---

impl List {
    /// Right steps up to a finish, at times with wrong ones between them, before and behind.
    fn right(&mut self) {
        let odds = self.r.pick(&[3, 8, 1_000]);
        if self.r.once_in(6) {
            self.some(1, 3, List::any_step);
        }
        self.put(Step::Start);
        for _ in 0..self.r.below(6) {
            self.next(odds, List::entry);
        }
        for _ in 0..self.r.within(1, 4) {
            self.next(odds, List::source);
        }
        for _ in 0..self.r.below(40) {
            let make = if self.r.once_in(6) { List::source } else { List::node };
            self.next(odds, make);
        }
        self.close_all(odds);
        self.put(Step::Finish);
        if self.r.once_in(4) {
            self.some(1, 4, List::any_step);
        }
        self.cut_room();
    }

    /// A right step, at times with a wrong one before it.
    fn next(&mut self, odds: usize, make: fn(&mut List) -> Step) {
        if self.r.once_in(odds) {
            let step = self.wrong();
            self.put(step);
        }
        self.offer(make);
    }

    fn some(&mut self, low: usize, high: usize, make: fn(&mut List) -> Step) {
        for _ in 0..self.r.within(low, high) {
            let step = make(self);
            self.put(step);
        }
    }

    /// Closes what is open; at times one stays open, or one close is too many.
    fn close_all(&mut self, odds: usize) {
        let left = u32::from(self.r.once_in(16));
        for _ in left..self.writer.state.depth {
            self.next(odds, List::close);
        }
        if self.r.once_in(16) {
            self.some(1, 2, List::close);
        }
    }

    /// Up to 66 containers inside each other.
    fn deep(&mut self) {
        self.put(Step::Start);
        self.offer(List::source);
        let most = self.r.pick(&[63, 64, 65, 66]);
        for _ in 0..most {
            if self.r.once_in(12) {
                self.offer(List::text);
            }
            let open = self.node_of(Adds::Open);
            self.put(open);
        }
        self.some(0, 2, List::any_step);
        self.close_all(1_000);
        self.put(Step::Finish);
        self.cut_room();
    }

    /// Any steps in any order.
    fn any(&mut self) {
        if !self.r.once_in(6) {
            self.put(Step::Start);
        }
        self.some(3, 50, List::any_step);
        if self.r.once_in(2) {
            self.put(Step::Finish);
        }
        self.cut_room();
    }

    /// Steps between states that no step gave.
    fn by_hand(&mut self) {
        let room = if self.r.once_in(12) { self.r.below(HEAD_BYTES + 20) } else { self.r.within(HEAD_BYTES, 1_200) };
        self.set_room(room);
        if self.r.once_in(2) {
            self.put(Step::Start);
            self.some(0, 3, List::entry);
            self.some(0, 3, List::source);
            self.some(0, 12, List::node);
        }
        for _ in 0..self.r.within(1, 4) {
            let state = self.hand_state();
            self.set_state(state);
            self.some(1, 6, List::any_step);
            if self.r.once_in(2) {
                self.put(Step::Finish);
            }
        }
    }

    /// States near the limits of entries and names in buffers that hold them.
    fn at_the_limits(&mut self) {
        let more = self.r.below(60);
        let off = u32::from(self.r.once_in(2));
        let state = State { phase: AT_WORK, ..State::default() };
        let state = if self.r.once_in(2) {
            State { entries: MAX_ENTRIES - off, names: self.r.below(9) as u32, ..state }
        } else {
            State { names: MAX_NAMES - off, entries: self.r.below(3) as u32, ..state }
        };
        self.set_room(state.size() as usize + more);
        self.set_state(state);
        self.some(1, 3, List::entry);
        self.some(1, 3, List::any_step);
    }

    /// A buffer for the list: more than it needs, just enough, or one that runs out somewhere.
    fn cut_room(&mut self) {
        let needed = self.writer.state.size().min(u64::from(AMPLE)) as usize;
        let room = match self.r.below(20) {
            0..=6 => needed + self.r.below(300),
            7..=9 => needed + self.r.below(needed),
            10..=12 => needed,
            13..=15 => needed - self.r.within(1, 40),
            16 => self.r.below(HEAD_BYTES + 2),
            _ => self.r.below(needed + 1),
        };
        self.item.room = room as u32;
    }
}

// --- states set by hand ---

impl List {
    fn hand_state(&mut self) -> State {
        match self.r.below(6) {
            0 | 1 => self.shifted_state(),
            2 | 3 => self.small_state(),
            4 => self.full_state(),
            _ => self.limit_state(),
        }
    }

    /// The state as it is, but for one number.
    fn shifted_state(&mut self) -> State {
        let mut state = self.writer.state;
        if !self.r.once_in(4) {
            state.phase = AT_WORK;
        }
        let (small, more) = (self.r.below(6) as u32, self.r.below(40) as u32);
        let choice = self.r.below(4);
        let shift = |old: u32| match choice {
            0 => old.wrapping_add(1),
            1 => old.wrapping_sub(1),
            2 => old.wrapping_add(more),
            _ => small,
        };
        let number = match self.r.below(10) {
            0 => &mut state.nodes,
            1 => &mut state.entries,
            2 => &mut state.names,
            3..=5 => &mut state.source,
            6 | 7 => &mut state.inner,
            _ => &mut state.depth,
        };
        *number = shift(*number);
        state
    }

    fn small_state(&mut self) -> State {
        let nodes = if self.r.once_in(3) { 0 } else { self.r.below(7) as u32 };
        let open = self.r.once_in(2);
        State {
            phase: if self.r.once_in(8) { self.r.below(4) as u8 } else { AT_WORK },
            nodes,
            entries: self.r.below(4) as u32,
            names: self.r.below(12) as u32,
            source: self.r.below(60) as u32,
            inner: if open { self.r.below(nodes as usize + 1) as u32 } else { 0 },
            depth: if open { self.r.pick(&[0, 1, 2, 63, 64]) } else { 0 },
        }
    }

    /// A small state with so much source that the buffer is full, nearly full or one byte too short.
    fn full_state(&mut self) -> State {
        let state = State { source: 0, ..self.small_state() };
        let left = u64::from(self.item.room).saturating_sub(state.size()) as u32;
        let source = match self.r.below(4) {
            0 => left + 1,
            1 => left.saturating_sub(self.r.within(1, 30) as u32),
            _ => left,
        };
        State { source, ..state }
    }

    /// A small state with one number at its limit or beyond; the great ones fit no buffer.
    fn limit_state(&mut self) -> State {
        let state = self.small_state();
        let over = u32::from(self.r.once_in(2));
        match self.r.below(9) {
            0 => State { nodes: MAX_NODES - 1 + over, ..state },
            1 => State { entries: MAX_ENTRIES + over, ..state },
            2 => State { names: MAX_NAMES + over, ..state },
            3 => State { source: MAX_SOURCE + over, ..state },
            4 => State { inner: state.nodes + over, depth: 1, ..state },
            5 => State { inner: state.nodes, depth: 64 + over, ..state },
            6 => State { phase: self.r.pick(&[0, 2, 3, 255]), ..state },
            7 => State { nodes: u32::MAX, source: u32::MAX, names: u32::MAX, ..state },
            _ => State { inner: u32::MAX, depth: u32::MAX, ..state },
        }
    }
}

// --- steps that are mostly right ---

const NAMES: [&str; 12] = ["v", "v", "vv", "vvv", "c", "p", "id", "tr", "", "long-name", "!~", "esb"];

#[rustfmt::skip]
const PIECES: [&str; 20] = [
    "\\vé", "\\v中", "\\v1é", "\\+v😀", "\\+vé", "\\v 1", "\\v é", "\\v\u{a0}é", "\\vé ", "\\vé*", "\\v中|x", "é", "😀😀", " \\vé", "v\u{3000}é 1",
    "\\c 2", "\\p", "\\\\é", "+é", "",
];

impl List {
    fn entry(&mut self) -> Step {
        let name = self.r.pick(&NAMES);
        let names = self.writer.state.names.min(MAX_NAMES) as usize;
        let all = names + name.len();
        let (start, length) = match self.r.below(4) {
            0 => {
                let start = self.r.below(all + 1);
                (start, self.r.below((all - start).min(8) + 1))
            }
            _ => (names, name.len()),
        };
        // Every third brings none where there are names to share.
        let shares = names > 0 && start + length <= names && self.r.once_in(3);
        let element = if self.r.once_in(4) { self.r.below(4) as u8 } else { 0 };
        let entry = Entry { start: start as u32, length: length as u16, category: self.r.below(8) as u8, element };
        Step::Entry(entry, if shares { Vec::new() } else { name.into() })
    }

    fn source(&mut self) -> Step {
        let piece = match self.r.below(5) {
            0 => pool::prose(&mut self.r),
            1 => pool::word(&mut self.r),
            2 => pool::attribute(&mut self.r),
            _ => self.r.pick(&PIECES).into(),
        };
        Step::Source(piece.into())
    }

    fn node(&mut self) -> Step {
        let adds = match self.r.below(14) {
            0..=2 if self.writer.state.depth < 8 => Adds::Open,
            3 | 4 if self.writer.state.depth > 0 => Adds::Close { block: self.r.once_in(2) },
            5 => Adds::Leaf,
            6 => Adds::Attribute,
            7 => Adds::Error,
            8 => Adds::Chapter,
            9..=11 => Adds::Verse,
            _ => Adds::Text,
        };
        self.node_of(adds)
    }

    fn text(&mut self) -> Step {
        self.node_of(Adds::Text)
    }

    fn close(&mut self) -> Step {
        let block = self.r.once_in(2);
        self.node_of(Adds::Close { block })
    }

    fn node_of(&mut self, adds: Adds) -> Step {
        let (start, end) = self.span();
        let entries = self.writer.state.entries.min(MAX_ENTRIES) as usize;
        let marker = if self.r.once_in(8) { self.r.pick(&[UNKNOWN, 1_024]) } else { self.r.below(entries + 1) as u16 };
        let number = if self.r.once_in(4) { self.r.next() as u32 } else { self.r.below(200) as u32 };
        let flags = if self.r.once_in(2) { 0 } else { self.r.below(4) as u8 };
        Step::Node(adds, Given { flags, marker, number, start: start as u32, length: (end - start) as u32 })
    }

    /// The bytes that the state counts as source.
    fn source_bytes(&self) -> &[u8] {
        let source = self.writer.state.source as usize;
        self.writer.buffer.get(HEAD_BYTES..HEAD_BYTES + source).unwrap_or(&[])
    }

    /// Whether the source has a byte there that continues a character.
    fn is_inside(&self, at: usize) -> bool {
        self.source_bytes().get(at).is_some_and(|b| (0x80..=0xBF).contains(b))
    }

    /// The places of the source inside characters, or all others.
    fn places(&self, inside: bool) -> Vec<usize> {
        (0..=self.source_bytes().len()).filter(|&at| self.is_inside(at) == inside).collect()
    }

    /// A span between characters: mostly one piece or some, at times any.
    fn span(&mut self) -> (usize, usize) {
        if self.r.once_in(5) {
            let places = self.places(false);
            let (a, b) = (self.r.pick(&places), self.r.pick(&places));
            return (a.min(b), a.max(b));
        }
        let size = self.source_bytes().len();
        let ends = self.ends.iter().copied().filter(|&end| end <= size && !self.is_inside(end));
        let ends: Vec<usize> = ends.chain([size]).collect();
        let from = self.r.below(ends.len());
        let more = if self.r.once_in(4) { self.r.below(4) } else { 1 };
        let to = (from + more).min(ends.len() - 1);
        (ends[from].min(ends[to]), ends[to].max(ends[from]))
    }
}

// --- steps that are mostly wrong ---

#[rustfmt::skip]
const NOT_UTF8: [&[u8]; 12] = [
    b"\x80", b"\xC3", b"\xA9", b"ab\xFF", b"\xE4\xB8", b"\xC0\x80", b"\xED\xA0\x80", b"\xF0\x8F\xBF\xBF", b"\xF4\x90\x80\x80", b"\xF0\x9F\x98", b"\xC3\xA9\xC3",
    b"\xE4\xB8\xAD\xAD",
];

impl List {
    fn any_step(&mut self) -> Step {
        match self.r.below(20) {
            0 => Step::Start,
            1 => Step::Finish,
            2 | 3 => self.entry(),
            4 | 5 => self.source(),
            6 => self.close(),
            7..=14 => self.node(),
            _ => self.wrong(),
        }
    }

    fn wrong(&mut self) -> Step {
        match self.r.below(16) {
            0 => Step::Start,
            1 if self.writer.state.depth > 0 => Step::Finish,
            2..=4 => self.wrong_entry(),
            5 | 6 => Step::Source(self.r.pick(&NOT_UTF8).into()),
            7 if self.writer.state.depth == 0 => self.close(),
            8..=11 => self.wrong_number(),
            _ => self.wrong_node(),
        }
    }

    fn wrong_entry(&mut self) -> Step {
        let Step::Entry(mut entry, mut name) = self.entry() else { unreachable!("an entry") };
        match self.r.below(5) {
            0 => {
                let at = self.r.below(name.len() + 1);
                name.insert(at, self.r.pick(&[0x20, 0x7F, 0x80, 0x00, 0xFF]));
            }
            1 => entry.category = self.r.pick(&[8, 9, 255]),
            2 => entry.element = self.r.pick(&[4, 5, 255]),
            3 if self.r.once_in(20) => name.resize(MAX_NAMES as usize + 1, b'n'),
            _ => {
                let all = self.writer.state.names.min(MAX_NAMES) + name.len() as u32;
                let outside = (all.saturating_sub(entry.start) as u16).saturating_add(1);
                (entry.start, entry.length) =
                    self.r.pick(&[(entry.start, outside), (all + 1, 0), (u32::MAX, 1), (0, u16::MAX)]);
            }
        }
        Step::Entry(entry, name)
    }

    fn wrong_node(&mut self) -> Step {
        let Step::Node(adds, mut given) = self.node() else { unreachable!("a node") };
        let size = self.source_bytes().len() as u32;
        let inside = self.places(true);
        match self.r.below(6) {
            0 => given.flags = self.r.pick(&[4, 5, 8, 255]),
            1 => given.length = size.saturating_sub(given.start) + 1,
            2 => {
                (given.start, given.length) =
                    self.r.pick(&[(size + 1, 0), (u32::MAX, 1), (1, u32::MAX), (u32::MAX, u32::MAX)])
            }
            _ if inside.is_empty() => given.start = size + 1,
            3 => (given.start, given.length) = (self.r.pick(&inside) as u32, 0),
            4 => given.length = (self.r.pick(&inside) as u32).saturating_sub(given.start),
            _ => {
                let start = self.r.pick(&inside) as u32;
                (given.start, given.length) = (start, size - start);
            }
        }
        Step::Node(adds, given)
    }

    /// A Chapter or Verse with an entry of another element, or a label cut inside a character, where a few tries find one.
    fn wrong_number(&mut self) -> Step {
        let adds = self.r.pick(&[Adds::Chapter, Adds::Verse, Adds::Verse, Adds::Verse]);
        let mut step = self.node_of(adds);
        for _ in 0..10 {
            if self.writer.clone().take(&step).number == 5 {
                break;
            }
            step = self.node_of(adds);
        }
        step
    }
}
