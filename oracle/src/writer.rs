//! The tape writer once more, by document 02's request One: each step reads the draft in the buffer and lays it out anew.

use crate::loader::{MAX_ENTRIES, MAX_NAMES, MAX_NODES, MAX_OPEN, MAX_SOURCE};
use crate::tapes::*;

/// Header and Root, which stand before the source.
pub const HEAD_BYTES: usize = 52;
const NODE_BYTES: usize = 16;
const ENTRY_BYTES: usize = 8;

pub const BEFORE_START: u8 = 0;
pub const AT_WORK: u8 = 1;
pub const FINISHED: u8 = 2;

const MOST_FLAGS: u8 = SYNTHETIC | NESTED;
const MOST_CATEGORY: u8 = 7;
const MOST_ELEMENT: u8 = 3;

// --- what is asked and answered ---

/// The seven numbers that a writer keeps beside the buffer.
#[derive(Clone, Copy, PartialEq, Eq, Debug, Default)]
pub struct State {
    pub phase: u8,
    /// Without Root.
    pub nodes: u32,
    pub entries: u32,
    pub names: u32,
    pub source: u32,
    /// The index of the innermost open container, 0 for none.
    pub inner: u32,
    /// How many containers are open.
    pub depth: u32,
}

impl State {
    /// How long the file is.
    pub fn size(&self) -> u64 {
        let behind = 16 * u64::from(self.nodes) + 8 * u64::from(self.entries) + u64::from(self.names);
        HEAD_BYTES as u64 + behind + u64::from(self.source)
    }

    /// Whether the counts are within the limits and a buffer of this length holds them.
    pub fn fits(&self, room: usize) -> bool {
        let limits = self.phase <= FINISHED
            && self.nodes < MAX_NODES
            && self.entries <= MAX_ENTRIES
            && self.names <= MAX_NAMES
            && self.source <= MAX_SOURCE;
        limits && self.inner <= self.nodes && i64::from(self.depth) <= MAX_OPEN && self.size() <= room as u64
    }

    /// The phase; that of a state that does not fit is before start.
    fn counted_phase(&self, room: usize) -> u8 {
        if self.fits(room) { self.phase } else { BEFORE_START }
    }
}

#[derive(Clone, PartialEq, Eq, Debug)]
pub enum Step {
    Start,
    /// An entry, and the name bytes that it brings.
    Entry(Entry, Vec<u8>),
    Source(Vec<u8>),
    Node(Adds, Given),
    Finish,
}

/// The steps that add a node.
#[derive(Clone, Copy, PartialEq, Eq, Debug)]
pub enum Adds {
    Open,
    /// A BlockEnd if `block`, else a MarkerClose.
    Close {
        block: bool,
    },
    Leaf,
    Text,
    Attribute,
    Error,
    Chapter,
    Verse,
}

impl Adds {
    pub fn bears_marker(self) -> bool {
        !matches!(self, Adds::Text | Adds::Attribute | Adds::Error)
    }

    pub fn bears_number(self) -> bool {
        matches!(self, Adds::Chapter | Adds::Verse)
    }

    fn kind(self) -> u8 {
        match self {
            Adds::Open | Adds::Leaf => OPEN,
            Adds::Close { block: false } => CLOSE,
            Adds::Close { block: true } => BLOCK_END,
            Adds::Text => TEXT,
            Adds::Attribute => ATTRIBUTE,
            Adds::Error => ERROR,
            Adds::Chapter => CHAPTER,
            Adds::Verse => VERSE,
        }
    }
}

/// What a step gives of its node; marker and number count only where the node bears them.
#[derive(Clone, Copy, PartialEq, Eq, Debug)]
pub struct Given {
    pub flags: u8,
    pub marker: u16,
    pub number: u32,
    pub start: u32,
    pub length: u32,
}

/// The length is that of the file with the step where the number is 0 or 8, else 0.
#[derive(Clone, Copy, PartialEq, Eq, Debug)]
pub struct Answer {
    pub number: u8,
    pub length: u64,
}

fn refused(number: u8) -> Answer {
    Answer { number, length: 0 }
}

/// Gives the refusal `number` unless `fine`.
fn demand(fine: bool, number: u8) -> Result<(), Answer> {
    if fine { Ok(()) } else { Err(refused(number)) }
}

/// Gives refusal 8 if a file of `length` is longer than the buffer.
fn demand_room(length: usize, room: usize) -> Result<(), Answer> {
    if length <= room { Ok(()) } else { Err(Answer { number: 8, length: length as u64 }) }
}

// --- the writer ---

#[derive(Clone, PartialEq, Eq, Debug)]
pub struct Writer {
    pub state: State,
    pub buffer: Vec<u8>,
}

impl Writer {
    pub fn new(buffer: Vec<u8>) -> Writer {
        Writer { state: State::default(), buffer }
    }

    /// Takes a step. A refused one changes nothing.
    pub fn take(&mut self, step: &Step) -> Answer {
        match self.after(step) {
            Ok(next) => {
                assert_eq!(next.buffer.len(), self.buffer.len());
                *self = next;
                Answer { number: 0, length: self.state.size() }
            }
            Err(answer) => answer,
        }
    }

    fn after(&self, step: &Step) -> Result<Writer, Answer> {
        let phase = self.state.counted_phase(self.buffer.len());
        demand(phase == if *step == Step::Start { BEFORE_START } else { AT_WORK }, 16)?;
        let add = |change: &dyn Fn(&mut Draft) -> Result<(), Answer>| {
            let mut draft = Draft::read(&self.state, &self.buffer);
            change(&mut draft)?;
            Ok(Writer { state: draft.state(), buffer: draft.laid_out() })
        };
        match step {
            Step::Start => self.started(),
            Step::Entry(entry, name) => add(&|draft| draft.add_entry(*entry, name)),
            Step::Source(piece) => add(&|draft| draft.add_source(piece)),
            Step::Node(adds, given) => add(&|draft| draft.add_node(*adds, given)),
            Step::Finish => Draft::read(&self.state, &self.buffer).finished(),
        }
    }

    fn started(&self) -> Result<Writer, Answer> {
        demand_room(HEAD_BYTES, self.buffer.len())?;
        Ok(Writer { state: State { phase: AT_WORK, ..State::default() }, buffer: self.buffer.clone() })
    }
}

// --- the draft ---

/// What a buffer holds while a file is built, in the order of its places.
struct Draft {
    head: Vec<u8>,
    source: Vec<u8>,
    free: Vec<u8>,
    /// Without Root; in the buffer all their bytes are turned around.
    nodes: Vec<Node>,
    entries: Vec<Entry>,
    names: Vec<u8>,
    inner: u32,
    depth: u32,
}

impl Draft {
    /// The draft of a state that fits the buffer.
    fn read(state: &State, buffer: &[u8]) -> Draft {
        let free = buffer.len() - state.size() as usize;
        let mut rest = buffer;
        let mut next = |length: usize| rest.split_off(..length).expect("a state that fits").to_vec();
        let head = next(HEAD_BYTES);
        let source = next(state.source as usize);
        let free = next(free);
        let turned = next(NODE_BYTES * state.nodes as usize);
        let entries = next(ENTRY_BYTES * state.entries as usize);
        let names = next(state.names as usize);
        let nodes: Vec<u8> = turned.into_iter().rev().collect();
        Draft {
            head,
            source,
            free,
            nodes: Node::read_all(&nodes),
            entries: Entry::read_all(&entries),
            names,
            inner: state.inner,
            depth: state.depth,
        }
    }

    fn laid_out(&self) -> Vec<u8> {
        let nodes: Vec<u8> = self.nodes.iter().flat_map(Node::bytes).collect();
        let turned: Vec<u8> = nodes.into_iter().rev().collect();
        let entries: Vec<u8> = self.entries.iter().flat_map(Entry::bytes).collect();
        [&self.head, &self.source, &self.free, &turned, &entries, &self.names].map(Vec::as_slice).concat()
    }

    fn state(&self) -> State {
        State {
            phase: AT_WORK,
            nodes: self.nodes.len() as u32,
            entries: self.entries.len() as u32,
            names: self.names.len() as u32,
            source: self.source.len() as u32,
            inner: self.inner,
            depth: self.depth,
        }
    }

    /// The bytes of nodes, entries and names.
    fn behind(&self) -> usize {
        NODE_BYTES * self.nodes.len() + ENTRY_BYTES * self.entries.len() + self.names.len()
    }

    /// Refusal 8 if `more` bytes are not free.
    fn has_free(&self, more: usize) -> Result<(), Answer> {
        let size = HEAD_BYTES + self.source.len() + self.behind();
        demand_room(size + more, size + self.free.len())
    }

    fn add_entry(&mut self, entry: Entry, name: &[u8]) -> Result<(), Answer> {
        demand(self.nodes.is_empty(), 16)?;
        let names = self.names.len() + name.len();
        demand(self.entries.len() < MAX_ENTRIES as usize && names <= MAX_NAMES as usize, 2)?;
        demand(name.iter().all(|b| (0x21..=0x7E).contains(b)) && is_good_entry(&entry, names), 4)?;
        self.has_free(ENTRY_BYTES + name.len())?;
        self.free.truncate(self.free.len() - ENTRY_BYTES - name.len());
        self.entries.push(entry);
        self.names.extend(name);
        Ok(())
    }

    fn add_source(&mut self, piece: &[u8]) -> Result<(), Answer> {
        demand(self.source.len() + piece.len() <= MAX_SOURCE as usize, 2)?;
        demand(std::str::from_utf8(piece).is_ok(), 3)?;
        self.has_free(piece.len())?;
        self.free.drain(..piece.len());
        self.source.extend(piece);
        Ok(())
    }

    fn add_node(&mut self, adds: Adds, given: &Given) -> Result<(), Answer> {
        demand(self.nodes.len() + 2 <= MAX_NODES as usize, 2)?;
        demand(self.is_good_node(adds, given), 5)?;
        match adds {
            Adds::Open => demand(i64::from(self.depth) < MAX_OPEN, 6)?,
            Adds::Close { .. } => demand(self.inner != 0 && self.depth != 0, 7)?,
            _ => {}
        }
        self.has_free(NODE_BYTES)?;
        self.free.truncate(self.free.len() - NODE_BYTES);
        let link = self.linked(adds, given);
        let marker = if adds.bears_marker() { given.marker } else { UNKNOWN };
        let Given { flags, start, length, .. } = *given;
        self.nodes.push(Node { kind: adds.kind(), flags, marker, link, start, length });
        Ok(())
    }

    /// The link of the next node; what is open is told anew.
    fn linked(&mut self, adds: Adds, given: &Given) -> u32 {
        let index = self.nodes.len() as u32 + 1;
        match adds {
            Adds::Leaf => index,
            Adds::Open => {
                self.depth += 1;
                std::mem::replace(&mut self.inner, index)
            }
            Adds::Close { .. } => {
                self.depth -= 1;
                let container = &mut self.nodes[self.inner as usize - 1];
                self.inner = std::mem::replace(&mut container.link, index);
                0
            }
            Adds::Chapter | Adds::Verse => given.number,
            Adds::Text | Adds::Attribute | Adds::Error => 0,
        }
    }

    /// What refusal 5 asks of a node.
    fn is_good_node(&self, adds: Adds, given: &Given) -> bool {
        let (start, end) = (given.start as usize, given.start as usize + given.length as usize);
        let in_source = end <= self.source.len() && is_boundary(&self.source, start) && is_boundary(&self.source, end);
        if given.flags > MOST_FLAGS || !in_source {
            return false;
        }
        let entry = self.entries.get(usize::from(given.marker));
        let other = entry.is_none_or(|e| e.element == 0);
        let base = entry.map_or(0, |e| usize::from(e.length));
        match adds {
            Adds::Chapter => other,
            Adds::Verse => other && is_whole_label(&self.source[start..end], base),
            _ => true,
        }
    }

    /// The file at the buffer's front; behind it the free bytes that it leaves, then zeros.
    fn finished(self) -> Result<Writer, Answer> {
        demand(self.depth == 0 && self.inner == 0, 7)?;
        let state = State { phase: FINISHED, ..self.state() };
        let taken = self.behind().min(self.free.len());
        let behind = [&self.free[taken..], &vec![0; taken]].concat();
        let link = self.nodes.len() as u32 + 1;
        let root = Node { kind: ROOT, flags: SYNTHETIC, marker: UNKNOWN, link, start: 0, length: 0 };
        let nodes = [vec![root], self.nodes].concat();
        let file = Parts { nodes, entries: self.entries, names: self.names, source: self.source }.file();
        Ok(Writer { state, buffer: [file, behind].concat() })
    }
}

/// Whether an entry's name lies in so many name bytes, and its category and element are known.
fn is_good_entry(entry: &Entry, names: usize) -> bool {
    let end = entry.start as usize + usize::from(entry.length);
    end <= names && entry.category <= MOST_CATEGORY && entry.element <= MOST_ELEMENT
}

// --- characters of any bytes: what a state set by hand counts as source need not be UTF-8 ---

/// Whether a place is the end, or stands before a byte that continues no sequence.
fn is_boundary(bytes: &[u8], at: usize) -> bool {
    at == bytes.len() || bytes.get(at).is_some_and(|b| !(0x80..=0xBF).contains(b))
}

/// The characters with their widths; a byte that begins none is U+FFFD of one byte.
fn characters(bytes: &[u8]) -> Vec<(char, usize)> {
    let mut all = Vec::new();
    let mut rest = bytes;
    while !rest.is_empty() {
        let whole = (1..=rest.len().min(4)).find_map(|n| std::str::from_utf8(&rest[..n]).ok()?.chars().next());
        let (c, width) = whole.map_or((char::REPLACEMENT_CHARACTER, 1), |c| (c, c.len_utf8()));
        all.push((c, width));
        rest = &rest[width..];
    }
    all
}

/// Whether a verse label is not cut inside a character: it is the second word, else the marker name past `base`.
fn is_whole_label(text: &[u8], base: usize) -> bool {
    let all: String = characters(text).iter().map(|c| c.0).collect();
    let name = name_in(text);
    all.split_whitespace().nth(1).is_some() || base >= name.len() || is_boundary(name, base)
}

/// The marker name: behind an optional `\` and an optional `+`, up to white space, `*`, `|`, `\` or the end.
fn name_in(text: &[u8]) -> &[u8] {
    let text = text.strip_prefix(b"\\").unwrap_or(text);
    let text = text.strip_prefix(b"+").unwrap_or(text);
    let ends = |c: char| c.is_whitespace() || matches!(c, '*' | '|' | '\\');
    let length = characters(text).iter().take_while(|c| !ends(c.0)).map(|c| c.1).sum();
    &text[..length]
}
