//! Lists of steps as a stream, and what the second writer answers to them; both forms stand in the README.

use std::io::{self, BufReader, Read, Write};

use crate::answer::read_tape;
use crate::loader::{self, Refusal};
use crate::tapes::{Entry, UNKNOWN};
use crate::writer::{Adds, Answer, Given, State, Step, Writer};

/// The longest item, and the longest buffer.
pub const MOST_BYTES: usize = 65_536;

/// One item of the stream: a buffer's length, what fills it, and what is done with it.
#[derive(Clone, PartialEq, Eq, Debug)]
pub struct Item {
    pub room: u32,
    pub fill: u8,
    pub commands: Vec<Command>,
}

/// A step, or a state set by hand.
#[derive(Clone, PartialEq, Eq, Debug)]
pub enum Command {
    Step(Step),
    State(State),
}

const STATE_CODE: u8 = 12;

/// The code and the name of a step.
fn code_and_name(step: &Step) -> (u8, &'static str) {
    match step {
        Step::Start => (0, "start"),
        Step::Entry(..) => (1, "entry"),
        Step::Source(_) => (2, "source"),
        Step::Node(Adds::Open, _) => (3, "open"),
        Step::Node(Adds::Close { .. }, _) => (4, "close"),
        Step::Node(Adds::Leaf, _) => (5, "leaf"),
        Step::Node(Adds::Text, _) => (6, "text"),
        Step::Node(Adds::Attribute, _) => (7, "attribute"),
        Step::Node(Adds::Error, _) => (8, "error"),
        Step::Node(Adds::Chapter, _) => (9, "chapter"),
        Step::Node(Adds::Verse, _) => (10, "verse"),
        Step::Finish => (11, "finish"),
    }
}

// --- to bytes ---

impl Item {
    pub fn bytes(&self) -> Vec<u8> {
        let mut out = self.room.to_le_bytes().to_vec();
        out.push(self.fill);
        self.commands.iter().for_each(|command| command.put(&mut out));
        out
    }

    /// The buffer before the first step.
    pub fn buffer(&self) -> Vec<u8> {
        let byte = |i: u32| (u32::from(self.fill) + 7 * i) as u8;
        (0..self.room).map(byte).collect()
    }
}

impl Command {
    fn put(&self, out: &mut Vec<u8>) {
        match self {
            Command::Step(step) => put_step(out, step),
            Command::State(s) => {
                out.extend([STATE_CODE, s.phase]);
                put_words(out, &[s.nodes, s.entries, s.names, s.source, s.inner, s.depth]);
            }
        }
    }
}

fn put_words(out: &mut Vec<u8>, words: &[u32]) {
    out.extend(words.iter().flat_map(|w| w.to_le_bytes()));
}

fn put_step(out: &mut Vec<u8>, step: &Step) {
    out.push(code_and_name(step).0);
    match step {
        Step::Start | Step::Finish => {}
        Step::Entry(entry, name) => {
            out.extend(entry.bytes());
            put_sized(out, name);
        }
        Step::Source(piece) => put_sized(out, piece),
        Step::Node(adds, given) => put_given(out, *adds, given),
    }
}

fn put_sized(out: &mut Vec<u8>, bytes: &[u8]) {
    let size = u16::try_from(bytes.len()).expect("at most 65,535 bytes in a step");
    out.extend(size.to_le_bytes());
    out.extend(bytes);
}

fn put_given(out: &mut Vec<u8>, adds: Adds, given: &Given) {
    if let Adds::Close { block } = adds {
        out.push(u8::from(block));
    }
    out.push(given.flags);
    if adds.bears_marker() {
        out.extend(given.marker.to_le_bytes());
    }
    if adds.bears_number() {
        put_words(out, &[given.number]);
    }
    put_words(out, &[given.start, given.length]);
}

// --- from bytes ---

impl Item {
    /// None if room and fill are cut off. A step that is cut off or unknown ends the item.
    pub fn read(bytes: &[u8]) -> Option<Item> {
        let mut reader = Reader { rest: bytes };
        let (room, fill) = (reader.u32()?, reader.u8()?);
        let commands = std::iter::from_fn(|| reader.command()).collect();
        Some(Item { room, fill, commands })
    }
}

struct Reader<'a> {
    rest: &'a [u8],
}

impl<'a> Reader<'a> {
    fn take(&mut self, length: usize) -> Option<&'a [u8]> {
        self.rest.split_off(..length)
    }

    fn u8(&mut self) -> Option<u8> {
        Some(self.take(1)?[0])
    }

    fn u16(&mut self) -> Option<u16> {
        Some(u16::from_le_bytes(self.take(2)?.try_into().ok()?))
    }

    fn u32(&mut self) -> Option<u32> {
        Some(u32::from_le_bytes(self.take(4)?.try_into().ok()?))
    }

    fn sized(&mut self) -> Option<Vec<u8>> {
        let size = self.u16()?;
        Some(self.take(usize::from(size))?.to_vec())
    }

    fn command(&mut self) -> Option<Command> {
        let code = self.u8()?;
        if code == STATE_CODE { self.state().map(Command::State) } else { self.step(code).map(Command::Step) }
    }

    fn state(&mut self) -> Option<State> {
        Some(State {
            phase: self.u8()?,
            nodes: self.u32()?,
            entries: self.u32()?,
            names: self.u32()?,
            source: self.u32()?,
            inner: self.u32()?,
            depth: self.u32()?,
        })
    }

    fn step(&mut self, code: u8) -> Option<Step> {
        let adds = match code {
            0 => return Some(Step::Start),
            1 => return Some(Step::Entry(self.entry()?, self.sized()?)),
            2 => return Some(Step::Source(self.sized()?)),
            3 => Adds::Open,
            4 => Adds::Close { block: self.u8()? != 0 },
            5 => Adds::Leaf,
            6 => Adds::Text,
            7 => Adds::Attribute,
            8 => Adds::Error,
            9 => Adds::Chapter,
            10 => Adds::Verse,
            11 => return Some(Step::Finish),
            _ => return None,
        };
        Some(Step::Node(adds, self.given(adds)?))
    }

    fn entry(&mut self) -> Option<Entry> {
        Some(Entry { start: self.u32()?, length: self.u16()?, category: self.u8()?, element: self.u8()? })
    }

    fn given(&mut self, adds: Adds) -> Option<Given> {
        Some(Given {
            flags: self.u8()?,
            marker: if adds.bears_marker() { self.u16()? } else { UNKNOWN },
            number: if adds.bears_number() { self.u32()? } else { 0 },
            start: self.u32()?,
            length: self.u32()?,
        })
    }
}

// --- what is answered ---

/// Answers a stream of items.
pub fn stream(input: impl Read, mut output: impl Write) -> io::Result<()> {
    let mut input = BufReader::with_capacity(1 << 16, input);
    let mut bytes = Vec::new();
    while read_tape(&mut input, &mut bytes)? {
        let item = Item::read(&bytes).filter(|item| item.room as usize <= MOST_BYTES);
        let item = item.ok_or_else(|| io::Error::other("an item without room and fill, or with too much room"))?;
        writeln!(output, "{}", lines(&item))?;
    }
    output.flush()
}

/// What is written of an item, without the empty line behind it.
pub fn lines(item: &Item) -> String {
    let mut writer = Writer::new(item.buffer());
    item.commands.iter().map(|command| run(&mut writer, command)).collect()
}

fn run(writer: &mut Writer, command: &Command) -> String {
    match command {
        Command::State(state) => {
            writer.state = *state;
            format!("{}\n", state_words(state))
        }
        Command::Step(step) => {
            let before = writer.buffer.clone();
            let answer = writer.take(step);
            let said = format!("{} number {} length {}", code_and_name(step).1, answer.number, answer.length);
            let changed = changed(&before, &writer.buffer);
            format!("{said} {}{changed}\n{}", state_words(&writer.state), judged(step, &answer, &writer.buffer))
        }
    }
}

fn state_words(s: &State) -> String {
    let State { phase, nodes, entries, names, source, inner, depth } = s;
    format!("state {phase} {nodes} {entries} {names} {source} {inner} {depth}")
}

/// Where the first changed byte stands, and the bytes from there to the last changed one.
fn changed(before: &[u8], after: &[u8]) -> String {
    let differs = |i: &usize| before[*i] != after[*i];
    let (Some(first), Some(last)) = ((0..after.len()).find(differs), (0..after.len()).rfind(differs)) else {
        return String::new();
    };
    format!(" at {first} {}", hex(&after[first..=last]))
}

fn hex(bytes: &[u8]) -> String {
    let digit = |half: u8| char::from(b"0123456789abcdef"[usize::from(half)]);
    bytes.iter().flat_map(|byte| [digit(byte >> 4), digit(byte & 15)]).collect()
}

/// Behind a finish that is done: whether document 01 admits the file.
fn judged(step: &Step, answer: &Answer, buffer: &[u8]) -> String {
    if *step != Step::Finish || answer.number != 0 {
        return String::new();
    }
    match loader::load(&buffer[..answer.length as usize]) {
        Ok(_) => "admitted\n".into(),
        Err(Refusal(number)) => format!("refused {number}\n"),
    }
}
