//! Tapes with cuts as a stream, and what windows that follow one another give of each text; both forms stand in the README.

use std::io::{self, BufReader, Read, Write};

use crate::answer::{Answer, answer, read_tape, write_tape};
use crate::generate::Cuts;

/// The longest tape with cuts.
pub const MOST_TAPE: usize = 3_145_728;

/// The longest buffer of a window, and the most bytes that the runs of a tape have.
pub const MOST_BYTES: usize = 65_536;

/// Windows that follow one another from a byte on, and the lengths of their buffers in turn.
#[derive(Clone, PartialEq, Eq, Debug)]
pub struct Run {
    pub from: u64,
    pub rooms: Vec<u32>,
}

// --- to bytes ---

/// A stream of tapes to tapes with cuts; tapes over 3 MiB are left out.
pub fn cut(input: impl Read, mut output: impl Write, cuts: &Cuts) -> io::Result<()> {
    let mut input = BufReader::with_capacity(1 << 16, input);
    let (mut number, mut tape) = (0, Vec::new());
    while read_tape(&mut input, &mut tape)? {
        if tape.len() <= MOST_TAPE {
            write_tape(&mut output, &tape)?;
            write_tape(&mut output, &item(&cuts.runs(number, answer(&tape).text().len())))?;
        }
        number += 1;
    }
    output.flush()
}

/// The runs of a tape as an item of the stream.
pub fn item(runs: &[Run]) -> Vec<u8> {
    runs.iter().flat_map(Run::bytes).collect()
}

impl Run {
    fn bytes(&self) -> Vec<u8> {
        let mut out = self.from.to_le_bytes().to_vec();
        out.extend((self.rooms.len() as u32).to_le_bytes());
        out.extend(self.rooms.iter().flat_map(|room| room.to_le_bytes()));
        out
    }
}

// --- from bytes ---

/// The runs of an item. None if it is too long, or a run is cut off, has no length or one that is too great.
pub fn runs(item: &[u8]) -> Option<Vec<Run>> {
    let (mut rest, mut runs) = (item, Vec::new());
    while !rest.is_empty() {
        runs.push(Run::read(&mut rest)?);
    }
    (item.len() <= MOST_BYTES).then_some(runs)
}

impl Run {
    fn read(rest: &mut &[u8]) -> Option<Run> {
        let from = u64::from_le_bytes(front(rest)?);
        let count = u32::from_le_bytes(front(rest)?);
        let rooms: Option<Vec<u32>> = (0..count).map(|_| front(rest).map(u32::from_le_bytes)).collect();
        rooms.filter(|rooms| are_rooms(rooms)).map(|rooms| Run { from, rooms })
    }
}

fn are_rooms(rooms: &[u32]) -> bool {
    !rooms.is_empty() && rooms.iter().all(|&room| room as usize <= MOST_BYTES)
}

/// The next N bytes, taken from the rest.
fn front<const N: usize>(rest: &mut &[u8]) -> Option<[u8; N]> {
    let (front, behind) = rest.split_first_chunk()?;
    *rest = behind;
    Some(*front)
}

// --- what is given ---

/// Answers a stream of tapes with cuts.
pub fn stream(input: impl Read, mut output: impl Write) -> io::Result<()> {
    let mut input = BufReader::with_capacity(1 << 16, input);
    let (mut tape, mut item) = (Vec::new(), Vec::new());
    while read_tape(&mut input, &mut tape)? {
        let is_cut = read_tape(&mut input, &mut item)?;
        let runs = if is_cut { runs(&item) } else { None };
        let runs = runs.ok_or_else(|| io::Error::other("a tape without runs, or an item that is no list of runs"))?;
        write_runs(&mut output, &answer(&tape), &runs)?;
    }
    output.flush()
}

fn write_runs(out: &mut impl Write, answer: &Answer, runs: &[Run]) -> io::Result<()> {
    runs.iter().try_for_each(|run| out.write_all(&lines(answer, run)))?;
    writeln!(out)
}

/// What is written of a run.
pub fn lines(answer: &Answer, run: &Run) -> Vec<u8> {
    let Given { bytes, calls, unchanged } = given(answer, run);
    let (number, whole) = (answer.number(), answer.text().len());
    let last = format!(
        "\nfrom {}: number {number}, whole {whole}, {calls} calls, {} given, {unchanged} unchanged\n",
        run.from,
        bytes.len()
    );
    [bytes, last.into_bytes()].concat()
}

/// What the calls of a run gave so far, how many they are, and how many bytes of their buffers stayed as they were.
#[derive(Default)]
struct Given {
    bytes: Vec<u8>,
    calls: usize,
    unchanged: usize,
}

/// The list of lengths again and again, until a call ends the run or none of a pass gave a byte.
fn given(answer: &Answer, run: &Run) -> Given {
    let mut given = Given::default();
    loop {
        let before = given.bytes.len();
        let ended = run.rooms.iter().any(|&room| given.ends(answer, run.from, room as usize));
        if ended || given.bytes.len() == before {
            return given;
        }
    }
}

impl Given {
    /// One call more; whether it ends the run.
    fn ends(&mut self, answer: &Answer, from: u64, room: usize) -> bool {
        let shown = window(answer.text().as_bytes(), from + self.bytes.len() as u64, room);
        self.bytes.extend(shown);
        self.calls += 1;
        self.unchanged += room - shown.len();
        answer.number() != 0 || (shown.is_empty() && room > 0)
    }
}

/// The bytes of a text from one on, as many as there is room for.
fn window(text: &[u8], from: u64, room: usize) -> &[u8] {
    let rest = usize::try_from(from).ok().and_then(|from| text.get(from..)).unwrap_or(&[]);
    &rest[..room.min(rest.len())]
}
