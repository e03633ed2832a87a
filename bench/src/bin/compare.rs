//! Compares the proved serializer with the Rust on tape files, with output buffers of every relation to the text's length.
//!
//! Tapes come as a stream on standard input (`gen`'s form), or as files named in the arguments. For each the Rust's answer is taken once, and
//! `serialize` called with each room: number, length and every byte of the buffer are compared. Says what was compared; exits with 1 at a difference.

#[allow(dead_code)]
#[path = "../api.rs"]
mod api;

use oracle::answer::{answer_or_panic, read_tape, Answer};
use oracle::replay::call;
use std::io::{self, BufReader};
use std::process::ExitCode;

/// What was compared so far.
#[derive(Default)]
struct Count {
    tapes: usize,
    calls: usize,
    bytes: usize,
    longest: usize,
    numbers: [usize; 9],
    differ: usize,
}

/// The byte that stands at a place of a buffer before the call: neighbours differ, and no short period repeats.
fn before(at: usize) -> u8 {
    (at as u64).wrapping_mul(0x9E37_79B9_7F4A_7C15).rotate_left(24) as u8
}

/// Rooms on both sides of a length: none, one byte, half, one less, exact, one more, and more by up to a thousand.
fn rooms(length: usize, tape: usize) -> Vec<usize> {
    let mut all = vec![0, 1, length / 2, length.saturating_sub(1), length, length + 1, length + 2 + tape % 999];
    all.sort_unstable();
    all.dedup();
    all
}

/// The number, the length given and the buffer that document 01 asks for.
fn expected(answer: &Answer, room: usize) -> (u8, usize, Vec<u8>) {
    let mut buffer: Vec<u8> = (0..room).map(before).collect();
    let (number, length, written) = call(answer, room);
    buffer[..written.len()].copy_from_slice(written.as_bytes());
    (number, length, buffer)
}

impl Count {
    fn tape(&mut self, tape: &[u8], name: &str) {
        let answer = answer_or_panic(tape);
        let length = answer.text().len();
        for room in rooms(length, self.tapes) {
            let mut buffer: Vec<u8> = (0..room).map(before).collect();
            let (number, given) = api::serialize(tape, &mut buffer);
            if (number, given, buffer) != expected(&answer, room) {
                self.differ += 1;
                println!("{name}: room {room}: ours is number {number}, length {given}; the Rust's number {}, length {length}", answer.number());
            }
            self.calls += 1;
        }
        self.tapes += 1;
        self.bytes += length;
        self.longest = self.longest.max(length);
        self.numbers[usize::from(answer.number()).min(8)] += 1;
    }

    fn print(&self) {
        let [written, refused @ .., panicked] = self.numbers;
        println!("{} tapes, {written} written ({} bytes, the longest {}), refused by 1 to 7: {refused:?}", self.tapes, self.bytes, self.longest);
        println!("{} calls, {} differ, {panicked} panics of the Rust", self.calls, self.differ);
    }
}

fn stream(count: &mut Count) -> io::Result<()> {
    let mut input = BufReader::with_capacity(1 << 16, io::stdin().lock());
    let mut tape = Vec::new();
    while read_tape(&mut input, &mut tape)? {
        let name = format!("tape {}", count.tapes);
        count.tape(&tape, &name);
    }
    Ok(())
}

fn main() -> io::Result<ExitCode> {
    let files: Vec<String> = std::env::args().skip(1).collect();
    let mut count = Count::default();
    if files.is_empty() {
        stream(&mut count)?;
    }
    for file in &files {
        count.tape(&std::fs::read(file)?, file);
    }
    count.print();
    Ok(ExitCode::from(u8::from(count.differ > 0)))
}
