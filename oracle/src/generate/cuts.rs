//! Runs of windows over a text, by its length.

use super::rng::Rng;
use crate::windows::{MOST_BYTES, Run};

const MODE: u64 = 9;

/// Lengths that share no divisor.
const PRIMES: [u32; 15] = [2, 3, 5, 7, 11, 13, 17, 19, 23, 29, 31, 37, 41, 43, 47];

/// A text over this length is gone through in some 32 passes or fewer.
const LONG: usize = 1_000;

/// Which runs a tape gets.
pub enum Cuts {
    /// Small windows and ones of about the text's length from its first byte on, and some around its end.
    Gate,
    /// Three random runs of this seed.
    Random(u64),
    /// One run of windows of this length.
    By(u32),
}

impl Cuts {
    /// The runs of tape `number` of a stream, whose text has this length, 0 if it is refused.
    pub fn runs(&self, number: u64, length: usize) -> Vec<Run> {
        match *self {
            Cuts::Gate => gate(length),
            Cuts::Random(seed) => random(seed, number, length),
            Cuts::By(room) => vec![run(0, &[room])],
        }
    }
}

fn run(from: u64, rooms: &[u32]) -> Run {
    Run { from, rooms: rooms.to_vec() }
}

fn gate(length: usize) -> Vec<Run> {
    let small = (1..=9).map(|room| run(0, &[room]));
    let uneven = [run(0, &PRIMES), run(0, &[0])];
    small.chain(uneven).chain(about_whole(length)).chain(about_end(length as u64)).collect()
}

/// From the first byte on, just the text's length, one byte less and one more.
fn about_whole(length: usize) -> impl Iterator<Item = Run> {
    let less = length.checked_sub(1).filter(|&less| less > 0);
    let rooms = [Some(length), less, Some(length + 1)].into_iter().flatten();
    rooms.filter(|&room| room <= MOST_BYTES).map(|room| run(0, &[room as u32]))
}

/// From the text's end on, from one byte before it, from one past it, and from as far as can be asked.
fn about_end(length: u64) -> impl Iterator<Item = Run> {
    let starts = [Some(length), length.checked_sub(1), Some(length + 1), Some(u64::MAX)];
    starts.into_iter().flatten().map(|from| run(from, &[5]))
}

fn random(seed: u64, number: u64, length: usize) -> Vec<Run> {
    let mut r = Rng::new(MODE, seed, number);
    (0..3).map(|_| random_run(&mut r, length)).collect()
}

fn random_run(r: &mut Rng, length: usize) -> Run {
    let from = if r.once_in(2) { 0 } else { r.below(length + 10) as u64 };
    let mut rooms: Vec<usize> = (0..r.within(1, 6)).map(|_| random_room(r, length)).collect();
    let least = length / 32;
    if length > LONG && (1..least).contains(&rooms.iter().sum()) {
        let at = r.below(rooms.len());
        rooms[at] = r.within(least, length);
    }
    Run { from, rooms: rooms.into_iter().map(|room| room.min(MOST_BYTES) as u32).collect() }
}

/// No byte, a few, a part of the text, or up to twice the text.
fn random_room(r: &mut Rng, length: usize) -> usize {
    match r.below(8) {
        0 | 1 => 0,
        2..=4 => r.within(1, 12),
        5 | 6 => r.within(1, 1 + length / 4),
        _ => r.below(2 * length + 1),
    }
}
