//! Answers a stream of tapes without writing the answers, then prints the branches reached.

use std::io;

use oracle::answer::{answer, read_tape};

fn main() -> io::Result<()> {
    let (mut input, mut tape) = (io::stdin().lock(), Vec::new());
    while read_tape(&mut input, &mut tape)? {
        answer(&tape);
    }
    oracle::hit::print();
    Ok(())
}
