//! The oracle's commands; see the README.

use std::io::{self, BufWriter, Read, Write};
use std::process::ExitCode;

use oracle::generate::Cuts;
use oracle::{
    answer, both_sides, check, check_cases, dump, export, names, notation, rebuild, rendered, replay, steps, tidy,
    windows,
};

const USAGE: &str = "usage: oracle print   one tape on standard input, printed as the printing program prints it
       oracle stream  a stream of tapes to a stream of answers
       oracle cursor  a stream of tapes to what the cursor says of every node
       oracle render  a stream of tapes to what the helpers of rendering say of every node
       oracle names   a stream of tapes to what usx_names writes of each
       oracle judged  a stream of tapes to the same, and the checker's answer to the text of each
       oracle name-list  a stream of tapes to all names of every node
       oracle check   a stream of finished texts to what usx_check writes of each
       oracle check-cases  the texts on both sides of each rule of the checker, as a stream
       oracle replay  a stream of tapes to what calls with buffers of several lengths give
       oracle cuts    a stream of tapes to tapes with cuts, the gate's runs
       oracle cuts random SEED  the same, three random runs of each tape
       oracle cuts by N  the same, one run of each tape in windows of N bytes
       oracle windows  a stream of tapes with cuts to what the windows of each run give
       oracle both-sides  the tapes of document 01's examples 1 to 13 and its listing, as a stream
       oracle steps   a stream of lists of steps to what the second tape writer answers
       oracle rebuild-check  a stream of tapes, each written anew by the second tape writer and compared
       oracle export-check  a stream of tapes, each exported from what the loader read and compared
       oracle tidy SEED COUNT  so many texts, both laws of the normalized body tried on the Rust's
       oracle tape NOTATION  the tape of docs/DIFFERENCES.md's notation, on standard output";

fn main() -> ExitCode {
    let args: Vec<String> = std::env::args().skip(1).collect();
    let args: Vec<&str> = args.iter().map(String::as_str).collect();
    let done = match args[..] {
        ["print"] => print(),
        ["tape", line] => io::stdout().lock().write_all(&notation::file(line)),
        ["cursor"] => dump::stream(io::stdin().lock(), BufWriter::new(io::stdout().lock())),
        ["render"] => rendered::stream(io::stdin().lock(), BufWriter::new(io::stdout().lock())),
        ["names"] => names::stream(io::stdin().lock(), BufWriter::new(io::stdout().lock())),
        ["judged"] => names::judged(io::stdin().lock(), BufWriter::new(io::stdout().lock())),
        ["name-list"] => names::list(io::stdin().lock(), BufWriter::new(io::stdout().lock())),
        ["check"] => check::stream(io::stdin().lock(), BufWriter::new(io::stdout().lock())),
        ["check-cases"] => check_cases::write(BufWriter::new(io::stdout().lock())),
        ["replay"] => replay::stream(io::stdin().lock(), BufWriter::new(io::stdout().lock())),
        ["cuts", ref kind @ ..] => cuts(kind),
        ["windows"] => windows::stream(io::stdin().lock(), BufWriter::new(io::stdout().lock())),
        ["both-sides"] => both_sides::write(BufWriter::new(io::stdout().lock())),
        ["steps"] => steps::stream(io::stdin().lock(), BufWriter::new(io::stdout().lock())),
        ["rebuild-check"] => rebuild::check(io::stdin().lock(), io::stdout().lock()),
        ["export-check"] => export::check(io::stdin().lock(), io::stdout().lock()),
        ["tidy", seed, count] => tidy(seed, count),
        ["stream"] => answer::stream(io::stdin().lock(), BufWriter::new(io::stdout().lock())),
        _ => {
            eprintln!("{USAGE}");
            return ExitCode::from(2);
        }
    };
    match done {
        Ok(()) => ExitCode::SUCCESS,
        Err(error) => {
            eprintln!("oracle: {error}");
            ExitCode::FAILURE
        }
    }
}

/// One byte beyond the limit is enough to know that a tape is too long.
fn print() -> io::Result<()> {
    let mut tape = Vec::new();
    io::stdin().lock().take(answer::PRINT_BYTES as u64 + 1).read_to_end(&mut tape)?;
    io::stdout().lock().write_all(&answer::print(&tape))
}

fn tidy(seed: &str, count: &str) -> io::Result<()> {
    let (Ok(seed), Ok(count)) = (seed.parse(), count.parse()) else {
        return Err(io::Error::other("SEED and COUNT are numbers"));
    };
    tidy::check(seed, count, io::stdout().lock())
}

fn cuts(kind: &[&str]) -> io::Result<()> {
    let cuts = cuts_of(kind).ok_or_else(|| io::Error::other("which cuts? random SEED, by N up to 65,536, or none"))?;
    windows::cut(io::stdin().lock(), BufWriter::new(io::stdout().lock()), &cuts)
}

fn cuts_of(kind: &[&str]) -> Option<Cuts> {
    match *kind {
        [] => Some(Cuts::Gate),
        ["random", seed] => seed.parse().ok().map(Cuts::Random),
        ["by", room] => room.parse().ok().filter(|&room| room as usize <= windows::MOST_BYTES).map(Cuts::By),
        _ => None,
    }
}
