//! Writes a stream of tapes or of lists of steps; see the README.

use std::io::{self, BufWriter};
use std::process::ExitCode;

use oracle::answer::write_tape;
use oracle::generate;

const USAGE: &str = "usage: gen structured SEED COUNT [FIRST]
       gen random SEED COUNT [FIRST]
       gen damaged SEED COUNT [FIRST]
       gen glued SEED COUNT [FIRST]
       gen shared SEED COUNT [FIRST]
       gen hostile SEED COUNT [FIRST]
       gen small SIZE
       gen links SIZE
       gen limits
       gen steps SEED COUNT [FIRST]
       gen steps-edges
       gen rebuild MODE ...  one of the modes that give tapes";

type Stream = Box<dyn Iterator<Item = Vec<u8>>>;

fn main() -> ExitCode {
    let args: Vec<String> = std::env::args().skip(1).collect();
    let Some(mut stream) = steps(&args).or_else(|| tapes(&args)) else {
        eprintln!("{USAGE}");
        return ExitCode::from(2);
    };
    let mut out = BufWriter::with_capacity(1 << 16, io::stdout().lock());
    match stream.try_for_each(|item| write_tape(&mut out, &item)) {
        Ok(()) => ExitCode::SUCCESS,
        Err(error) => {
            eprintln!("gen: {error}");
            ExitCode::FAILURE
        }
    }
}

fn number(args: &[String], i: usize) -> Option<u64> {
    args.get(i)?.parse().ok()
}

/// COUNT items of SEED from FIRST on.
fn seeded(args: &[String], item: fn(u64, u64) -> Vec<u8>) -> Option<Stream> {
    let (seed, count, first) = (number(args, 1)?, number(args, 2)?, number(args, 3).unwrap_or(0));
    Some(Box::new((first..first + count).map(move |i| item(seed, i))))
}

fn steps(args: &[String]) -> Option<Stream> {
    match args.first()?.as_str() {
        "steps" => seeded(args, |seed, i| generate::steps(seed, i).bytes()),
        "steps-edges" => Some(Box::new(generate::steps_edges().map(|item| item.bytes()))),
        "rebuild" => {
            let numbered = (0..).zip(tapes(&args[1..])?);
            Some(Box::new(numbered.filter_map(|(i, tape)| Some(generate::rebuild(i, &tape)?.bytes()))))
        }
        _ => None,
    }
}

fn tapes(args: &[String]) -> Option<Stream> {
    let seeded = |tape| seeded(args, tape);
    let number = |i| number(args, i);
    match args.first()?.as_str() {
        "structured" => seeded(generate::structured),
        "random" => seeded(generate::random),
        "damaged" => seeded(|seed, i| generate::damaged(seed, i).file),
        "glued" => seeded(generate::glued),
        "shared" => seeded(generate::shared),
        "hostile" => seeded(generate::hostile),
        "small" => Some(Box::new(generate::small(number(1)? as usize))),
        "links" => Some(Box::new(generate::links(number(1)? as usize))),
        "limits" => Some(Box::new(generate::limits().map(|t| t.0))),
        _ => None,
    }
}
