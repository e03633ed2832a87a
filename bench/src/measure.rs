//! The best time of several runs of two sides, taken in turn.

use std::time::Instant;

pub struct Row {
    pub name: String,
    pub bytes: usize,
    pub ours: f64,
    pub rust: f64,
}

const RUNS: usize = 25;

fn time(f: &mut dyn FnMut()) -> f64 {
    let t = Instant::now();
    f();
    t.elapsed().as_secs_f64()
}

/// The best of several runs each; the sides take turns, so that all see the same machine.
pub fn best<const SIDES: usize>(runs: usize, mut sides: [&mut dyn FnMut(); SIDES]) -> [f64; SIDES] {
    let mut times = [f64::MAX; SIDES];
    for _ in 0..runs {
        for (least, side) in times.iter_mut().zip(&mut sides) {
            *least = least.min(time(side));
        }
    }
    times
}

pub fn row(name: String, bytes: usize, ours: &mut dyn FnMut(), rust: &mut dyn FnMut()) -> Row {
    let [ours, rust] = best(RUNS, [ours, rust]);
    Row { name, bytes, ours, rust }
}

pub fn print(other: &str, rows: &[Row]) {
    println!("{:<46} {:>10} {:>11} {:>11}", "", "ours ns/B", format!("{other} ns/B"), format!("ours/{other}"));
    for r in rows {
        let per = |t: f64| t * 1e9 / r.bytes as f64;
        println!("{:<46} {:>10.3} {:>11.3} {:>11.2}", r.name, per(r.ours), per(r.rust), r.ours / r.rust);
    }
}
