//! Counters for branches; put into the copy of the oracle that branches/count builds.

use std::sync::Mutex;
use std::sync::atomic::{AtomicU64, Ordering};

/// One branch with its two outcomes; a plain place has the first alone.
pub struct Site {
    name: &'static str,
    outcomes: [&'static str; 2],
    counts: [AtomicU64; 2],
}

static REACHED: Mutex<Vec<(&'static Site, usize)>> = Mutex::new(Vec::new());

impl Site {
    pub const fn new(name: &'static str, outcomes: [&'static str; 2]) -> Site {
        Site { name, outcomes, counts: [AtomicU64::new(0), AtomicU64::new(0)] }
    }

    pub fn hit(&'static self, outcome: usize) {
        if self.counts[outcome].fetch_add(1, Ordering::Relaxed) == 0 {
            REACHED.lock().unwrap().push((self, outcome));
        }
    }
}

/// Prints a line for each outcome reached: the count, a tab, the name with the outcome.
pub fn print() {
    for &(site, outcome) in REACHED.lock().unwrap().iter() {
        let count = site.counts[outcome].load(Ordering::Relaxed);
        println!("{count}\t{}{}", site.name, site.outcomes[outcome]);
    }
}

/// Counts a place.
macro_rules! hit {
    ($name:literal) => {{
        static SITE: crate::hit::Site = crate::hit::Site::new($name, ["", ""]);
        SITE.hit(0);
    }};
}

/// Counts both outcomes of a condition and gives the condition.
macro_rules! both {
    ($name:literal, $condition:expr) => {{
        static SITE: crate::hit::Site = crate::hit::Site::new($name, [": yes", ": no"]);
        let condition = $condition;
        SITE.hit(if condition { 0 } else { 1 });
        condition
    }};
}

/// Counts both outcomes of an option and gives the option.
macro_rules! some {
    ($name:literal, $option:expr) => {{
        static SITE: crate::hit::Site = crate::hit::Site::new($name, [": some", ": none"]);
        let option = $option;
        SITE.hit(if option.is_some() { 0 } else { 1 });
        option
    }};
}
