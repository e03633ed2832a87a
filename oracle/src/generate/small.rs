//! All small tapes. The size is the number of items: nodes besides Root and the closes.

use crate::notation;
use crate::tapes::{self, Item};

/// The nodes without children, in the notation of docs/DIFFERENCES.md.
const SINGLES: &str = r#"T"a" T" " T" a " T"a//b" T"\u{A0}" V"\v 1" C1 E"x" A"|k=v" A"|h" ?. va."#;

/// The containers, each empty here.
const CONTAINERS: &str =
    "p{} nd[] +xt[] f[] va[] ca[] cat[] tr{} tc[] esb{} periph{} fig[] ref[] id{} usfm{} ts[] ?{} ?[]";

/// All lists of items with `n` items in all, told apart by numbers below `count(n)`.
struct Forests {
    singles: Vec<Item>,
    containers: Vec<Item>,
    counts: Vec<usize>,
}

impl Forests {
    fn new(size: usize) -> Forests {
        let (singles, containers) = (notation::items(SINGLES), notation::items(CONTAINERS));
        let mut forests = Forests { singles, containers, counts: vec![1] };
        for n in 1..=size {
            let count = (0..n).map(|k| forests.firsts(k) * forests.counts[n - 1 - k]).sum();
            forests.counts.push(count);
        }
        forests
    }

    /// How many items have `k` items inside.
    fn firsts(&self, k: usize) -> usize {
        let singles = if k == 0 { self.singles.len() } else { 0 };
        singles + self.containers.len() * self.counts[k]
    }

    fn first(&self, k: usize, number: usize) -> Item {
        let inside = self.counts[k];
        if number >= self.containers.len() * inside {
            return self.singles[number - self.containers.len() * inside].clone();
        }
        let mut item = self.containers[number / inside].clone();
        if let Item::Container { children, .. } = &mut item {
            *children = self.list(k, number % inside);
        }
        item
    }

    fn list(&self, n: usize, mut number: usize) -> Vec<Item> {
        for k in 0..n {
            let rest = self.counts[n - 1 - k];
            if number < self.firsts(k) * rest {
                let mut items = vec![self.first(k, number / rest)];
                items.extend(self.list(n - 1 - k, number % rest));
                return items;
            }
            number -= self.firsts(k) * rest;
        }
        Vec::new()
    }
}

/// All tapes of 0 to `size` items over the two alphabets above.
pub fn small(size: usize) -> impl Iterator<Item = Vec<u8>> {
    let forests = Forests::new(size);
    let entries: Vec<_> = notation::ENTRIES.iter().map(|e| e.1).collect();
    let numbers = (0..=size).flat_map({
        let counts = forests.counts.clone();
        move |n| (0..counts[n]).map(move |number| (n, number))
    });
    numbers.map(move |(n, number)| tapes::tape(&forests.list(n, number), &entries, false).file())
}
