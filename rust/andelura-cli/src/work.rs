//! Pieces of work on several threads, their results in order.

use std::collections::BTreeMap;
use std::io;
use std::num::NonZeroUsize;
use std::sync::atomic::{AtomicUsize, Ordering};
use std::sync::mpsc::{channel, Sender};
use std::thread::{self, Builder, Scope};

/// The library wants 640 KiB.
const STACK: usize = 8 << 20;

/// How many threads the machine serves at once.
pub fn processors() -> usize {
    thread::available_parallelism().map_or(1, NonZeroUsize::get)
}

/// Does `work` for every index below `count`. Behind each piece `take` gets how many are done and the results that are due now, in order; where it says no, no further piece is begun.
pub fn in_order<R: Send>(
    count: usize,
    jobs: usize,
    work: impl Fn(usize) -> R + Sync,
    mut take: impl FnMut(usize, Vec<R>) -> bool,
) -> io::Result<()> {
    let next = AtomicUsize::new(0);
    thread::scope(|scope| {
        let (send, results) = channel();
        for job in 0..jobs.clamp(1, count.max(1)) {
            let started = start(scope, &next, count, &work, send.clone());
            // Fewer threads do the work as well.
            match started {
                Err(error) if job == 0 => return Err(error),
                Err(_) => break,
                Ok(()) => {}
            }
        }
        drop(send);
        let mut queue = Queue { next: 0, early: BTreeMap::new() };
        for (done, (index, result)) in results.iter().enumerate() {
            if !take(done + 1, queue.due(index, result)) {
                break;
            }
        }
        Ok(())
    })
}

/// Starts a thread that does piece after piece, until there is none or nobody takes the results.
fn start<'s, R: Send + 's>(
    scope: &'s Scope<'s, '_>,
    next: &'s AtomicUsize,
    count: usize,
    work: &'s (impl Fn(usize) -> R + Sync),
    send: Sender<(usize, R)>,
) -> io::Result<()> {
    let pieces = move || loop {
        let index = next.fetch_add(1, Ordering::Relaxed);
        if index >= count || send.send((index, work(index))).is_err() {
            break;
        }
    };
    Builder::new().stack_size(STACK).spawn_scoped(scope, pieces).map(drop)
}

/// Results that came before their turn.
struct Queue<R> {
    next: usize,
    early: BTreeMap<usize, R>,
}

impl<R> Queue<R> {
    /// All whose turn has come with this one.
    fn due(&mut self, index: usize, result: R) -> Vec<R> {
        self.early.insert(index, result);
        let mut due = Vec::new();
        while let Some(result) = self.early.remove(&self.next) {
            due.push(result);
            self.next += 1;
        }
        due
    }
}

#[cfg(test)]
mod tests {
    use super::*;
    use std::time::Duration;

    #[test]
    fn all_results_in_order() {
        for jobs in [1, 2, 5, 100] {
            let (mut taken, mut counts) = (Vec::new(), Vec::new());
            let slow_first = |index| {
                thread::sleep(Duration::from_millis(if index % 5 == 0 { 20 } else { 1 }));
                index * index
            };
            in_order(20, jobs, slow_first, |done, due| {
                counts.push(done);
                taken.extend(due);
                true
            })
            .unwrap();
            assert_eq!(taken, (0..20).map(|index| index * index).collect::<Vec<_>>(), "{jobs}");
            assert_eq!(counts, (1..=20).collect::<Vec<_>>(), "{jobs}");
        }
    }

    #[test]
    fn no_piece_at_all() {
        in_order(0, 3, |_| panic!("nothing to do"), |_, _: Vec<()>| panic!("nothing to take")).unwrap();
    }

    #[test]
    fn no_further_piece_where_nobody_takes() {
        let begun = AtomicUsize::new(0);
        let work = |index: usize| {
            begun.fetch_add(1, Ordering::Relaxed);
            thread::sleep(Duration::from_millis(2));
            index
        };
        in_order(1000, 2, work, |_, _| false).unwrap();
        assert!(begun.load(Ordering::Relaxed) < 500);
    }
}
