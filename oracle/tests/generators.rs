//! Every generator makes what it is meant to make.

use std::collections::BTreeMap;

use oracle::answer::{Answer, answer, answer_or_panic, write_tape};
use oracle::check::{Verdict, check};
use oracle::generate::{
    damaged, glued, hostile, limits, links, random, rebuild, shared, small, steps, steps_edges, structured,
};
use oracle::loader::load;
use oracle::names::{What, names};
use oracle::steps::{Item, lines};

const SEED: u64 = 1;

fn written(tape: &[u8]) -> String {
    match answer(tape) {
        Answer::Written(text) => text,
        other => panic!("{other:?}"),
    }
}

#[test]
fn structured_tapes_are_admitted() {
    for number in 0..2_000 {
        let text = written(&structured(SEED, number));
        assert!(text.ends_with("\n</usx>"));
    }
}

#[test]
fn random_tapes_are_admitted() {
    for number in 0..2_000 {
        let text = written(&random(SEED, number));
        assert!(text.ends_with("\n</usx>"));
    }
}

#[test]
fn shared_tapes_are_admitted_and_their_texts_overlap() {
    let mut overlapping = 0;
    for number in 0..2_000 {
        let tape = shared(SEED, number);
        let text = written(&tape);
        assert!(text.ends_with("\n</usx>"));
        overlapping += usize::from(spans(&tape) > tape.len());
    }
    assert!(overlapping > 200, "{overlapping}");
}

/// Kept or not, accepted or not, and each of the four bytes in each of the four kinds of name.
#[test]
fn hostile_tapes_have_names_of_every_kind() {
    let kinds = [What::BookCode, What::Label, What::MarkerName, What::Key];
    let (mut kept, mut harmless, mut harmful, mut seen) = (0, 0, 0, [[0; 4]; 4]);
    for number in 0..4_000 {
        let tape = hostile(SEED, number);
        let document = load(&tape).unwrap_or_else(|refusal| panic!("tape {number}: {refusal:?}"));
        let broken: Vec<_> = names(&document).into_iter().filter(|name| name.is_broken()).collect();
        let accepted = matches!(check(written(&tape).as_bytes()), Verdict::Accepted { .. });
        match (broken.is_empty(), accepted) {
            (true, true) => kept += 1,
            (true, false) => panic!("tape {number} is kept, its text refused"),
            (false, true) => harmless += 1,
            (false, false) => harmful += 1,
        }
        for name in broken {
            let kind = kinds.iter().position(|&k| k == name.what).unwrap();
            (0..4).filter(|&i| name.text.contains(['&', '<', '>', '"'][i])).for_each(|i| seen[kind][i] += 1);
        }
    }
    assert!(kept > 1_500 && harmless > 200 && harmful > 200, "{kept} {harmless} {harmful}");
    assert!(seen.as_flattened().iter().all(|&count| count > 50), "{seen:?}");
}

/// The lengths of the spans of a tape's nodes, in sum.
fn spans(tape: &[u8]) -> usize {
    let word = |at: usize| u32::from_le_bytes(tape[at..at + 4].try_into().unwrap()) as usize;
    (0..word(4)).map(|k| word(36 + 16 * k + 12)).sum()
}

#[test]
fn tapes_are_determined_by_seed_and_number() {
    for number in 0..50 {
        assert_eq!(structured(SEED, number), structured(SEED, number));
        assert_eq!(random(SEED, number), random(SEED, number));
        assert_eq!(shared(SEED, number), shared(SEED, number));
        assert_eq!(hostile(SEED, number), hostile(SEED, number));
        assert_ne!(structured(SEED, number), structured(SEED + 1, number));
    }
}

#[test]
fn damaged_tapes_get_the_number_meant() {
    let mut seen = [0; 8];
    for number in 0..20_000 {
        let tape = damaged(SEED, number);
        let got = answer_or_panic(&tape.file).number();
        assert!(got <= 7, "tape {number}: {got}");
        if let Some(meant) = tape.number {
            assert_eq!(got, meant, "tape {number}");
        }
        seen[usize::from(got)] += 1;
    }
    assert!(seen.iter().all(|&count| count > 200), "{seen:?}");
}

#[test]
fn glued_tapes_are_admitted_or_cut_inside_a_character() {
    let mut seen = [0; 8];
    (0..5_000).for_each(|number| seen[usize::from(answer_or_panic(&glued(SEED, number)).number())] += 1);
    assert!(seen[0] > 500 && seen[5] > 500 && seen[0] + seen[5] == 5_000, "{seen:?}");
}

#[test]
fn small_tapes_are_admitted_and_differ() {
    let all: Vec<_> = small(2).collect();
    assert_eq!(all.len(), 1 + 30 + 30 * 30 + 18 * 30);
    all.iter().for_each(|tape| drop(written(tape)));
    let mut sorted = all.clone();
    sorted.sort();
    sorted.dedup();
    assert_eq!(sorted.len(), all.len());
}

/// Lists of n nodes besides Root are right for each forest of leaves and containers, with or without Root's BlockEnd.
#[test]
fn links_are_right_or_wrong_as_counted() {
    let right = |n: usize| {
        let of_size = links(n).filter(|t| t[4] as usize == n + 1);
        of_size.filter(|t| answer(t).number() == 0).count()
    };
    // One text or leaf: 2 letters; one container: two nodes, 2 kinds of close.
    let forests = |n: usize| -> usize {
        let mut counts = vec![1];
        for n in 1..=n {
            let singles = 2 * counts[n - 1];
            let containers: usize = (0..n - 1).map(|k| 2 * counts[k] * counts[n - 2 - k]).sum();
            counts.push(singles + containers);
        }
        counts[n] + if n > 0 { counts[n - 1] } else { 0 }
    };
    for n in 0..=4 {
        assert_eq!(right(n), forests(n), "{n}");
    }
}

#[test]
fn limits_are_met() {
    let numbers: Vec<_> = limits().map(|(tape, meant)| (answer(&tape).number(), meant)).collect();
    assert_eq!(numbers.len(), 9);
    assert!(numbers.iter().all(|(got, meant)| got == meant), "{numbers:?}");
}

// --- lists of steps ---

/// The numbers that each step can get with buffers of at most 65,536 bytes.
const NUMBERS: [(&str, &[u8]); 12] = [
    ("start", &[0, 8, 16]),
    ("entry", &[0, 2, 4, 8, 16]),
    ("source", &[0, 3, 8, 16]),
    ("open", &[0, 5, 6, 8, 16]),
    ("close", &[0, 5, 7, 8, 16]),
    ("leaf", &[0, 5, 8, 16]),
    ("text", &[0, 5, 8, 16]),
    ("attribute", &[0, 5, 8, 16]),
    ("error", &[0, 5, 8, 16]),
    ("chapter", &[0, 5, 8, 16]),
    ("verse", &[0, 5, 8, 16]),
    ("finish", &[0, 7, 16]),
];

/// How often each step gets each number; files that are finished are counted as `admitted` or `refused`.
fn answers(items: &[Item]) -> BTreeMap<String, usize> {
    let mut seen = BTreeMap::new();
    for line in items.iter().flat_map(|item| lines(item).lines().map(String::from).collect::<Vec<_>>()) {
        let words: Vec<&str> = line.split(' ').collect();
        let what = if words.get(1) == Some(&"number") { format!("{} {}", words[0], words[2]) } else { words[0].into() };
        *seen.entry(what).or_insert(0) += 1;
    }
    seen
}

/// Each step gets each number that it can get, and no other.
fn check_numbers(seen: &BTreeMap<String, usize>, least: usize) {
    let meant = NUMBERS.iter().flat_map(|(step, numbers)| numbers.iter().map(move |n| format!("{step} {n}")));
    let mut meant: Vec<String> = meant.chain(["admitted", "refused", "state"].map(String::from)).collect();
    meant.sort();
    assert_eq!(seen.keys().cloned().collect::<Vec<_>>(), meant);
    assert!(seen.values().all(|&count| count >= least), "{seen:?}");
}

#[test]
fn steps_get_every_number() {
    let items: Vec<_> = (0..4_000).map(|number| steps(SEED, number)).collect();
    let seen = answers(&items);
    check_numbers(&seen, 20);
    assert!(seen["finish 0"] > 4_000 / 3, "{seen:?}");
    assert!(items.iter().all(|item| item.bytes().len() <= 65_536 && item.room <= 20_000));
    assert!(items.iter().filter(|item| item.room < 2_000).count() > 3_800);
    assert_eq!(items[7], steps(SEED, 7));
}

#[test]
fn edges_are_few_and_get_every_number() {
    let items: Vec<_> = steps_edges().collect();
    assert!(items.len() < 300, "{}", items.len());
    assert!(items.iter().map(|item| item.bytes().len()).sum::<usize>() < 400_000);
    check_numbers(&answers(&items), 1);
}

/// A tape that the writer can write is written anew, each step done, to the same nodes, entries, source and text.
#[test]
fn tapes_are_written_anew() {
    let seeded: [fn(u64, u64) -> Vec<u8>; 5] = [structured, random, shared, hostile, glued];
    let seeded = seeded.into_iter().flat_map(|tape| (0..300).map(move |number| tape(SEED, number)));
    let tapes: Vec<_> = seeded.chain(small(1)).chain(links(3)).collect();
    let root_at_the_end = |tape: &&Vec<u8>| answer(tape).number() == 0 && tape[40..44] == tape[4..8];
    let meant = tapes.iter().filter(root_at_the_end).count();
    assert!(meant > 800, "{meant}");
    assert_eq!((0..).zip(&tapes).filter(|(number, tape)| rebuild(*number, tape).is_some()).count(), meant);
    let (mut input, mut output) = (Vec::new(), Vec::new());
    tapes.iter().for_each(|tape| write_tape(&mut input, tape).unwrap());
    oracle::rebuild::check(&input[..], &mut output).unwrap();
    assert_eq!(String::from_utf8(output).unwrap(), format!("{meant} tapes, no difference\n"));
}
