//! Windows that follow one another, joined; a text's end, lists of zeros, refused tapes, and the runs that are made.

use oracle::answer::{Answer, answer, write_tape};
use oracle::both_sides::{example, listing};
use oracle::generate::{Cuts, damaged, random, structured};
use oracle::notation;
use oracle::windows::{MOST_BYTES, Run, cut, item, lines, runs, stream};

fn run(from: u64, rooms: &[u32]) -> Run {
    Run { from, rooms: rooms.to_vec() }
}

/// What a run gave, and the line behind it.
fn given(answer: &Answer, run: &Run) -> (Vec<u8>, String) {
    let mut bytes = lines(answer, run);
    let start = bytes.windows(6).rposition(|w| w == b"\nfrom ").expect("the line");
    let line = String::from_utf8(bytes.split_off(start)).expect("UTF-8");
    (bytes, line.trim().into())
}

/// The same of Root alone, whose text has 26 bytes.
fn given_of_root(from: u64, rooms: &[u32]) -> (String, String) {
    let (bytes, line) = given(&answer(&notation::file("")), &run(from, rooms));
    (String::from_utf8(bytes).expect("ASCII"), line)
}

/// Document 01's examples, its listing, and generated tapes of every shape.
fn tapes() -> Vec<Vec<u8>> {
    let made = (0..60).flat_map(|i| [structured(1, i), random(1, i), damaged(1, i).file]);
    (1..=13).flat_map(example).chain([listing().file()]).chain(made).collect()
}

/// The text from the run's first byte on, or nothing where no length has room.
fn meant(text: &str, run: &Run) -> Vec<u8> {
    let start = text.len().min(usize::try_from(run.from).unwrap());
    let has_room = run.rooms.iter().any(|&room| room > 0);
    if has_room { text.as_bytes()[start..].to_vec() } else { Vec::new() }
}

// --- what is given ---

#[test]
fn joined_windows_are_the_text() {
    for (number, tape) in (0..).zip(tapes()) {
        let answer = answer(&tape);
        let length = answer.text().len();
        for run in [Cuts::Gate, Cuts::Random(1), Cuts::By(4)].iter().flat_map(|cuts| cuts.runs(number, length)) {
            assert_eq!(given(&answer, &run).0, meant(answer.text(), &run), "tape {number}, {run:?}");
        }
    }
}

#[test]
fn the_number_of_calls_and_the_bytes_that_stay() {
    let text = "<usx version=\"3.0\">\n</usx>";
    let cases: [(&[u32], &str); 8] = [
        (&[1], "27 calls, 26 given, 1 unchanged"),
        (&[25], "3 calls, 26 given, 49 unchanged"),
        (&[26], "2 calls, 26 given, 26 unchanged"),
        (&[27], "2 calls, 26 given, 28 unchanged"),
        (&[10, 9], "4 calls, 26 given, 12 unchanged"),
        (&[26, 0, 3], "3 calls, 26 given, 3 unchanged"),
        (&[0, 13, 0], "8 calls, 26 given, 13 unchanged"),
        (&[65_536], "2 calls, 26 given, 131046 unchanged"),
    ];
    for (rooms, counts) in cases {
        assert_eq!(given_of_root(0, rooms), (text.into(), format!("from 0: number 0, whole 26, {counts}")));
    }
}

#[test]
fn around_the_end() {
    let line = |from: u64, counts: &str| format!("from {from}: number 0, whole 26, {counts}");
    assert_eq!(given_of_root(24, &[5]), ("x>".into(), line(24, "2 calls, 2 given, 8 unchanged")));
    assert_eq!(given_of_root(25, &[1]), (">".into(), line(25, "2 calls, 1 given, 1 unchanged")));
    for from in [26, 27, u64::MAX] {
        assert_eq!(given_of_root(from, &[5, 7]), ("".into(), line(from, "1 calls, 0 given, 5 unchanged")));
        assert_eq!(given_of_root(from, &[0, 7]), ("".into(), line(from, "2 calls, 0 given, 7 unchanged")));
    }
}

#[test]
fn lists_of_zeros_end_behind_one_pass() {
    for rooms in [&[0][..], &[0, 0, 0]] {
        let line = format!("from 3: number 0, whole 26, {} calls, 0 given, 0 unchanged", rooms.len());
        assert_eq!(given_of_root(3, rooms), (String::new(), line));
    }
}

#[test]
fn a_refused_tape_has_one_call() {
    for (from, rooms, room) in [(0, &[5, 7][..], 5), (9, &[0, 7], 0), (u64::MAX, &[65_536], 65_536)] {
        let line = format!("from {from}: number 6, whole 0, 1 calls, 0 given, {room} unchanged");
        assert_eq!(given(&Answer::Refused(6), &run(from, rooms)), (Vec::new(), line));
    }
}

#[test]
fn a_window_may_cut_a_character() {
    let answer = answer(&notation::file(r#"p{T"\u{4E2D}"}"#));
    let start = answer.text().find('中').unwrap() as u64;
    let front = |from: u64| given(&answer, &run(from, &[2])).0[..2].to_vec();
    assert_eq!([front(start), front(start + 1)], [[0xE4, 0xB8], [0xB8, 0xAD]]);
}

// --- the stream ---

#[test]
fn a_stream_is_answered_in_order() {
    let (mut input, mut cuts, mut output) = (Vec::new(), Vec::new(), Vec::new());
    [notation::file(""), Vec::new()].iter().for_each(|tape| write_tape(&mut input, tape).unwrap());
    cut(&input[..], &mut cuts, &Cuts::By(20)).unwrap();
    stream(&cuts[..], &mut output).unwrap();
    let text = "<usx version=\"3.0\">\n</usx>\nfrom 0: number 0, whole 26, 3 calls, 26 given, 34 unchanged\n\n\
                \nfrom 0: number 1, whole 0, 1 calls, 0 given, 20 unchanged\n\n";
    assert_eq!(String::from_utf8(output).unwrap(), text);
    // Its last item is gone.
    assert!(stream(&cuts[..cuts.len() - 20], Vec::new()).is_err());
}

#[test]
fn runs_are_read_back() {
    let all = [run(0, &[1]), run(u64::MAX, &[0, 65_536, 3]), run(7, &[0])];
    let bytes = item(&all);
    assert_eq!(bytes.len(), 16 + 24 + 16);
    assert_eq!(runs(&bytes), Some(all.to_vec()));
    assert_eq!(runs(&[]), Some(Vec::new()));
    let whole = [0, 16, 40, 56];
    (0..56).for_each(|n| assert_eq!(runs(&bytes[..n]).is_some(), whole.contains(&n), "{n}"));
}

#[test]
fn what_are_no_runs() {
    assert_eq!(runs(&item(&[run(0, &[])])), None);
    assert_eq!(runs(&item(&[run(0, &[1, 65_537])])), None);
    assert_eq!(runs(&[255; 12]), None);
    assert!(runs(&item(&[run(0, &[1; 16_381])])).is_some());
    assert_eq!(runs(&item(&[run(0, &[1; 16_382])])), None);
}

// --- the runs that are made ---

#[test]
fn the_runs_of_the_gate() {
    let made = |length: usize| Cuts::Gate.runs(0, length);
    let primes = [2, 3, 5, 7, 11, 13, 17, 19, 23, 29, 31, 37, 41, 43, 47];
    let fixed = (1..=9).map(|room| run(0, &[room])).chain([run(0, &primes), run(0, &[0])]);
    let whole = [26, 25, 27].map(|room| run(0, &[room]));
    let ends = [26, 25, 27, u64::MAX].map(|from| run(from, &[5]));
    assert_eq!(made(26), fixed.clone().chain(whole).chain(ends).collect::<Vec<_>>());
    let refused = [run(0, &[0]), run(0, &[1]), run(0, &[5]), run(1, &[5]), run(u64::MAX, &[5])];
    assert_eq!(made(0), fixed.chain(refused).collect::<Vec<_>>());
    // Windows of the whole text where it is not too long for one.
    assert_eq!([65_535, 65_536, 65_537, 65_538].map(|length| made(length).len()), [18, 17, 16, 15]);
}

#[test]
fn random_runs_are_determined_by_seed_and_number() {
    let made = |seed, number, length| Cuts::Random(seed).runs(number, length);
    for number in 0..50 {
        assert_eq!(made(1, number, 900), made(1, number, 900));
        assert_ne!(made(1, number, 900), made(2, number, 900));
        assert_ne!(made(1, number, 900), made(1, number + 1, 900));
    }
}

#[test]
fn random_runs_have_every_kind_of_start_and_length() {
    let length = 900;
    let all: Vec<Run> = (0..1_000).flat_map(|number| Cuts::Random(1).runs(number, length as usize)).collect();
    let starts = |is: fn(u64) -> bool| all.iter().filter(|run| is(run.from)).count();
    assert_eq!(all.len(), 3_000);
    assert!((1_350..1_650).contains(&starts(|from| from == 0)));
    assert!(starts(|from| from > 900) > 5 && starts(|from| from == 900) > 0 && starts(|from| from > 910) == 0);
    let with = |is: fn(u32) -> bool| all.iter().filter(|run| run.rooms.iter().any(|&room| is(room))).count();
    assert!(with(|room| room == 0) > 500 && with(|room| (1..13).contains(&room)) > 500);
    assert!(with(|room| room > 900) > 200 && with(|room| room > 1_800) == 0);
    assert!(all.iter().any(|run| run.rooms.iter().all(|&room| room == 0)));
    assert!((1..=6).all(|n| all.iter().any(|run| run.rooms.len() == n)) && all.iter().all(|run| run.rooms.len() < 7));
}

#[test]
fn random_runs_of_long_texts_have_few_calls() {
    for length in [1_001, 5_000, 70_000, 1_500_000] {
        let text = Answer::Written("a".repeat(length));
        for run in (0..100).flat_map(|number| Cuts::Random(1).runs(number, length)) {
            assert!(run.rooms.iter().all(|&room| room as usize <= MOST_BYTES));
            let line = given(&text, &run).1;
            let calls: usize = line.split(' ').nth(6).and_then(|word| word.parse().ok()).expect("the calls");
            assert!(calls < 250, "{length}, {run:?}: {line}");
        }
    }
}
