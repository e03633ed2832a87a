//! Both laws of the normalized body hold for the Rust, and so does what docs/SPACES.md says; bodies that are not the Rust's break them.

use oracle::generate::text;
use oracle::tidy::{Body, body_of_body, body_of_two, rust_body, tried, written_twice};

const PAPER: &str = include_str!("../../docs/SPACES.md");

/// White space of both sets, what is white space to Unicode alone, `~`, `/` and a letter.
const UNITS: [&str; 12] = [" ", "\t", "\n", "\u{c}", "\r", "\u{b}", "\u{85}", "\u{a0}", "\u{3000}", "~", "/", "a"];

/// All texts of up to so many units.
fn short(most: usize) -> Vec<String> {
    let mut all = vec![String::new()];
    let mut start = 0;
    for _ in 0..most {
        let end = all.len();
        for at in start..end {
            let longer: Vec<String> = UNITS.iter().map(|unit| all[at].clone() + unit).collect();
            all.extend(longer);
        }
        start = end;
    }
    all
}

#[test]
fn both_laws_hold_for_100_000_texts() {
    let tried = tried(rust_body, 1, 100_000).unwrap_or_else(|exception| panic!("{exception}"));
    assert_eq!((tried.texts, tried.pairs), (100_000, 200_000));
    for count in [tried.edges, tried.tildes, tried.breaks, tried.blanks, tried.one_empty, tried.both_empty] {
        assert!(count > 5_000, "{tried:?}");
    }
}

#[test]
fn written_texts_are_written_so_again() {
    let texts = (0..100_000).map(|number| text(1, number)).chain(short(4));
    for text in texts {
        written_twice(&text).unwrap_or_else(|exception| panic!("{exception}"));
    }
}

#[test]
fn texts_hold_all_white_space_at_both_edges_and_between() {
    let texts: Vec<String> = (0..100_000).map(|number| text(1, number)).collect();
    for white in ('\0'..=char::MAX).filter(|c| c.is_whitespace()) {
        let count = |is: fn(&str, char) -> bool| texts.iter().filter(|text| is(text, white)).count();
        let first = count(|text, c| text.starts_with(c));
        let last = count(|text, c| text.ends_with(c));
        let between = count(|text, c| text.trim().contains(c));
        assert!(first > 100 && last > 100 && between > 100, "{white:?}: {first} {last} {between}");
    }
}

#[test]
fn both_laws_hold_for_all_short_texts() {
    for text in short(4) {
        body_of_body(rust_body, &text).unwrap_or_else(|exception| panic!("{exception}"));
    }
    let texts = short(2);
    for (first, second) in texts.iter().flat_map(|first| texts.iter().map(move |second| (first, second))) {
        body_of_two(rust_body, first, second).unwrap_or_else(|exception| panic!("{exception}"));
    }
}

fn spaced(words: Vec<&str>) -> String {
    words.join(" ").replace('~', "\u{a0}")
}

#[test]
fn other_bodies_break_a_law() {
    // Words by Unicode's white space; `~` as a plain space; words between plain spaces alone; a space behind each word.
    let wrong: [Body; 4] = [
        |text| spaced(text.split_whitespace().collect()),
        |text| text.split_ascii_whitespace().collect::<Vec<_>>().join(" ").replace('~', " "),
        |text| spaced(text.split(' ').collect()),
        |text| text.split_ascii_whitespace().map(|word| format!("{word} ")).collect(),
    ];
    for body in wrong {
        assert!(tried(body, 1, 1_000).is_err());
    }
}

/// What stands between the backquotes of a row of the paper, its signs read as spaces.
fn cells(row: &str) -> Vec<String> {
    let signs = [('␣', " "), ('⇥', "\t"), ('⏎', "\n"), ('⍽', "\u{a0}"), ('▢', "\u{3000}")];
    let read = |cell: &str| signs.iter().fold(cell.to_string(), |text, (sign, space)| text.replace(*sign, space));
    let inside = |cell: &'_ str| match cell {
        "nothing" => String::new(),
        _ => read(cell.strip_prefix('`').and_then(|cell| cell.strip_suffix('`')).expect("a text between backquotes")),
    };
    row.trim_matches(['|', ' ']).split(" | ").map(inside).collect()
}

/// The rows of the paper's examples hold a text between backquotes and end in one, or in nothing.
fn is_example(line: &str) -> bool {
    let first = line.starts_with("| `") || line.starts_with("| nothing |");
    first && (line.ends_with("` |") || line.ends_with("| nothing |"))
}

#[test]
fn every_row_on_spaces_is_what_the_rust_does() {
    let rows: Vec<Vec<String>> = PAPER.lines().filter(|line| is_example(line)).map(cells).collect();
    let (mut alone, mut pairs) = (0, 0);
    for row in rows {
        match &row[..] {
            [typed, body] => {
                assert_eq!(&rust_body(typed), body);
                assert_eq!(&rust_body(body), body);
                alone += 1;
            }
            [first, second, body] => {
                assert_eq!(&rust_body(&format!("{first} {second}")), body);
                pairs += 1;
            }
            _ => panic!("{row:?}"),
        }
    }
    assert_eq!((alone, pairs), (8, 5));
}
