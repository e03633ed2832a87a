//! The second checker gives document 01's answers, on both sides of each rule.

use oracle::check::{Verdict, check, report};
use oracle::check_cases::cases;

#[test]
fn every_case_has_its_answer_and_place() {
    for case in cases() {
        assert_eq!(check(&case.text), case.verdict, "{}", case.text.escape_ascii());
    }
}

#[test]
fn every_answer_has_many_cases() {
    let all = cases();
    for wanted in 11..=14 {
        let count =
            all.iter().filter(|c| matches!(c.verdict, Verdict::Refused { number, .. } if number == wanted)).count();
        assert!(count >= 6, "{wanted}: {count}");
    }
    assert!(all.iter().filter(|c| matches!(c.verdict, Verdict::Accepted { .. })).count() >= 20);
}

/// The whole listing of document 01, and a tape whose label ends in a quote.
#[test]
fn what_the_rust_writes() {
    let text = |notation| oracle::answer::answer(&oracle::notation::file(notation)).text().to_string();
    let listing = include_str!("../../examples/listing.usx");
    assert_eq!(report(listing.as_bytes()), "accepted 1 1\n");
    assert_eq!(report(text("V\"\\v 3\" T\" x\"").as_bytes()), "accepted 0 1\n");
    assert_eq!(report(text("V\"\\v 1\\u{22}\"").as_bytes()), "refused 11\nat byte 98, line 2\n");
}

#[test]
fn lines_count_from_one() {
    assert_eq!(report(b""), "refused 11\nat byte 0, line 1\n");
    assert_eq!(report(b"<usx version=\"3.0\">\n\n&</usx>"), "refused 11\nat byte 21, line 3\n");
    assert_eq!(report(b"<usx version=\"3.0\"></usx>\n"), "refused 11\nat byte 26, line 2\n");
}
