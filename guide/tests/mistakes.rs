//! The mistaken methods are right but for their one error, and the lessons that
//! stand for document 01's cases, for the file of version 2 and for the one
//! without rules are the samples.

use guide::files::{book_of, earliest};
use guide::lessons::lessons;
use guide::mistakes::{book_with, Mistake};
use reference::generate;
use reference::policy;

const MISTAKES: [Mistake; 5] = [
    Mistake::LowerLevelApplies,
    Mistake::SituationDropped,
    Mistake::JoinedByPresentDecisions,
    Mistake::BoundFromValuesReached,
    Mistake::OneSetForBothDecisions,
];

#[test]
fn without_an_error_the_method_gives_the_book() {
    let mut built = 0;
    for seed in 1..=400 {
        let bytes = generate::policy(seed);
        if let Ok(book) = reference::book::build(&bytes) {
            let policy = policy::read(&bytes).expect("an accepted policy");
            assert_eq!(book_with(&policy, None), book, "seed {seed}");
            built += 1;
        }
    }
    assert!(built > 100);
}

#[test]
fn each_error_is_shown_by_its_own_lesson() {
    let shown: Vec<Vec<u8>> = lessons().iter().map(earliest).collect();
    let expected: [&[u8]; 10] = [
        &[3, 3, 2],
        &[3, 3, 1],
        &[1, 3],
        &[1, 4],
        &[0, 0],
        &[3, 3, 3],
        &[3, 4, 4, 1],
        &[1, 1],
        &[3],
        &[2],
    ];
    assert_eq!(shown, expected);
}

#[test]
fn an_error_changes_nothing_where_it_cannot_matter() {
    // Always accepted, no variables, one level.
    let plain = reference::hex::parse("50 4F 4C 00 01 01 01 00 01 02 00 03 01 00").unwrap();
    let policy = policy::read(&plain).expect("an accepted policy");
    let book = reference::book::build(&plain).expect("an accepted policy");
    for mistake in MISTAKES {
        assert_eq!(book_with(&policy, Some(mistake)), book, "{mistake:?}");
    }
}

#[test]
fn five_lessons_are_samples() {
    for (lesson, case) in [(0, "e"), (4, "h"), (5, "a"), (8, "started"), (9, "norules")] {
        let sample = format!("{}/../samples/{case}.policy", env!("CARGO_MANIFEST_DIR"));
        let sample = std::fs::read(sample).expect("a sample");
        let table = &lessons()[lesson].table;
        assert_eq!(policy::write(&table.policy), sample);
        assert_eq!(
            book_of(table),
            reference::book::build(&sample).expect("an accepted policy")
        );
    }
}
