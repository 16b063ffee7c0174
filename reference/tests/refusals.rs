//! Every number occurs in what the generators give, and lent buffers keep the
//! bytes that they should keep.

mod common;

use std::collections::BTreeSet;

use common::{policy_a, width};
use reference::book;
use reference::entry::{self, Compared};
use reference::generate;
use reference::refusal::Refusal;
use reference::walk::OpenedBook;

/// A buffer filled with bytes that depend on the place.
fn lent(size: usize, mark: u8) -> Vec<u8> {
    (0..size)
        .map(|place| (place as u8).wrapping_mul(31) ^ mark)
        .collect()
}

/// Whether the buffer holds `written` and then what `lent` put there.
fn holds(buffer: &[u8], mark: u8, written: &[u8]) -> bool {
    buffer[..written.len()] == *written
        && buffer[written.len()..] == lent(buffer.len(), mark)[written.len()..]
}

fn numbers(refusals: impl Iterator<Item = Option<Refusal>>) -> BTreeSet<u8> {
    refusals.flatten().map(Refusal::number).collect()
}

#[test]
fn numbers_are_the_rows_of_the_table() {
    let all: Vec<u8> = Refusal::ALL
        .iter()
        .map(|refusal| refusal.number())
        .collect();
    assert!(all.into_iter().eq(1..=18));
}

#[test]
fn damaged_policies_meet_2_to_11() {
    let policies = (0..600).map(generate::damaged_policy);
    let met = numbers(policies.map(|policy| book::build(&policy).err()));
    assert!(met.into_iter().eq(2..=11));
}

#[test]
fn damaged_starting_policies_meet_2_to_11_and_17() {
    let policies = (0..600).map(generate::damaged_starting_policy);
    let met = numbers(policies.map(|policy| book::build(&policy).err()));
    assert!(met.into_iter().eq((2..=11).chain([17])));
}

/// 8, 10 and 11 are about rules.
#[test]
fn damaged_policies_without_rules_meet_2_to_7_9_and_17() {
    let policies = (0..600).map(generate::damaged_no_rules_policy);
    let met = numbers(policies.map(|policy| book::build(&policy).err()));
    assert!(met.into_iter().eq((2..=7).chain([9, 17])));
}

#[test]
fn damaged_books_meet_12_to_14() {
    let books = (0..300).map(generate::damaged_book);
    let met = numbers(books.map(|bytes| book::read(&bytes).err()));
    assert!(met.into_iter().eq(12..=14));
}

#[test]
fn faulty_pairs_meet_12_to_15() {
    let pairs = (0..300).map(generate::faulty_pair);
    let met =
        numbers(pairs.map(|(first, second)| reference::compare::compare(&first, &second).err()));
    assert!(met.into_iter().eq(12..=15));
}

#[test]
fn walks_meet_only_16() {
    let mut met = BTreeSet::new();
    for seed in 0..100 {
        let bytes = generate::book(seed);
        let mut opened = OpenedBook::open(&bytes).unwrap();
        let codes = generate::codes(seed, width(&bytes), 50);
        met.extend(numbers(
            codes.into_iter().map(|code| opened.step(code).err()),
        ));
    }
    assert!(met.into_iter().eq([16]));
}

#[test]
fn build_keeps_the_rest_of_its_buffer() {
    let kinds = [
        generate::policy,
        generate::damaged_policy,
        generate::starting_policy,
        generate::damaged_starting_policy,
        generate::no_rules_policy,
        generate::damaged_no_rules_policy,
    ];
    let policies = (0..150).flat_map(|seed| kinds.map(|kind| kind(seed)));
    for (place, policy) in policies.enumerate() {
        let size = entry::BUILD_BUFFER + place % 3;
        let mut buffer = lent(size, place as u8);
        let answer = entry::build(&policy, &mut buffer);
        let expected = book::build(&policy).map(|book| book.to_bytes());
        assert_eq!(
            answer,
            expected.as_ref().map(Vec::len).map_err(|&refusal| refusal)
        );
        assert!(holds(&buffer, place as u8, &expected.unwrap_or_default()));
    }
    let mut short = lent(entry::BUILD_BUFFER - 1, 7);
    assert_eq!(entry::build(&policy_a(), &mut short), Err(Refusal::Buffer));
    assert!(holds(&short, 7, &[]));
}

#[test]
fn the_book_does_not_depend_on_the_buffer() {
    let kinds = [
        generate::policy,
        generate::starting_policy,
        generate::no_rules_policy,
    ];
    for policy in (0..50).flat_map(|seed| kinds.map(|kind| kind(seed))) {
        let [mut first, mut second] = [3, 200].map(|mark| lent(entry::BUILD_BUFFER, mark));
        if let Ok(length) = entry::build(&policy, &mut first) {
            assert_eq!(entry::build(&policy, &mut second), Ok(length));
            assert_eq!(first[..length], second[..length]);
        }
    }
}

#[test]
fn verdict_keeps_the_rest_of_its_buffers() {
    for seed in 0..300 {
        let bytes = match seed % 3 {
            0 => generate::book(seed),
            1 => generate::late_finding_book(seed),
            _ => generate::damaged_book(seed),
        };
        let mut buffers = [1, 2, 3].map(|mark| lent(128 + seed as usize % 2, mark));
        let [conflict, missing, blocked] = &mut buffers;
        let answer = entry::verdict(&bytes, conflict, missing, blocked);
        let written = match book::read(&bytes) {
            Err(refusal) => {
                assert_eq!(answer, Err(refusal));
                [vec![], vec![], vec![]]
            }
            Ok(book) => written_histories(&book, &answer.unwrap()),
        };
        for (place, buffer) in buffers.iter().enumerate() {
            assert!(holds(buffer, place as u8 + 1, &written[place]));
        }
    }
}

/// The histories that verdict has to write, after its answer is checked.
fn written_histories(book: &book::Book, answer: &entry::Verdict) -> [Vec<u8>; 3] {
    let found = reference::findings::findings(book);
    let pair = |request: usize, length: usize| (request, length);
    assert_eq!(
        answer
            .conflict
            .map(|verdict| pair(verdict.request, verdict.length)),
        found
            .conflict
            .as_ref()
            .map(|finding| pair(finding.request, finding.history.len()))
    );
    assert_eq!(
        answer
            .missing
            .map(|verdict| pair(verdict.request, verdict.length)),
        found
            .missing
            .as_ref()
            .map(|finding| pair(finding.request, finding.history.len()))
    );
    assert_eq!(answer.blocked, found.blocked.as_ref().map(Vec::len));
    let history = |finding: Option<reference::findings::RequestFinding>| {
        finding.map(|found| found.history).unwrap_or_default()
    };
    [
        history(found.conflict),
        history(found.missing),
        found.blocked.unwrap_or_default(),
    ]
}

#[test]
fn verdict_with_a_short_buffer_keeps_all_three() {
    let bytes = generate::late_finding_book(0);
    for short in 0..3 {
        let mut buffers =
            [0, 1, 2].map(|place| lent(128 - usize::from(place == short), place as u8));
        let [conflict, missing, blocked] = &mut buffers;
        assert_eq!(
            entry::verdict(&bytes, conflict, missing, blocked),
            Err(Refusal::Buffer)
        );
        for (place, buffer) in buffers.iter().enumerate() {
            assert!(holds(buffer, place as u8, &[]));
        }
    }
}

#[test]
fn compare_keeps_the_rest_of_its_buffer() {
    for seed in 0..300 {
        let (first, second) = match seed % 3 {
            0 => generate::book_pair(seed),
            1 => generate::faulty_pair(seed),
            _ => generate::far_pair(1 + seed as usize % 127, 127, seed),
        };
        let mut buffer = lent(256 + seed as usize % 2, seed as u8);
        let answer = entry::compare(&first, &second, &mut buffer);
        let written = match reference::compare::compare(&first, &second) {
            Ok(reference::compare::Comparison::Differ(history)) => {
                assert_eq!(answer, Ok(Compared::Differ(history.len())));
                history
            }
            Ok(reference::compare::Comparison::Same) => {
                assert_eq!(answer, Ok(Compared::Same));
                vec![]
            }
            Err(refusal) => {
                assert_eq!(answer, Err(refusal));
                vec![]
            }
        };
        assert!(holds(&buffer, seed as u8, &written));
        let mut short = lent(255, 9);
        assert_eq!(
            entry::compare(&first, &second, &mut short),
            Err(Refusal::Buffer)
        );
        assert!(holds(&short, 9, &[]));
    }
}
