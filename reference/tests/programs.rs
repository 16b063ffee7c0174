//! The runs of the programs: what they are made of, and the files they go to.

mod common;

use std::collections::BTreeSet;
use std::fs;
use std::path::PathBuf;
use std::process::Command;

use common::{
    no_rules, no_rules_largest, policy_a, policy_e, policy_e_level_1, policy_s,
    policy_two_counters, silent_book, with_starts,
};
use reference::programs::{case_line, policies, runs};
use reference::{book, hex};

/// The number that turns a policy down, 0 for one that is accepted.
fn number(policy: &[u8]) -> u8 {
    book::build(policy).map_or_else(|refusal| refusal.number(), |_| 0)
}

#[test]
fn every_number_is_met() {
    let met: BTreeSet<u8> = policies().iter().map(|policy| number(policy)).collect();
    assert!(met
        .into_iter()
        .eq([0].into_iter().chain(2..=11).chain([17])));
}

#[test]
fn the_examples_are_those_of_the_table() {
    let numbers: Vec<u8> = policies()[10..24]
        .iter()
        .map(|policy| number(policy))
        .collect();
    assert_eq!(numbers, [2, 3, 4, 5, 6, 7, 0, 8, 9, 10, 0, 11, 0, 0]);
    for policy in [policy_a(), policy_e(), policy_e_level_1(), policy_s(6)] {
        assert!(policies().contains(&policy));
    }
}

#[test]
fn the_starting_values_are_among_them() {
    let starting = &policies()[96..108];
    let numbers: Vec<u8> = starting.iter().map(|policy| number(policy)).collect();
    assert_eq!(numbers, [0, 0, 0, 0, 17, 6, 7, 17, 4, 0, 0, 0]);
    let from = |start| with_starts(&policy_a(), &[start]);
    assert!(starting.iter().take(5).eq(&[0, 1, 2, 63, 64].map(from)));
    assert_eq!(starting[9], policy_two_counters(1, 2));
    assert_eq!(starting[10], with_starts(&policy_s(7), &[1]));
    let versions: BTreeSet<u8> = policies()[108..126]
        .iter()
        .map(|policy| policy[4])
        .collect();
    assert!(versions.into_iter().eq([2]));
}

#[test]
fn those_without_rules_come_last() {
    let policies = policies();
    let numbers: Vec<u8> = policies[144..]
        .iter()
        .map(|policy| number(policy))
        .collect();
    assert_eq!(numbers[..8], [0, 0, 0, 0, 6, 6, 9, 17]);
    assert_eq!(policies[144], no_rules(1, 1, &[3], 0, &[]));
    assert_eq!(policies[145], no_rules(2, 1, &[3], 2, &[5, 63, 2, 1]));
    assert_eq!(policies[146], no_rules(1, 0, &[1], 0, &[]));
    assert_eq!(policies[147], no_rules_largest());
    // Six generated ones that are accepted, and six damaged ones.
    assert_eq!((&numbers[8..14], numbers.len()), (&[0; 6][..], 20));
    for policy in policies[144..].iter().filter(|policy| number(policy) == 0) {
        assert_eq!(case_line(policy), book_line(&silent_book(policy)));
    }
}

/// The line of a book.
fn book_line(book: &[u8]) -> String {
    hex::line(book).replace(' ', "") + "\n"
}

#[test]
fn the_greatest_book_is_among_them() {
    let longest = policies()
        .iter()
        .map(|policy| case_line(policy).len())
        .max();
    assert_eq!(longest, Some(2 * 17_284 + 1));
}

#[test]
fn a_line_is_a_book_or_a_refusal() {
    assert_eq!(
        case_line(&policy_a()),
        "424F4B000101010200000003010100020001020003000103000003\n"
    );
    assert_eq!(case_line(&[]), "refused 2\n");
}

#[test]
fn cases_reads_each_policy_after_its_length() {
    let run = &runs()[1];
    let mut rest = &run.stdin[..];
    for (policy, line) in policies().iter().zip(run.stdout.lines()) {
        let (length, after) = rest.split_at(2);
        let length = usize::from(u16::from_be_bytes([length[0], length[1]]));
        assert!(length <= 1_024);
        assert_eq!(&after[..length], policy);
        assert_eq!(format!("{line}\n"), case_line(policy));
        rest = &after[length..];
    }
    assert!(rest.is_empty());
}

#[test]
fn the_files_are_written() {
    let folder = PathBuf::from(env!("CARGO_TARGET_TMPDIR")).join("programs");
    for run in runs() {
        fs::create_dir_all(folder.join(run.program)).expect("a writable directory");
    }
    let status = Command::new(env!("CARGO_BIN_EXE_reference"))
        .arg("programs")
        .arg(&folder)
        .status()
        .expect("the program starts");
    assert!(status.success());
    for run in runs() {
        let read = |name| fs::read(folder.join(run.program).join(name)).expect("a file");
        assert_eq!(read("stdin"), run.stdin);
        assert_eq!(read("stdout"), run.stdout.as_bytes());
    }
}
