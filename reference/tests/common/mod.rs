//! Helpers shared by the tests: the policies of the table of cases, and books
//! read straight from their bytes.

#![allow(dead_code)]

use reference::book::{build, Book};
use reference::explore::explore;
use reference::refusal::Refusal;
use reference::situation::Situation;
use reference::{hex, policy, History};

/// Policy A.
pub const A: &str = "50 4F 4C 00 01 01 01 01 03 02 | 00 01 01 00 00 00 00 \
                     | 00 02 01 00 00 02 01 | 00 02 00 00 02 00 00 | 02";

/// Bytes written as hexadecimal text.
pub fn bytes(text: &str) -> Vec<u8> {
    hex::parse(text).expect("hexadecimal text")
}

/// Policy A as bytes.
pub fn policy_a() -> Vec<u8> {
    bytes(A)
}

/// The policy with one more rule after its last one.
pub fn with_rule(policy: &[u8], rule: &str) -> Vec<u8> {
    let event_bytes = policy[5] as usize * policy[7] as usize;
    let (before, events) = policy.split_at(policy.len() - event_bytes);
    let mut longer = [before, &bytes(rule), events].concat();
    longer[8] += 1;
    longer
}

/// A policy of version 1 as a file of version 2 with these starting values.
pub fn with_starts(policy: &[u8], starts: &[u8]) -> Vec<u8> {
    let (before, rules) = policy.split_at(9 + policy[6] as usize);
    with_byte(&[before, starts, rules].concat(), 4, 2)
}

/// The bytes with one of them changed.
pub fn with_byte(original: &[u8], place: usize, byte: u8) -> Vec<u8> {
    let mut changed = original.to_vec();
    changed[place] = byte;
    changed
}

/// A with both 2s of its tests as 1.
pub fn policy_b() -> Vec<u8> {
    with_byte(&with_byte(&policy_a(), 22, 1), 28, 1)
}

/// A and a rule that tests a number no history reaches.
pub fn policy_c() -> Vec<u8> {
    with_rule(&policy_a(), "00 02 00 00 05 00 00")
}

/// A, its third rule adding, and a rule with a greater test.
pub fn policy_d() -> Vec<u8> {
    with_rule(&with_byte(&policy_a(), 30, 1), "00 02 00 00 04 00 00")
}

/// A and a rule that conflicts with the first.
pub fn policy_e() -> Vec<u8> {
    with_rule(&policy_a(), "00 01 00 00 02 00 00")
}

/// The same with the added rule at level 1.
pub fn policy_e_level_1() -> Vec<u8> {
    with_rule(&policy_a(), "00 01 00 01 02 00 00")
}

/// A without its third rule.
pub fn policy_f() -> Vec<u8> {
    bytes("50 4F 4C 00 01 01 01 01 02 02 | 00 01 01 00 00 00 00 | 00 02 01 00 00 02 01 | 02")
}

/// One rule that closes itself.
pub fn policy_g() -> Vec<u8> {
    bytes("50 4F 4C 00 01 00 01 01 01 02 | 00 03 01 00 00 01 01")
}

/// G with an event that sets to zero.
pub fn policy_j() -> Vec<u8> {
    bytes("50 4F 4C 00 01 01 01 01 01 02 | 00 03 01 00 00 01 01 | 02")
}

/// Two situations that are alike, one with a valuation that has no rule.
pub fn policy_h() -> Vec<u8> {
    bytes("50 4F 4C 00 01 00 01 01 02 01 | 00 01 01 00 00 01 00 | 00 01 01 00 00 01 01")
}

/// Case S with this number as the greater lt.
pub fn policy_s(top: u8) -> Vec<u8> {
    let head = "50 4F 4C 00 01 00 01 01 03 02 | 00 03 01 00 00 01 00 | 00 01 01 00 00 01 01";
    [bytes(head), bytes("00 03 01 00 01"), vec![top, 1]].concat()
}

/// Two variables with the bounds 2 and 3, in version 2: value 0 is accepted while
/// the first is below 2, adding one to it, value 1 while the second is below 3,
/// adding one to that; else they are rejected. The event sets only the first to
/// zero.
pub fn policy_two_counters(first: u8, second: u8) -> Vec<u8> {
    let rules = "00 01 01 00 00 02 01 00 00 00 | 00 01 00 00 02 00 00 00 00 00 \
                 | 00 02 01 00 00 00 00 00 03 01 | 00 02 00 00 00 00 00 03 00 00";
    [
        bytes("50 4F 4C 00 02 01 01 02 04 02"),
        vec![first, second],
        bytes(rules),
        bytes("02 00"),
    ]
    .concat()
}

/// Four fields of together 64 requests.
pub const FOUR: [u8; 4] = [4, 2, 4, 2];

/// Starting values of four variables.
pub const FOUR_STARTS: [u8; 4] = [63, 0, 1, 62];

/// A policy without rules; what comes last are the starting values of version 2
/// and the changes of the events.
pub fn no_rules(version: u8, events: u8, counts: &[u8], variables: u8, rest: &[u8]) -> Vec<u8> {
    let sizes = [events, counts.len() as u8, variables, 0];
    [b"POL\0", &[version][..], &sizes, counts, rest].concat()
}

/// A policy without rules, of one event, three requests and two variables.
pub fn no_rules_changing() -> Vec<u8> {
    no_rules(1, 1, &[3], 2, &[2, 1])
}

/// The changes of eight events with four variables.
pub fn no_rules_changes() -> Vec<u8> {
    [&[1, 0, 0, 0, 2, 1, 1, 2][..], &[1; 20], &[0, 0, 0, 2]].concat()
}

/// A policy without rules, of eight events, 64 requests and four variables.
pub fn no_rules_largest() -> Vec<u8> {
    let rest = [&FOUR_STARTS[..], &no_rules_changes()].concat();
    no_rules(2, 8, &FOUR, 4, &rest)
}

/// The book that a policy without rules has, straight from the sizes and counts
/// in its file: one state, which every event leads to, and no answer.
pub fn silent_book(policy: &[u8]) -> Vec<u8> {
    let (events, fields) = (policy[5] as usize, policy[6] as usize);
    let counts = &policy[9..9 + fields];
    let absent = vec![0; 4 - fields];
    let head = [&b"BOK\0\x01"[..], &policy[5..7], counts, &absent, &[1]].concat();
    let answers = vec![0; 2 * requests(&head)];
    [head, vec![1; events], answers].concat()
}

/// The book of a policy that is accepted.
pub fn book_of(policy: &[u8]) -> Book {
    build(policy).expect("an accepted policy")
}

/// The number that turns a policy down.
pub fn refused(policy: &[u8]) -> Option<u8> {
    build(policy).err().map(Refusal::number)
}

/// The situations that a policy reaches.
pub fn situations(policy: &[u8]) -> Vec<Situation> {
    let policy = policy::read(policy).unwrap();
    explore(&policy).unwrap().situations
}

/// The bytes of the book of a policy that is accepted.
pub fn book_bytes(policy: &[u8]) -> Vec<u8> {
    book_of(policy).to_bytes()
}

/// The state that a history leads to in a book, straight from its bytes.
pub fn state_after(book: &[u8], history: &[u8]) -> Option<usize> {
    let mut state = 1;
    for &code in history {
        state = entry(book, state, code as usize);
        if state == 0 {
            return None;
        }
    }
    Some(state)
}

/// All histories of up to `most` codes that `possible` allows, in order.
pub fn histories(width: usize, most: usize, possible: impl Fn(&[u8]) -> bool) -> Vec<History> {
    let mut all = vec![History::new()];
    let mut next = 0;
    while next < all.len() {
        if all[next].len() < most {
            for code in 0..width {
                let longer = [&all[next][..], &[code as u8]].concat();
                if possible(&longer) {
                    all.push(longer);
                }
            }
        }
        next += 1;
    }
    all
}

/// An entry of a book, straight from its bytes.
pub fn entry(book: &[u8], state: usize, code: usize) -> usize {
    book[12 + (state - 1) * width(book) + code] as usize
}

/// The number of requests of a book, straight from its bytes.
pub fn requests(book: &[u8]) -> usize {
    book[7..11]
        .iter()
        .filter(|&&count| count != 0)
        .map(|&count| count as usize)
        .product()
}

/// The number of codes of a book, straight from its bytes.
pub fn width(book: &[u8]) -> usize {
    book[5] as usize + 2 * requests(book)
}
