//! Inputs for tests, made from a seed. The same seed gives the same bytes
//! forever: no function here may change what it gives for a seed.

mod book_damage;
mod books;
mod extremes;
mod no_rules;
mod no_rules_damage;
mod plays;
mod policies;
mod policy_damage;
mod questions;
mod random;
mod shape;
mod start_damage;
mod starts;
mod strings;
mod variation;

pub use book_damage::{damaged_book, faulty_pair};
pub use books::{book, book_pair};
pub use extremes::{far_pair, late_finding_book, late_outcome_book, longest_pair};
pub use no_rules::{no_rules_pair, no_rules_policy};
pub use no_rules_damage::damaged_no_rules_policy;
pub use plays::play;
pub use policies::policy;
pub use policy_damage::damaged_policy;
pub use questions::{question, Question};
pub use random::Random;
pub use start_damage::damaged_starting_policy;
pub use starts::{starting_pair, starting_policy};
pub use strings::{cancelling_strings, equal_strings, one_bit_strings, prefix_strings};
pub use variation::policy_pair;

/// The names of the kinds that `one` knows.
pub const KINDS: [&str; 31] = [
    "policy",
    "policy-pair-first",
    "policy-pair-second",
    "damaged-policy",
    "book",
    "damaged-book",
    "late-finding-book",
    "pair-first",
    "pair-second",
    "longest-pair-first",
    "longest-pair-second",
    "faulty-pair-first",
    "faulty-pair-second",
    "play",
    "starting-policy",
    "damaged-starting-policy",
    "starting-pair-first",
    "starting-pair-second",
    "late-outcome-book",
    "equal-strings-first",
    "equal-strings-second",
    "one-bit-strings-first",
    "one-bit-strings-second",
    "cancelling-strings-first",
    "cancelling-strings-second",
    "prefix-strings-first",
    "prefix-strings-second",
    "no-rules-policy",
    "damaged-no-rules-policy",
    "no-rules-pair-first",
    "no-rules-pair-second",
];

/// The input of a kind named in `KINDS` for a seed, nothing for another name.
pub fn one(kind: &str, seed: u64) -> Option<Vec<u8>> {
    if let Some(kind) = kind.strip_suffix("-first") {
        return two(kind, seed).map(|(first, _)| first);
    }
    if let Some(kind) = kind.strip_suffix("-second") {
        return two(kind, seed).map(|(_, second)| second);
    }
    Some(match kind {
        "policy" => policy(seed),
        "damaged-policy" => damaged_policy(seed),
        "book" => book(seed),
        "damaged-book" => damaged_book(seed),
        "late-finding-book" => late_finding_book(seed),
        "play" => play(seed),
        "starting-policy" => starting_policy(seed),
        "damaged-starting-policy" => damaged_starting_policy(seed),
        "late-outcome-book" => late_outcome_book(seed),
        "no-rules-policy" => no_rules_policy(seed),
        "damaged-no-rules-policy" => damaged_no_rules_policy(seed),
        _ => return None,
    })
}

/// The two inputs of a kind that comes in pairs.
fn two(kind: &str, seed: u64) -> Option<(Vec<u8>, Vec<u8>)> {
    Some(match kind {
        "policy-pair" => policy_pair(seed),
        "pair" => book_pair(seed),
        "longest-pair" => longest_pair(seed),
        "faulty-pair" => faulty_pair(seed),
        "starting-pair" => starting_pair(seed),
        "equal-strings" => equal_strings(seed),
        "one-bit-strings" => one_bit_strings(seed),
        "cancelling-strings" => cancelling_strings(seed),
        "prefix-strings" => prefix_strings(seed),
        "no-rules-pair" => no_rules_pair(seed),
        _ => return None,
    })
}

/// Codes to try one after another on an opened book with `width` codes. Now
/// and then one is not below the width.
pub fn codes(seed: u64, width: usize, length: usize) -> Vec<usize> {
    let mut random = Random::new(seed, "codes");
    (0..length)
        .map(|_| {
            if random.chance(1, 64) {
                width + random.below(300)
            } else {
                random.below(width)
            }
        })
        .collect()
}
