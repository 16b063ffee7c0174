//! Properties that hold for every policy and every book, tried on generated
//! ones with fixed seeds.

mod common;
#[path = "common/plain.rs"]
mod plain;

use std::collections::{BTreeMap, BTreeSet};

use common::{entry, requests, situations, width};
use plain::PlainPolicy;
use reference::book::{self, build, Book, MOST_LENGTH};
use reference::explore::explore;
use reference::generate::{self, Random};
use reference::policy::Version;
use reference::{policy, situation};

/// Policies of version 1 and of version 2, one of each for a seed.
fn policies(seeds: std::ops::Range<u64>) -> impl Iterator<Item = Vec<u8>> {
    seeds.flat_map(|seed| [generate::policy(seed), generate::starting_policy(seed)])
}

/// Accepted policies of both versions and their books.
fn built(seeds: std::ops::Range<u64>) -> impl Iterator<Item = (Vec<u8>, Book)> {
    policies(seeds).filter_map(|policy| {
        let book = build(&policy).ok()?;
        Some((policy, book))
    })
}

#[test]
fn most_policies_are_accepted_and_written_as_they_were_read() {
    let mut accepted = [0; 2];
    for (place, bytes) in policies(0..300).enumerate() {
        let decoded = policy::read(&bytes).expect("only number 11 occurs");
        let version = [Version::One, Version::Two][place % 2];
        assert_eq!(decoded.version, version);
        assert_eq!(policy::write(&decoded), bytes);
        let valuations = situation::all_valuations(&decoded);
        assert_eq!(valuations.len(), situation::count_valuations(&decoded));
        assert_eq!(
            valuations.iter().collect::<BTreeSet<_>>().len(),
            valuations.len()
        );
        accepted[place % 2] += usize::from(build(&bytes).is_ok());
    }
    assert!(accepted.iter().all(|&count| count > 270), "{accepted:?}");
}

#[test]
fn built_books_pass_the_checks() {
    for (policy, book) in built(0..300) {
        let bytes = book.to_bytes();
        assert!(bytes.len() <= MOST_LENGTH);
        assert_eq!(bytes.len(), 12 + book.states() * book.frame.width());
        assert_eq!(book::read(&bytes).as_ref(), Ok(&book));
        assert_eq!(bytes[5..7], policy[5..7]);
        assert_eq!(
            bytes[7..7 + policy[6] as usize],
            policy[9..9 + policy[6] as usize]
        );
    }
}

/// All histories, shortest first, as far as the work allows.
#[test]
fn short_histories_of_policy_and_book_agree() {
    for (bytes, book) in built(0..200) {
        let plain = PlainPolicy::new(&bytes);
        assert_eq!(plain.width(), book.frame.width());
        let mut waiting = vec![(plain.start(), 1)];
        let mut next = 0;
        while next < waiting.len() && waiting.len() * plain.width() < 6_000 {
            let (set, state) = waiting[next].clone();
            for code in 0..plain.width() {
                let reached = plain.after(&set, code);
                let target = book.entry(state, code);
                assert_eq!(reached.is_empty(), target == 0);
                if target != 0 {
                    waiting.push((reached, target));
                }
            }
            next += 1;
        }
    }
}

#[test]
fn long_histories_of_policy_and_book_agree() {
    for (seed, (bytes, book)) in built(0..200).enumerate() {
        let plain = PlainPolicy::new(&bytes);
        let mut random = Random::new(seed as u64, "long histories");
        for _ in 0..2 {
            let (mut set, mut state) = (plain.start(), 1);
            for _ in 0..150 {
                let code = random.below(plain.width());
                let reached = plain.after(&set, code);
                assert_eq!(reached.is_empty(), book.entry(state, code) == 0);
                if !reached.is_empty() {
                    (set, state) = (reached, book.entry(state, code));
                }
            }
        }
    }
}

/// Every reached situation with all its steps, so all histories of any length.
#[test]
fn every_situation_and_every_step_agree() {
    for (bytes, book) in built(0..150) {
        let plain = PlainPolicy::new(&bytes);
        let mut state_of = BTreeMap::from([(plain.start(), 1)]);
        let mut waiting = vec![plain.start()];
        while let Some(set) = waiting.pop() {
            let state = state_of[&set];
            for code in 0..plain.width() {
                let reached = plain.after(&set, code);
                let target = book.entry(state, code);
                assert_eq!(reached.is_empty(), target == 0);
                if target != 0 && !state_of.contains_key(&reached) {
                    waiting.push(reached.clone());
                }
                if target != 0 {
                    assert_eq!(*state_of.entry(reached).or_insert(target), target);
                }
            }
        }
        let decoded = policy::read(&bytes).unwrap();
        assert_eq!(state_of.len(), explore(&decoded).unwrap().situations.len());
        assert_eq!(
            state_of.values().collect::<BTreeSet<_>>().len(),
            book.states()
        );
    }
}

/// Classes of states by the histories possible from them, refined by rows.
fn classes(book: &Book) -> usize {
    let mut class_of = vec![0; book.states() + 1];
    class_of[0] = usize::MAX;
    let mut count = 1;
    loop {
        let mut numbers = BTreeMap::new();
        let mut refined = class_of.clone();
        for state in 1..=book.states() {
            let row: Vec<usize> = book.rows[state - 1]
                .iter()
                .map(|&target| class_of[target as usize])
                .collect();
            let fresh = numbers.len();
            refined[state] = *numbers.entry((class_of[state], row)).or_insert(fresh);
        }
        if numbers.len() == count {
            return count;
        }
        (class_of, count) = (refined, numbers.len());
    }
}

#[test]
fn states_of_a_built_book_are_told_apart() {
    let mut joined = 0;
    for (bytes, book) in built(0..300) {
        assert_eq!(classes(&book), book.states());
        joined += usize::from(situations(&bytes).len() > book.states());
    }
    assert!(joined > 50, "{joined}");
}

#[test]
fn states_of_a_built_book_are_numbered_by_their_earliest_history() {
    for (_, book) in built(0..300) {
        let mut met = vec![1];
        for place in 0..book.states() {
            let state = *met.get(place).expect("every state is reached");
            for code in 0..book.frame.width() {
                let target = book.entry(state, code);
                if target != 0 && !met.contains(&target) {
                    met.push(target);
                }
            }
        }
        assert!(met.iter().copied().eq(1..=book.states()));
    }
}

/// The order of the rules and what their levels are called change nothing.
#[test]
fn equivalent_policies_have_equal_books() {
    for (bytes, book) in built(0..300) {
        let mut decoded = policy::read(&bytes).unwrap();
        decoded.rules.reverse();
        if decoded.rules.len() < policy::MOST_RULES {
            decoded.rules.push(decoded.rules[0].clone());
        }
        let levels: BTreeSet<u8> = decoded.rules.iter().map(|rule| rule.level).collect();
        for rule in &mut decoded.rules {
            rule.level = levels
                .iter()
                .position(|&level| level == rule.level)
                .unwrap() as u8;
        }
        assert_eq!(build(&policy::write(&decoded)).as_ref(), Ok(&book));
    }
}

#[test]
fn generated_books_pass_the_checks() {
    let mut unreached = 0;
    let mut alike = 0;
    for seed in 0..300 {
        let bytes = generate::book(seed);
        let book = book::read(&bytes).expect("a book that passes");
        assert_eq!(book.to_bytes(), bytes);
        assert_eq!(
            (requests(&bytes), width(&bytes)),
            (book.frame.requests(), book.frame.width())
        );
        assert_eq!(
            entry(&bytes, book.states(), 0),
            book.entry(book.states(), 0)
        );
        let led_to: BTreeSet<u8> = book.rows.iter().flatten().copied().collect();
        unreached += usize::from((2..=book.states() as u8).any(|state| !led_to.contains(&state)));
        alike += usize::from(classes(&book) < book.states());
    }
    assert!(unreached > 50 && alike > 50, "{unreached} {alike}");
}

/// For each kind of input, a sum over the bytes for the first 40 seeds.
const SUMS: [(&str, u64); 31] = [
    ("policy", 0xDA23_5E0E_3629_2C1D),
    ("policy-pair-first", 0x3480_96C1_D3A2_B227),
    ("policy-pair-second", 0xCE55_9955_F26C_296D),
    ("damaged-policy", 0xE26D_9C5E_24AF_C685),
    ("book", 0x2D75_FC9B_E548_AA14),
    ("damaged-book", 0x29C0_5F4B_412B_832F),
    ("late-finding-book", 0xA4A3_E4C4_8E6D_7E65),
    ("pair-first", 0xBA47_DF4E_0013_998B),
    ("pair-second", 0x8288_C3B3_8084_4E0B),
    ("longest-pair-first", 0xD5F4_9696_4BFC_55EA),
    ("longest-pair-second", 0xEA68_8767_5B43_A397),
    ("faulty-pair-first", 0x9047_7D5D_CE04_3905),
    ("faulty-pair-second", 0xDD60_13CD_9187_4690),
    ("play", 0x90D5_AC63_5632_89B0),
    ("starting-policy", 0xE630_694D_402D_53BD),
    ("damaged-starting-policy", 0x9BE1_E041_1D4D_35CA),
    ("starting-pair-first", 0x61F8_F5D0_3FCF_954D),
    ("starting-pair-second", 0x76AC_0950_CF35_C839),
    ("late-outcome-book", 0xAF1D_028F_5B16_0D76),
    ("equal-strings-first", 0x9D8C_29C1_29D4_FC4D),
    ("equal-strings-second", 0x9D8C_29C1_29D4_FC4D),
    ("one-bit-strings-first", 0x929D_9FA2_9AFB_4804),
    ("one-bit-strings-second", 0xCC27_10F7_9FE1_074C),
    ("cancelling-strings-first", 0xB9FE_D980_618A_D5F9),
    ("cancelling-strings-second", 0x4A4C_587F_5C76_A78F),
    ("prefix-strings-first", 0x994A_6400_B854_42EA),
    ("prefix-strings-second", 0xF97C_78F7_1044_9005),
    ("no-rules-policy", 0xF09C_61EE_E86B_B413),
    ("damaged-no-rules-policy", 0x3126_537E_C4CA_669A),
    ("no-rules-pair-first", 0x2D11_65D5_835F_29FD),
    ("no-rules-pair-second", 0xC7B4_9001_BD3D_4CEE),
];

/// A sum that depends on every byte and on their order (the method called FNV-1a).
fn sum(bytes: impl Iterator<Item = u8>) -> u64 {
    bytes.fold(0xCBF2_9CE4_8422_2325, |sum, byte| {
        (sum ^ u64::from(byte)).wrapping_mul(0x0000_0100_0000_01B3)
    })
}

/// The bytes that the generators give for a seed are the same forever.
#[test]
fn generators_give_the_same_bytes_forever() {
    let sums = generate::KINDS.map(|kind| {
        let inputs = (0..40).flat_map(|seed| generate::one(kind, seed).unwrap());
        (kind, sum(inputs))
    });
    assert_eq!(sums, SUMS);
    assert_eq!(generate::codes(1, 100, 6), [10, 80, 97, 51, 68, 25]);
}

#[test]
fn questions_are_the_same_forever() {
    let questions = (0..400).flat_map(|seed| {
        let question = generate::question(seed, &generate::book(seed));
        [question.request, question.outcome]
    });
    let sum = sum(questions.flat_map(usize::to_be_bytes));
    assert_eq!(sum, 0x91D0_C443_EBA4_2368);
}
