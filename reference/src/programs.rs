//! What the programs `shelf`, `cases` and `play` are run on, and what they must write.
//! The files `stdin` and `stdout` beside each program are made here.

use crate::{book, generate, hex, play, shelf};

/// A run of a program.
pub struct Run {
    pub program: &'static str,
    pub stdin: Vec<u8>,
    pub stdout: String,
}

/// One run of each program.
pub fn runs() -> Vec<Run> {
    let policies = policies();
    let steps = play::input(&book::build(E).expect("a book").to_bytes(), &STEPS);
    vec![
        Run {
            program: "shelf",
            stdin: E.to_vec(),
            stdout: shelf::shelf(E),
        },
        Run {
            program: "cases",
            stdin: policies.iter().flat_map(|policy| record(policy)).collect(),
            stdout: policies.iter().map(|policy| case_line(policy)).collect(),
        },
        Run {
            program: "play",
            stdout: play::play(&steps),
            stdin: steps,
        },
    ]
}

/// The line for a policy: its book in hexadecimal, two digits for each byte, or
/// the number that turns it down.
pub fn case_line(policy: &[u8]) -> String {
    match book::build(policy) {
        Ok(book) => {
            let digits: String = book
                .to_bytes()
                .iter()
                .map(|byte| format!("{byte:02X}"))
                .collect();
            digits + "\n"
        }
        Err(refusal) => shelf::refusal_line(refusal),
    }
}

/// A policy after its length in two bytes, the high byte first.
fn record(policy: &[u8]) -> Vec<u8> {
    let length = u16::try_from(policy.len()).expect("a length of two bytes");
    [&length.to_be_bytes(), policy].concat()
}

/// The policies of the table of cases, the examples of the table of refusals,
/// and generated ones; then those with starting values, and those without rules.
pub fn policies() -> Vec<Vec<u8>> {
    let mut policies: Vec<Vec<u8>> = TABLE.iter().map(|policy| policy.to_vec()).collect();
    policies.extend(EXAMPLES.iter().map(|text| bytes(text)));
    policies.extend(first_small(generate::policy, 36));
    policies.extend(first_small(generate::damaged_policy, 36));
    policies.extend(starting_as());
    policies.extend(STARTING.iter().map(|text| bytes(text)));
    policies.extend(first_small(generate::starting_policy, 18));
    policies.extend(first_small(generate::damaged_starting_policy, 18));
    policies.extend(NO_RULES_SAMPLES.iter().map(|policy| policy.to_vec()));
    policies.extend(NO_RULES.iter().map(|text| bytes(text)));
    policies.extend(first_small(generate::no_rules_policy, 6));
    policies.extend(first_small(generate::damaged_no_rules_policy, 6));
    policies
}

/// Case A in version 2 with the starts 0, 1, 2, 63 and 64, with no start, with a
/// bad count beside the bad start, and with a bad mask beside it; and as version 3.
fn starting_as() -> Vec<Vec<u8>> {
    let mut policies: Vec<Vec<u8>> = [0, 1, 2, 63, 64].map(|start| starting_a(&[start])).into();
    policies.push(starting_a(&[]));
    for (start, place, byte) in [(64, 9, 17), (64, 12, 4), (0, 4, 3)] {
        let mut policy = starting_a(&[start]);
        policy[place] = byte;
        policies.push(policy);
    }
    policies
}

/// Case A in version 2 with these bytes after its value count.
fn starting_a(starts: &[u8]) -> Vec<u8> {
    let (head, rules) = TABLE[0].split_at(10);
    let mut policy = [head, starts, rules].concat();
    policy[4] = 2;
    policy
}

/// So many inputs of the generator whose books, if they have any, are small.
fn first_small(generator: fn(u64) -> Vec<u8>, count: usize) -> Vec<Vec<u8>> {
    let is_small = |policy: &Vec<u8>| case_line(policy).len() <= 2_000;
    (0..).map(generator).filter(is_small).take(count).collect()
}

fn bytes(text: &str) -> Vec<u8> {
    hex::parse(text).expect("hexadecimal text")
}

const E: &[u8] = include_bytes!("../../samples/e.policy");

/// Steps on the book of case E, of which the third and the last are refused.
const STEPS: [u8; 6] = [3, 3, 3, 2, 0, 255];

/// Cases A to S.
const TABLE: [&[u8]; 10] = [
    include_bytes!("../../samples/a.policy"),
    include_bytes!("../../samples/b.policy"),
    include_bytes!("../../samples/c.policy"),
    include_bytes!("../../samples/d.policy"),
    E,
    include_bytes!("../../samples/f.policy"),
    include_bytes!("../../samples/g.policy"),
    include_bytes!("../../samples/h.policy"),
    include_bytes!("../../samples/j.policy"),
    include_bytes!("../../samples/s.policy"),
];

/// The examples of the numbers 2 to 11, each followed by its neighbour that
/// passes where the table names one; case E with its added rule at level 1; and
/// the greatest book, of 127 states and 136 codes.
const EXAMPLES: [&str; 14] = [
    "",
    "50 4F 58 00 00 00 00 00 00",
    "50 4F 4C 00 00 01 01 01 03 02",
    "50 4F 4C 00 01 00 05 00 01 01 01 01 01 01 | 00 01 00 01 00 01 00 01 00 01 01 00",
    "50 4F 4C 00 01 01 01 01 03 02 | 00 01 01 00 00 00 00 | 00 02 01 00 00 02 01 \
     | 00 02 00 00 02 00 00 | 02 | 00",
    "50 4F 4C 00 01 00 02 00 01 09 08 | 00 01 00 01 01 00",
    "50 4F 4C 00 01 00 02 00 01 08 08 | 00 01 00 01 01 00",
    "50 4F 4C 00 01 00 01 00 01 02 | 00 04 01 00",
    "50 4F 4C 00 01 00 01 01 01 02 | 00 03 01 00 00 01 03",
    "50 4F 4C 00 01 00 01 02 01 02 | 00 03 01 00 08 00 01 08 00 01",
    "50 4F 4C 00 01 00 01 02 01 02 | 00 03 01 00 07 00 01 07 00 01",
    "50 4F 4C 00 01 00 01 01 03 02 | 00 03 01 00 00 01 00 | 00 01 01 00 00 01 01 \
     | 00 03 01 00 01 07 01",
    "50 4F 4C 00 01 01 01 01 04 02 | 00 01 01 00 00 00 00 | 00 02 01 00 00 02 01 \
     | 00 02 00 00 02 00 00 | 00 01 00 01 02 00 00 | 02",
    "50 4F 4C 00 01 08 02 01 05 08 08 | 00 01 00 FF 01 00 00 00 01 \
     | 00 FE 00 FF 01 00 00 01 00 | 00 FE 00 FF 01 00 00 01 01 \
     | 00 01 00 FF 00 00 3E 3F 00 | 00 FE 00 FF 00 00 3F 00 00 | 00 00 00 00 00 00 00 00",
];

/// Two variables with the bounds 2 and 3 that start at 1 and 2; case S with 7
/// from 1 on; and no variables.
const STARTING: [&str; 3] = [
    "50 4F 4C 00 02 01 01 02 04 02 | 01 02 | 00 01 01 00 00 02 01 00 00 00 \
     | 00 01 00 00 02 00 00 00 00 00 | 00 02 01 00 00 00 00 00 03 01 \
     | 00 02 00 00 00 00 00 03 00 00 | 02 00",
    "50 4F 4C 00 02 00 01 01 03 02 | 01 | 00 03 01 00 00 01 00 | 00 01 01 00 00 01 01 \
     | 00 03 01 00 01 07 01",
    "50 4F 4C 00 02 00 02 00 01 08 08 | 00 01 00 01 01 00",
];

const NO_RULES_SAMPLES: [&[u8]; 2] = [
    include_bytes!("../../samples/norules.policy"),
    include_bytes!("../../samples/norules-started.policy"),
];

/// Without rules: the smallest file, and one of 8 events, 64 requests and 4
/// variables; then the second sample with a byte more, with one rule said in its
/// header, with a change of 3, and with a start of 64.
const NO_RULES: [&str; 6] = [
    "50 4F 4C 00 01 00 01 00 00 01",
    "50 4F 4C 00 02 08 04 04 00 04 02 04 02 | 3F 00 01 3E | 01 00 00 00 | 02 01 01 02 \
     | 01 01 01 01 | 01 01 01 01 | 01 01 01 01 | 01 01 01 01 | 01 01 01 01 | 00 00 00 02",
    "50 4F 4C 00 02 01 01 02 00 03 | 05 3F | 02 01 | 00",
    "50 4F 4C 00 02 01 01 02 01 03 | 05 3F | 02 01",
    "50 4F 4C 00 02 01 01 02 00 03 | 05 3F | 02 03",
    "50 4F 4C 00 02 01 01 02 00 03 | 40 3F | 02 01",
];
