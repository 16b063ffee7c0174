//! Holds the proved library against the reference on generated inputs: the answers and every byte of the lent buffers.
//!
//!     differential [COUNT [SEED]]
//!
//! COUNT inputs of each call (20,000 if not given), from SEED on (1 if not given). One line for each call, with how often each refusal came;
//! the first difference of a call is shown with the command that makes its input again. Exit status 1 if there is any.

mod expected;
mod same;
mod ways;

use std::collections::BTreeMap;
use std::process::ExitCode;

use policybook::calls as library;
use reference::generate::{self, Random};
use same::sames;
use ways::Ways;

/// How one call was answered over all its inputs.
#[derive(Default)]
struct Tally {
    inputs: u64,
    differences: u64,
    refusals: BTreeMap<u64, u64>,
    /// The greatest value: for compare and page, a length.
    greatest: u64,
}

impl Tally {
    /// Notes one input: what the library gave, what it should have given, and a name for the input.
    fn note<T: PartialEq>(&mut self, given: (u64, T), wanted: (u64, T), input: &str) {
        *self.refusals.entry(wanted.0 % 256).or_default() += 1;
        self.greatest = self.greatest.max(wanted.0 / 256);
        self.hold(given, wanted, input);
    }

    /// The same for an answer that is the value itself, with no room for a refusal.
    fn hold<T: PartialEq>(&mut self, given: (u64, T), wanted: (u64, T), input: &str) {
        self.inputs += 1;
        if given != wanted {
            if self.differences == 0 {
                let buffers = if given.1 == wanted.1 {
                    "equal"
                } else {
                    "different"
                };
                println!(
                    "  {input}: answered {}, should be {}; buffers {buffers}",
                    given.0, wanted.0
                );
            }
            self.differences += 1;
        }
    }

    fn print(&self, call: &str) {
        let refusals: Vec<String> = self
            .refusals
            .iter()
            .map(|(number, times)| format!("{number}: {times}"))
            .collect();
        print!(
            "{call}: {} inputs, {} differences",
            self.inputs, self.differences
        );
        match refusals.is_empty() {
            true => println!(),
            false => println!("; refusals {}", refusals.join(", ")),
        }
    }
}

/// A lent buffer: its bytes are anything, its length now and then too short, now and then longer than needed.
fn lent(random: &mut Random, least: usize) -> Vec<u8> {
    let length = match random.below(32) {
        0 => random.below(least),
        1 => least - 1,
        2..=7 => least + random.below(64),
        _ => least,
    };
    let first = random.below(256) as u8;
    (0..length)
        .map(|i| first.wrapping_add((i % 251) as u8))
        .collect()
}

/// The kinds of policies, good and damaged: of version 1, of version 2, and without rules. Build gets as many of each.
const POLICIES: [&str; 6] = [
    "policy",
    "damaged-policy",
    "starting-policy",
    "damaged-starting-policy",
    "no-rules-policy",
    "damaged-no-rules-policy",
];

/// Build, with how many books of version 2, and of policies without rules, it gave.
#[derive(Default)]
struct Builds {
    build: Tally,
    version_2: u64,
    /// How many of these have a starting value above 0.
    started: u64,
    no_rules: u64,
    /// How many of these have variables.
    idle_variables: u64,
}

impl Builds {
    /// Notes the policy of an answer that is a book.
    fn note_policy(&mut self, policy: &[u8], answer: u64) {
        if !answer.is_multiple_of(256) {
            return;
        }
        if policy[4] == 2 {
            let first = 9 + usize::from(policy[6]);
            let starts = &policy[first..first + usize::from(policy[7])];
            self.version_2 += 1;
            self.started += u64::from(starts.iter().any(|&start| start > 0));
        }
        if policy[8] == 0 {
            self.no_rules += 1;
            self.idle_variables += u64::from(policy[7] > 0);
        }
    }
}

fn builds(count: u64, seed: u64) -> Builds {
    let mut noted = Builds::default();
    for i in seed..seed + count {
        let kind = POLICIES[(i % POLICIES.len() as u64) as usize];
        let policy = generate::one(kind, i).expect("a kind that the generator has");
        let mut random = Random::new(i, "build's buffer");
        let mut given = lent(&mut random, 17_284);
        let mut wanted = given.clone();
        let answers = (
            library::build(&policy, &mut given),
            expected::build(&policy, &mut wanted),
        );
        noted.note_policy(&policy, answers.1);
        noted.build.note(
            (answers.0, given),
            (answers.1, wanted),
            &format!("generate {kind} {i}"),
        );
    }
    noted
}

/// The book of the policy of a seed, with rules or without, or a foreign or damaged book.
fn some_book(i: u64) -> (&'static str, Vec<u8>) {
    let kind = match i % 16 {
        0..=4 => return ("the book of policy", built(&generate::policy(i))),
        5 => {
            let book = built(&generate::no_rules_policy(i));
            return ("the book of no-rules-policy", book);
        }
        6..=11 => "book",
        12 | 13 => "damaged-book",
        _ => "late-finding-book",
    };
    (
        kind,
        generate::one(kind, i).expect("a kind that the generator has"),
    )
}

fn built(policy: &[u8]) -> Vec<u8> {
    let mut buffer = vec![0; 17_284];
    match reference::entry::build(policy, &mut buffer) {
        Ok(length) => buffer[..length].to_vec(),
        Err(_) => Vec::new(),
    }
}

/// Verdict, page and way, on the same books.
#[derive(Default)]
struct OfBooks {
    verdict: Tally,
    page: Tally,
    /// How many pages have a state that no history leads to.
    unreached: u64,
    /// How many pages are of 127 states and 64 requests.
    fullest: u64,
    ways: Ways,
}

impl OfBooks {
    fn note_verdict(&mut self, i: u64, book: &[u8], input: &str) {
        let mut random = Random::new(i, "verdict's buffers");
        let mut given = [(); 3].map(|_| lent(&mut random, 128));
        let mut wanted = given.clone();
        let [a, b, c] = &mut given;
        let first = library::verdict(book, a, b, c);
        let [a, b, c] = &mut wanted;
        let second = expected::verdict(book, a, b, c);
        self.verdict.note((first, given), (second, wanted), input);
    }

    fn note_page(&mut self, i: u64, book: &[u8], input: &str) {
        let mut random = Random::new(i, "page's buffer");
        let mut given = lent(&mut random, 9_271);
        let mut wanted = given.clone();
        let answers = (
            library::page(book, &mut given),
            expected::page(book, &mut wanted),
        );
        let written = &wanted[..(answers.1 / 256) as usize];
        let lines = written.chunks(73);
        self.unreached += u64::from(lines.into_iter().any(|line| &line[4..7] == b"---"));
        self.fullest += u64::from(written.len() == 9_271 && written[71] != b' ');
        self.page
            .note((answers.0, given), (answers.1, wanted), input);
    }
}

fn of_books(count: u64, seed: u64) -> OfBooks {
    let mut noted = OfBooks::default();
    for i in seed..seed + count {
        let (kind, book) = some_book(i);
        let input = format!("{kind} {i}");
        noted.note_verdict(i, &book, &input);
        noted.note_page(i, &book, &input);
        noted.ways.note(i, kind, &book);
    }
    noted
}

/// Two books: of two related policies, of either version, with rules or without, foreign ones of one frame, ones that differ as late as they can,
/// or faulty ones.
fn some_pair(i: u64) -> (&'static str, Vec<u8>, Vec<u8>) {
    match i % 16 {
        0..=2 => built_pair("the books of policy-pair", generate::policy_pair(i)),
        3 => built_pair("the books of no-rules-pair", generate::no_rules_pair(i)),
        4 | 5 => built_pair("the books of starting-pair", generate::starting_pair(i)),
        6..=9 => pair("pair", generate::book_pair(i)),
        10 | 11 => pair("longest-pair", generate::longest_pair(i)),
        12 | 13 => pair("faulty-pair", generate::faulty_pair(i)),
        _ => {
            let book = generate::book(i);
            ("book, twice,", book.clone(), book)
        }
    }
}

fn pair(kind: &'static str, books: (Vec<u8>, Vec<u8>)) -> (&'static str, Vec<u8>, Vec<u8>) {
    (kind, books.0, books.1)
}

fn built_pair(
    kind: &'static str,
    policies: (Vec<u8>, Vec<u8>),
) -> (&'static str, Vec<u8>, Vec<u8>) {
    (kind, built(&policies.0), built(&policies.1))
}

fn compares(count: u64, seed: u64) -> Tally {
    let mut tally = Tally::default();
    for i in seed..seed + count {
        let (kind, first, second) = some_pair(i);
        let mut random = Random::new(i, "compare's buffer");
        let mut given = lent(&mut random, 256);
        let mut wanted = given.clone();
        let answers = (
            library::compare(&first, &second, &mut given),
            expected::compare(&first, &second, &mut wanted),
        );
        tally.note(
            (answers.0, given),
            (answers.1, wanted),
            &format!("{kind} {i}"),
        );
    }
    tally
}

fn number(word: Option<String>, otherwise: u64) -> Option<u64> {
    word.map_or(Some(otherwise), |text| text.parse().ok())
}

fn main() -> ExitCode {
    let mut words = std::env::args().skip(1);
    let (Some(count), Some(seed)) = (number(words.next(), 20_000), number(words.next(), 1)) else {
        eprintln!("usage: differential [COUNT [SEED]]");
        return ExitCode::from(2);
    };
    println!("seeds {seed} to {}", seed + count - 1);
    match all_equal(count, seed) {
        true => ExitCode::SUCCESS,
        false => ExitCode::FAILURE,
    }
}

/// Makes all calls and prints how they came out: whether there is no difference.
fn all_equal(count: u64, seed: u64) -> bool {
    let builds = builds(count, seed);
    let of_books = of_books(count, seed);
    let compare = compares(count, seed);
    let sames = sames(count, seed);
    let tallies = [
        ("build", &builds.build),
        ("verdict", &of_books.verdict),
        ("compare", &compare),
        ("page", &of_books.page),
        ("way", &of_books.ways.way),
        ("same_bytes", &sames.same),
    ];
    for (call, tally) in &tallies {
        tally.print(call);
    }
    println!(
        "books of version 2: {}; with a starting value above 0: {}",
        builds.version_2, builds.started
    );
    println!(
        "books without rules: {}; with variables: {}",
        builds.no_rules, builds.idle_variables
    );
    println!("longest difference: {} codes", compare.greatest);
    println!(
        "longest page: {} bytes; pages of 127 states and 64 requests: {}; with a state that no history leads to: {}",
        of_books.page.greatest, of_books.fullest, of_books.unreached
    );
    of_books.ways.print();
    sames.print();
    tallies.iter().all(|(_, tally)| tally.differences == 0)
}
