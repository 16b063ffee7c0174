//! From bytes to text and back, for generated policies of all kinds under made-up
//! and generated names; and texts in any layout, which say the same as the bytes.

mod common;

use common::layout::{odd_text, Odd};
use common::named::{draw_names, is_plain};
use common::{policy_file, Met, Random};
use policybook::frame::Frame;
use policybook::library;
use policybook::names::Names;
use policybook::notation::{parse, parse_steps, print, quoted, Text};
use policybook::policy::Policy;
use reference::policy::{read, Version};

/// How many policy files are generated: for the round trips, and for odd layouts.
const FILES: u64 = 12_000;
const ODD_FILES: u64 = 6_000;

fn parsed(text: &str, input: &str) -> Text {
    parse(text).unwrap_or_else(|mistake| panic!("{input}:\n{}\n{text}", mistake.report(input, text)))
}

fn printed(text: &Text) -> String {
    print(&text.policy, &text.names, &text.notes)
}

/// Writes the policy under these names and reads it again.
fn check_round_trip(bytes: &[u8], names: &Names, input: &str) {
    let policy = Policy::decode(bytes).expect("a policy with a text");
    assert_eq!(policy.encode(), bytes, "{input}");
    let text = print(&policy, names, &[]);
    let again = parsed(&text, input);
    assert_eq!(again.policy, policy, "{input}\n{text}");
    assert_eq!(again.policy.encode(), bytes, "{input}\n{text}");
    assert_eq!(again.names, *names, "{input}\n{text}");
    assert_eq!(printed(&again), text, "{input}");
    let rules = (1..).zip(text.lines()).filter(|(_, line)| line.starts_with("rule "));
    let rule_lines: Vec<usize> = rules.map(|(number, _)| number).collect();
    assert_eq!(again.rule_lines, rule_lines, "{input}\n{text}");
}

#[test]
fn every_policy_that_is_read_has_a_text() {
    let mut met = Met::default();
    for number in 0..FILES {
        let (bytes, input) = policy_file(number);
        let refused = read(&bytes).err().map(|refusal| refusal.number());
        for row in (2..=10).chain([17]) {
            met.note(&format!("refused by {row}"), refused == Some(row));
        }
        if let Some(row) = refused.filter(|&row| row != 10) {
            let found = Policy::decode(&bytes).expect_err(&input);
            assert_eq!(found.number, row, "{input}");
            continue;
        }
        met.note("refused by 11", library::build(&bytes) == Err(11));
        let policy = Policy::decode(&bytes).expect(&input);
        let variables = policy.starts.len();
        met.note("version 1 with rules", bytes[4] == 1 && bytes[8] > 0);
        met.note("version 2 with rules", bytes[4] == 2 && bytes[8] > 0);
        met.note("version 2 without variables", bytes[4] == 2 && variables == 0);
        met.note("without rules", bytes[8] == 0);
        met.note("32 rules", bytes[8] == 32);
        met.note("64 requests", policy.frame.requests() == 64);
        check_round_trip(&bytes, &Names::made_up(&policy.frame, variables), &input);
        let mut random = Random::new(number, "names");
        check_round_trip(&bytes, &draw_names(&policy.frame, variables, &mut random), &input);
    }
    met.each_at_least(30);
}

#[test]
fn names_stand_in_quotes_where_they_must() {
    let mut met = Met::default();
    for number in 0..20_000 {
        let name = common::named::draw_name(&mut Random::new(number, "name"));
        let plain = is_plain(&name);
        met.note("plain", plain);
        met.note("in quotes", !plain);
        met.note("64 letters", name.chars().count() == 64);
        let expected = if plain { name.clone() } else { format!("\"{name}\"") };
        assert_eq!(quoted(&name), expected);
    }
    met.each_at_least(1_000);
}

/// The text says what the reference reads from the bytes, and its standard layout
/// is one, with every comment.
fn check_odd(odd: &Odd, bytes: &[u8], names: &Names, input: &str) {
    let text = parsed(&odd.text, input);
    assert_eq!(text.policy.encode(), bytes, "{input}\n{}", odd.text);
    assert_eq!(text.names, *names, "{input}\n{}", odd.text);
    assert_eq!(text.rule_lines, odd.rule_lines, "{input}\n{}", odd.text);
    let standard = printed(&text);
    for comment in &odd.comments {
        let is_kept = |line: &str| line.trim_end().ends_with(&format!("# {comment}"));
        assert!(comment.is_empty() || standard.lines().any(is_kept), "{input}: {comment}\n{}", odd.text);
    }
    let again = parsed(&standard, input);
    assert_eq!(again.policy, text.policy, "{input}\n{standard}");
    assert_eq!(again.names, *names, "{input}\n{standard}");
    assert_eq!(printed(&again), standard, "{input}\n{}", odd.text);
}

#[test]
fn texts_in_any_layout_say_the_same() {
    let mut met = Met::default();
    for number in 0..ODD_FILES {
        let (bytes, input) = policy_file(number + 1_000_000);
        let Ok(policy) = read(&bytes) else {
            continue;
        };
        let mut random = Random::new(number, "layout");
        let frame = Policy::decode(&bytes).expect(&input).frame;
        let names = match random.chance(1, 2) {
            true => Names::made_up(&frame, policy.variables),
            false => draw_names(&frame, policy.variables, &mut random),
        };
        let odd = odd_text(&policy, &names, &mut random);
        met.note("comments", odd.comments.len() > 3);
        met.note("an empty comment", odd.comments.contains(&String::new()));
        met.note("no comment", odd.comments.is_empty());
        met.note("carriage returns", odd.text.contains("\r\n"));
        met.note("version 2", policy.version == Version::Two);
        check_odd(&odd, &bytes, &names, &input);
    }
    met.each_at_least(50);
}

/// A history in words, with `twice` and `3 times`, can be given back as steps.
#[test]
fn histories_in_words_are_read_back() {
    let mut met = Met::default();
    for number in 0..20_000 {
        let mut random = Random::new(number, "history");
        let counts = random.pick(&[vec![2], vec![3, 2], vec![2, 1, 2], vec![16]]).clone();
        let frame = Frame { events: random.below(4), counts };
        let names = draw_names(&frame, 0, &mut random);
        let mut history = Vec::new();
        for _ in 0..random.below(6) {
            let code = random.below(frame.width()) as u8;
            history.extend(vec![code; *random.pick(&[1, 1, 2, 3, 12])]);
        }
        let words = names.history(&history);
        met.note("twice", words.contains(" twice"));
        met.note("times", words.contains(" times"));
        met.note("a name of digits alone", words.contains("\"7\""));
        assert_eq!(parse_steps(&names, std::slice::from_ref(&words)), Ok(history), "{words}");
    }
    met.each_at_least(100);
}

/// A file of the folder `samples`.
fn sample(name: &str) -> Vec<u8> {
    let path = format!("{}/../samples/{name}", env!("CARGO_MANIFEST_DIR"));
    std::fs::read(path).expect("a sample")
}

#[test]
fn known_texts_have_known_bytes() {
    let meaning = String::from_utf8(sample("meaning.txt")).expect("text");
    let started = "events midnight\nfield thing = drawing, render\nvariables copies from 2
        rule drawing accept
        rule render when copies < 2 accept, copies + 1
        rule render when copies >= 2 reject
        on midnight copies to 0";
    let norules = "variables v from 5, w from 63 events midnight field do = view, list, copy\n\
                   on midnight w + 1, v to 0";
    for (text, file) in [
        (meaning.as_str(), "meaning.policy"),
        (started, "started.policy"),
        (&started.replace(" from 2", ""), "a.policy"),
        (norules, "norules-started.policy"),
        ("field a = x, y, z events e", "norules.policy"),
    ] {
        assert_eq!(parsed(text, file).policy.encode(), sample(file), "{file}");
    }
}

#[test]
fn the_standard_layout_is_in_columns() {
    let policy = Policy::decode(&sample("started.policy")).expect("a good policy");
    let expected = "\
events    e0
field     a = a0, a1
variables v0 from 2

rule      a0                accept
rule      a1  when v0 < 2   accept, v0 + 1
rule      a1  when v0 >= 2  reject

on        e0  v0 to 0
";
    assert_eq!(print(&policy, &Names::made_up(&policy.frame, 1), &[]), expected);
}
