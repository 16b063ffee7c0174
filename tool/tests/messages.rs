//! What the writer of a mistaken text is told: one message with its place, the
//! line and a mark, here held whole for typical mistakes; and nothing is written.

mod common;

use common::run::{run, Folder, Ran};
use policybook::notation::parse;

/// The first four lines of most texts here.
const DECLARED: &str = "events midnight, complaint
field person = reader, trainee, staff
field action = open, copy, lend
variables copies, warnings
";

/// What a mistaken text has to have told, and that nothing else is.
fn message(text: &str) -> String {
    let Ran { status, output, errors } = run(&["check", "-"], text.as_bytes());
    assert_eq!((status, output), (2, Vec::new()), "{text}\n{errors}");
    assert_eq!(errors.lines().count(), 3, "{errors}");
    errors
}

/// A mistaken fifth line; where the mark begins and what is above it; what is said.
type Case = (&'static str, usize, &'static str, &'static str);

/// Checks the message on each line, alone and with a statement behind it.
fn check_fifth_lines(cases: &[Case]) {
    for (line, column, marked, says) in cases {
        let text = format!("{DECLARED}{line}\n");
        let mark = " ".repeat(column - 1) + &"^".repeat(marked.len());
        let expected = format!("-:5:{column}: {says}\n    {line}\n    {mark}\n");
        assert!(line[column - 1..].starts_with(marked), "{line}");
        assert_eq!(message(&text), expected);
        assert_eq!(message(&format!("{text}rule any, open accept\n")), expected);
    }
}

#[test]
fn whom_a_rule_is_for() {
    check_fifth_lines(&[
        (
            "rule raeder, open accept",
            6,
            "raeder",
            "expected a value of the field person (reader, trainee, staff, or any), found `raeder`: did you mean reader?",
        ),
        (
            "rule copy, reader accept",
            6,
            "copy",
            "expected a value of the field person (reader, trainee, staff, or any), found `copy`: copy is a value of the field action; the order of the fields is person, action",
        ),
        (
            "rule reader copy accept",
            13,
            "copy",
            "expected `,` between person and action, found `copy`",
        ),
        (
            "rule reader, copy, midnight accept",
            18,
            ",",
            "expected `when`, `accept` or `reject`, found `,`: the policy has 2 fields, person, action",
        ),
    ]);
}

#[test]
fn when_a_rule_applies() {
    check_fifth_lines(&[
        ("rule any, copy when copies > 3 accept", 28, ">", "expected `<` or `>=`, found `>`: write `copies >= 4`"),
        (
            "rule any, copy when copies = 3 accept",
            28,
            "=",
            "expected `<` or `>=`, found `=`: write `copies >= 3 and copies < 4`",
        ),
        ("rule any, copy when copy < 3 accept", 21, "copy", "expected a variable (copies, warnings), found `copy`"),
        ("rule any, copy when copies < 64 accept", 30, "64", "expected a number from 1 to 63, found `64`"),
    ]);
}

#[test]
fn what_a_rule_or_an_event_does() {
    check_fifth_lines(&[
        (
            "rule reader, copy permit",
            19,
            "permit",
            "expected `or`, `when`, `accept` or `reject`, found `permit`: write `accept`",
        ),
        ("rule any, copy accept copies + 1", 23, "copies", "expected `,` or the next statement, found `copies`"),
        ("rule any, copy accept, copies + 2", 33, "2", "expected `copies + 1`, found `2`: a change adds one"),
        ("on midnite copies to 0", 4, "midnite", "expected an event (midnight, complaint), found `midnite`"),
        ("on midnight copies = 0", 20, "=", "expected `copies + 1` or `copies to 0`, found `=`"),
        ("allow reader, copy", 1, "allow", "expected `events`, `field`, `variables`, `rule` or `on`, found `allow`"),
    ]);
}

/// Where a statement ends too soon, the mark stands behind it, not at the next.
#[test]
fn a_rule_without_a_decision() {
    let text = format!("{DECLARED}rule reader, copy when copies < 3\n\n# next\nrule any, open accept\n");
    let expected = "\
-:5:34: expected `and`, `accept` or `reject`; the statement ends here
    rule reader, copy when copies < 3
                                     ^
";
    assert_eq!(message(&text), expected);
}

#[test]
fn declarations() {
    let reserved =
        "-:1:7: expected the field's name; `level` is a word of the notation, and as a name it is written \"level\"
    field level = low, high
          ^^^^^
";
    let quote = "-:2:16: expected a `\"` at the end of this name, on the same line
    field person = \"late reader, staff
                   ^
";
    let events = "-:1:32: expected at most 8 events; this is one more
    events a, b, c, d, e, f, g, h, i
                                   ^
";
    let start = "-:2:23: expected a number from 0 to 63, found `64`
    variables copies from 64
                          ^^
";
    let taken = "-:2:16: expected another name: `open` is an event already
    field action = open, copy
                   ^^^^
";
    let nothing = "-:1:1: expected a field: a policy has at least one, as in `field action = open, copy`
    \n    ^
";
    for (text, expected) in [
        ("field level = low, high", reserved),
        ("events midnight\nfield person = \"late reader, staff\n", quote),
        ("events a, b, c, d, e, f, g, h, i\nfield j = k\n", events),
        ("field a = b, c\nvariables copies from 64\n", start),
        ("events open\nfield action = open, copy\n", taken),
        ("", nothing),
    ] {
        assert_eq!(message(text), expected);
    }
}

#[test]
fn too_many_rules_and_requests() {
    let rules = "field a = b, c\n".to_string() + &"rule b accept\n".repeat(33);
    let expected = "-:34:1: expected at most 32 rules; this is one more\n    rule b accept\n    ^^^^\n";
    assert_eq!(message(&rules), expected);
    let values = |letter: char, count: usize| (0..count).map(|n| format!("{letter}{n}")).collect::<Vec<_>>().join(", ");
    let line = format!("field action = {}", values('a', 8));
    let text = format!("field person = {}\n{line}\n", values('p', 9));
    let expected = format!(
        "-:2:7: expected at most 64 requests; with this field there are 9 × 8 = 72\n    {line}\n          ^^^^^^\n"
    );
    assert_eq!(message(&text), expected);
}

/// The mark stands under the word, also behind tabs and wide characters.
#[test]
fn the_mark_is_under_the_word() {
    let expected = "-:2:10: expected `or`, `when`, `accept` or `reject`, found `許可`\n    \
                    rule\t読者  許可\n        \t      ^^^^\n";
    assert_eq!(message("field 人 = 読者, 館員\nrule\t読者  許可\n"), expected);
}

/// What a message says to write in place of a comparison is no mistake itself.
#[test]
fn suggested_comparisons_are_read() {
    for sign in [">", "<=", "≤", "≥", "=", "=="] {
        let mut found = 0;
        for number in 0..=64 {
            let text = |test: &str| format!("{DECLARED}rule any, open when {test} accept\n");
            let mistake = parse(&text(&format!("copies {sign} {number}"))).expect_err("no such sign");
            if let Some((_, instead)) = mistake.message.split_once("write `") {
                let instead = text(instead.trim_end_matches('`'));
                assert!(parse(&instead).is_ok(), "{}", mistake.message);
                found += 1;
            }
        }
        assert!(found >= 62, "{sign}: {found}");
    }
}

/// Every command tells a mistake in the same words, and no file appears.
#[test]
fn every_command_tells_the_mistake_and_writes_nothing() {
    let folder = Folder::new("mistaken");
    let bad = folder.file("bad.txt", "field a = b, c\nrule b acept\n");
    let good = folder.file("good.txt", "field a = b, c\nrule b accept\n");
    let out = folder.name("out");
    let told = format!(
        "{bad}:2:8: expected `or`, `when`, `accept` or `reject`, found `acept`: did you mean `accept`?\n    rule b acept\n           ^^^^^\n"
    );
    for words in [
        &["check", &bad][..],
        &["build", &bad],
        &["compile", &bad],
        &["print", &bad],
        &["compare", &bad, &bad],
        &["compare", &good, &bad],
        &["after", &bad],
        &["way", &bad, "b", "accept"],
        &["page", &bad],
        &["draw", &bad],
        &["check", "--names", &bad, &good],
    ] {
        let ran = run(&[words, &["-o", &out]].concat(), &[]);
        assert_eq!((ran.status, ran.text(), ran.errors.as_str()), (2, "", told.as_str()), "{words:?}");
        assert_eq!(folder.list(), ["bad.txt", "good.txt"], "{words:?}");
    }
}
