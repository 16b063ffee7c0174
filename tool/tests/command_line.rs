//! The command line: exit statuses of every command, wrong use, help, and files
//! told apart by what they contain.

mod common;

use common::run::{run, Folder};

/// The words of the commands.
const COMMANDS: [&str; 10] =
    ["check", "build", "compile", "print", "compare", "after", "way", "page", "draw", "inventory"];

/// Rules with no findings.
const GOOD: &str = "events midnight
field thing = drawing, render
variables copies
rule drawing accept
rule render when copies < 2 accept, copies + 1
rule render when copies >= 2 reject
on midnight copies to 0
";

/// Files of all sorts: what each is called.
struct Files {
    folder: Folder,
    good: String,
    /// A conflict, and a rule more than the good one.
    conflict: String,
    /// Of another frame.
    other: String,
    policy: String,
    book: String,
    /// Refused by number 10.
    large: String,
    /// A policy file that is refused.
    bad: String,
    missing: String,
}

fn files(name: &str) -> Files {
    let folder = Folder::new(name);
    let conflict = format!("{GOOD}rule drawing when copies >= 2 reject\n");
    let large = "field a = b, c\nvariables v, w\nrule any when v < 60 and w < 60 accept\n";
    let book = run(&["build", "-"], GOOD.as_bytes());
    let policy = run(&["compile", "-"], GOOD.as_bytes());
    assert_eq!((book.status, policy.status), (0, 0));
    Files {
        good: folder.file("good.txt", GOOD),
        conflict: folder.file("conflict.txt", conflict),
        other: folder.file("other.txt", "field a = b, c\nrule any accept\n"),
        bad: folder.file("bad.policy", &policy.output[1..]),
        missing: folder.name("nowhere"),
        large: folder.file("large.txt", large),
        policy: folder.file("good.policy", policy.output),
        book: folder.file("good.book", book.output),
        folder,
    }
}

/// Runs the tool; the status and what stands on standard error must fit.
#[track_caller]
fn status(words: &[&str], expected: i32) {
    let ran = run(words, &[]);
    assert_eq!(ran.status, expected, "{words:?}\n{}", ran.errors);
    assert_eq!(ran.errors.is_empty(), expected != 2, "{words:?}\n{}", ran.errors);
}

#[test]
fn statuses_of_check_and_compare() {
    let f = files("statuses-1");
    for file in [&f.good, &f.policy, &f.book] {
        status(&["check", file], 0);
        status(&["compare", file, &f.good], 0);
        status(&["compare", file, &f.conflict], 1);
        status(&["compare", file, &f.other], 2);
    }
    status(&["check", &f.conflict], 1);
    status(&["check", &f.good, &f.conflict, &f.good], 1);
    for file in [&f.large, &f.bad, &f.missing, &f.folder.name("")] {
        status(&["check", file], 2);
        status(&["check", "--json", file], 2);
        status(&["compare", &f.good, file], 2);
        status(&["compare", file, &f.good], 2);
    }
    let ran = run(&["check", &f.bad, &f.conflict, &f.good], &[]);
    assert_eq!(ran.status, 2);
    let lines: Vec<&str> = ran.text().lines().filter(|line| !line.starts_with(' ')).collect();
    assert_eq!(lines.len(), 2, "both other files are told: {lines:?}");
    assert!(lines[0].starts_with(&f.conflict) && lines[1].starts_with(&f.good), "{lines:?}");
}

#[test]
fn statuses_of_the_writing_commands() {
    let f = files("statuses-2");
    for file in [&f.good, &f.policy, &f.book, &f.conflict] {
        for command in ["build", "page", "draw", "inventory", "after"] {
            status(&[command, file], 0);
        }
    }
    for file in [&f.large, &f.bad, &f.missing] {
        for command in ["build", "page", "draw", "inventory", "after"] {
            status(&[command, file], 2);
        }
    }
    for command in ["compile", "print"] {
        status(&[command, &f.good], 0);
        status(&[command, &f.policy], 0);
        status(&[command, &f.bad], 2);
        status(&[command, &f.book], 2);
    }
    status(&["print", &f.large], 0);
    let compiled = run(&["compile", &f.large], &[]);
    assert_eq!(compiled.status, 0);
    assert!(compiled.errors.contains("number 10") && compiled.errors.contains("v counts to 60"), "{}", compiled.errors);
    assert_eq!(&compiled.output[..3], b"POL");
    status(&["inventory", &f.good, &f.bad], 2);
}

#[test]
fn statuses_of_after_and_way() {
    let f = files("statuses-3");
    for file in [&f.good, &f.policy, &f.book] {
        status(&["after", file], 0);
        status(&["after", file, "code 3 twice", "code", "0"], 0);
        status(&["after", file, "code 3, code 3, code 3"], 2);
        status(&["after", file, "code 5"], 2);
        status(&["after", file, "3"], 2);
        status(&["after", file, "state", "3"], 0);
        status(&["after", file, "state", "4"], 2);
        status(&["way", file, "1", "reject"], 0);
        status(&["way", file, "1", "none"], 1);
        status(&["way", file, "2", "none"], 2);
    }
    let render = ["render", "accepted"];
    status(&["after", &f.good, "render", "accepted,", "midnight"], 0);
    status(&[&["after", &f.good][..], &render, &render].concat(), 0);
    status(&[&["after", &f.good][..], &render, &render, &render].concat(), 2);
    status(&["way", &f.good, "render", "reject"], 0);
    status(&["way", &f.good, "render", "both"], 1);
    status(&["way", &f.conflict, "drawing", "3"], 0);
    status(&["draw", "--finding", "conflict", &f.conflict], 0);
    status(&["draw", "--finding", "missing", &f.conflict], 2);
    status(&["draw", "--after", "render accepted, midnight", &f.good], 0);
    status(&["draw", "--after", "render rejected", &f.good], 2);
}

/// Calls that are wrong use; `@` stands for a file with no findings.
const WRONG: &[&[&str]] = &[
    &[],
    &["frobnicate"],
    &["--frobnicate"],
    &["help", "frobnicate"],
    &["check"],
    &["after"],
    &["way"],
    &["inventory"],
    &["way", "@"],
    &["way", "@", "render"],
    &["way", "@", "render", "often"],
    &["way", "@", "render", "accept", "reject"],
    &["way", "@", "copying", "accept"],
    &["after", "@", "noon"],
    &["after", "@", "render"],
    &["after", "@", "render", "midnight"],
    &["check", "--frobnicate", "@"],
    &["check", "-x", "@"],
    &["check", "--key", "@"],
    &["check", "--json=yes", "@"],
    &["check", "@", "--names"],
    &["build", "@", "-o"],
    &["build", "--json", "@"],
    &["build", "@", "@"],
    &["compile", "@", "@"],
    &["print", "@", "@"],
    &["page", "@", "@"],
    &["draw", "@", "@"],
    &["compare", "@"],
    &["compare", "@", "@", "@"],
    &["check", "-", "-"],
    &["compare", "-", "-"],
    &["inventory", "-", "@", "-"],
    &["page", "--names", "-", "-"],
    &["draw", "--finding", "late", "@"],
    &["draw", "--finding", "conflict", "--after", "midnight", "@"],
];

#[test]
fn wrong_use() {
    let f = files("wrong-use");
    for call in WRONG {
        let file = |word: &&'static str| {
            if *word == "@" {
                f.good.clone()
            } else {
                word.to_string()
            }
        };
        let words: Vec<String> = call.iter().map(file).collect();
        let words: Vec<&str> = words.iter().map(String::as_str).collect();
        let ran = run(&words, GOOD.as_bytes());
        assert_eq!((ran.status, ran.text()), (2, ""), "{words:?}");
        assert!(ran.errors.starts_with("policybook: "), "{words:?}: {}", ran.errors);
        assert!(ran.errors.contains("--help`"), "{words:?}: {}", ran.errors);
    }
}

#[test]
fn help_and_version() {
    let help = run(&["--help"], &[]);
    assert_eq!((help.status, help.errors.as_str()), (0, ""));
    for command in COMMANDS {
        assert!(help.text().contains(&format!("policybook {command} ")), "{command}");
        let own = run(&["help", command], &[]);
        assert_eq!((own.status, own.errors.as_str()), (0, ""), "{command}");
        assert!(own.text().starts_with(&format!("usage: policybook {command} ")));
        for words in [[command, "--help"], [command, "-h"]] {
            assert_eq!(run(&words, &[]).output, own.output);
        }
        let long = own.text().lines().find(|line| line.chars().count() > 100);
        assert_eq!(long, None, "{command}");
    }
    for word in ["help", "-h"] {
        assert_eq!(run(&[word], &[]).output, help.output);
    }
    let long = help.text().lines().find(|line| line.chars().count() > 100);
    assert_eq!(long, None);
    let version = concat!("policybook ", env!("CARGO_PKG_VERSION"), "\n");
    for word in ["--version", "-V"] {
        let ran = run(&[word], &[]);
        assert_eq!((ran.status, ran.text()), (0, version));
    }
}

#[test]
fn files_are_told_apart_by_their_contents() {
    let f = files("contents");
    let read = |name: &str| std::fs::read(name).expect("a file");
    let marked = [b"\xEF\xBB\xBF", GOOD.as_bytes()].concat();
    for (bytes, kind) in [(GOOD.into(), "text"), (marked, "text"), (read(&f.policy), "policy"), (read(&f.book), "book")]
    {
        for name in ["x.txt", "x.policy", "x.book", "-x", "x"] {
            f.folder.file(name, &bytes);
            let name = f.folder.name(name);
            let ran = run(&["check", "--json", &name], &[]);
            assert_eq!(ran.status, 0, "{}", ran.errors);
            assert!(ran.text().contains(&format!("\"kind\": \"{kind}\"")), "{name}: {}", ran.text());
        }
        let piped = run(&["check", "--json", "-"], &bytes);
        assert!(piped.text().contains(&format!("\"kind\": \"{kind}\"")), "{}", piped.text());
    }
    for (bytes, row) in [(&b"POL"[..], 2), (b"BOK", 12), (&[b"BOK", &[0; 20][..]].concat(), 12), (b"POL\0\x03aaaa", 4)]
    {
        let ran = run(&["page", "-"], bytes);
        assert!(ran.errors.contains(&format!("refused by number {row}: ")), "{}", ran.errors);
    }
}

#[test]
fn a_file_may_have_a_name_like_an_option() {
    let folder = Folder::new("option-names");
    folder.file("--json", GOOD);
    let ran = common::run::shell("\"$TOOL\" check -- --json", &folder);
    assert_eq!(ran.status, 0, "{}", ran.errors);
    assert!(ran.text().starts_with("--json: "), "{}", ran.text());
}

#[test]
fn names_must_be_as_many() {
    let f = files("names");
    let ran = run(&["after", "--names", &f.good, &f.policy, "render", "accepted"], &[]);
    assert_eq!(ran.status, 0, "{}", ran.errors);
    assert!(ran.text().contains("midnight"), "{}", ran.text());
    let ran = run(&["page", "--key", "--names", &f.good, &f.book], &[]);
    assert!(ran.text().contains("render"), "{}", ran.text());
    for (more, file) in [
        ("events noon", &f.book),
        ("field more = a, b", &f.book),
        ("variables more", &f.policy),
        ("events noon", &f.policy),
    ] {
        let names = f.folder.file("names.txt", format!("{more}\n{}", GOOD.replace("rule", "#")));
        let ran = run(&["check", "--names", &names, file], &[]);
        assert_eq!((ran.status, ran.text()), (2, ""), "{more}");
        assert!(ran.errors.contains(&names) && ran.errors.contains(file.as_str()), "{}", ran.errors);
    }
    let ran = run(&["check", "--names", &f.policy, &f.book], &[]);
    assert_eq!(ran.status, 2);
    assert!(ran.errors.contains("is no text"), "{}", ran.errors);
}

#[test]
fn texts_with_different_names_are_compared_only_if_asked() {
    let f = files("renamed");
    let renamed = f.folder.file("renamed.txt", GOOD.replace("render", "picture"));
    let ran = run(&["compare", &f.good, &renamed], &[]);
    assert_eq!((ran.status, ran.text()), (2, ""));
    assert!(ran.errors.contains("render") && ran.errors.contains("picture"), "{}", ran.errors);
    assert!(ran.errors.contains("--by-order"), "{}", ran.errors);
    status(&["compare", "--by-order", &f.good, &renamed], 0);
    let turned = GOOD.replace("drawing, render", "render, drawing");
    let turned = f.folder.file("turned.txt", turned);
    status(&["compare", &f.good, &turned], 0);
    status(&["compare", "--by-order", &f.good, &turned], 1);
}
