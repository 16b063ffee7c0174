//! The command line: its lines, its exit status and its files.

mod common;

use std::io::Write;
use std::path::PathBuf;
use std::process::{Command, Output, Stdio};

use common::*;

/// Runs the program with these arguments and this standard input.
fn run(arguments: &[&str], input: &[u8]) -> Output {
    let mut child = Command::new(env!("CARGO_BIN_EXE_reference"))
        .args(arguments)
        .stdin(Stdio::piped())
        .stdout(Stdio::piped())
        .stderr(Stdio::piped())
        .spawn()
        .expect("the program starts");
    // The program may end without reading its input.
    let _ = child.stdin.take().expect("standard input").write_all(input);
    child.wait_with_output().expect("the program ends")
}

fn text(output: &Output) -> (&str, Option<i32>) {
    (
        std::str::from_utf8(&output.stdout).expect("plain text"),
        output.status.code(),
    )
}

/// A file of this name with these bytes in a directory for tests.
fn file(name: &str, bytes: &[u8]) -> String {
    let path = PathBuf::from(env!("CARGO_TARGET_TMPDIR")).join(name);
    std::fs::write(&path, bytes).expect("a writable directory");
    path.to_str().expect("a plain path").to_string()
}

#[test]
fn book_prints_hexadecimal_lines() {
    let expected =
        "42 4F 4B 00 01 01 01 02 00 00 00 03\n01 01 00 02 00\n01 02 00 03 00\n01 03 00 00 03\n";
    assert_eq!(text(&run(&["book", "-"], &policy_a())), (expected, Some(0)));
    assert_eq!(
        text(&run(&["book", &file("a.pol", &policy_a())], &[])),
        (expected, Some(0))
    );
}

#[test]
fn shelf_prints_its_lines() {
    let expected = "states 3\nconflict 0 2 3 3\nmissing -\nblocked -\n";
    assert_eq!(
        text(&run(&["shelf", "-"], &policy_e())),
        (expected, Some(0))
    );
}

#[test]
fn refusals_are_answers_and_are_explained() {
    let output = run(&["shelf", "-"], &policy_s(7));
    assert_eq!(text(&output), ("refused 11\n", Some(0)));
    let explained = String::from_utf8(output.stderr).unwrap();
    assert_eq!(
        explained,
        "refused by number 11: over 127 situations are reached\n"
    );
    let output = run(&["shelf", "-"], &with_starts(&policy_a(), &[64]));
    assert_eq!(text(&output), ("refused 17\n", Some(0)));
    let explained = String::from_utf8(output.stderr).unwrap();
    assert_eq!(
        explained,
        "refused by number 17: a starting value is above 63\n"
    );
    assert_eq!(text(&run(&["book", "-"], &[])), ("refused 2\n", Some(0)));
    assert_eq!(
        text(&run(&["verdict", "-"], &[])),
        ("refused 12\n", Some(0))
    );
    let out = file("unwritten.bok", b"as before");
    assert_eq!(
        text(&run(&["build", "-", &out], &[])),
        ("refused 2\n", Some(0))
    );
    assert_eq!(std::fs::read(out).unwrap(), b"as before");
}

#[test]
fn compare_prints_the_difference() {
    let a = file("compare-a.bok", &book_bytes(&policy_a()));
    let b = file("compare-b.bok", &book_bytes(&policy_b()));
    let h = file("compare-h.bok", &book_bytes(&policy_h()));
    assert_eq!(
        text(&run(&["compare", &a, &b], &[])),
        ("differ 2 3 3\n", Some(0))
    );
    assert_eq!(
        text(&run(&["compare", &a, "-"], &book_bytes(&policy_c()))),
        ("same\n", Some(0))
    );
    assert_eq!(
        text(&run(&["compare", &a, &h], &[])),
        ("refused 15\n", Some(0))
    );
    assert_eq!(text(&run(&["compare", "-", "-"], &[])), ("", Some(2)));
}

#[test]
fn verdict_prints_the_findings_of_a_book() {
    let expected = "conflict -\nmissing 0 1 0\nblocked 1 0\n";
    assert_eq!(
        text(&run(&["verdict", "-"], &book_bytes(&policy_g()))),
        (expected, Some(0))
    );
}

#[test]
fn page_prints_the_lines_of_a_policy_or_a_book() {
    let expected = format!(
        "{:<72}\n{:<72}\n{:<72}\n",
        "  1   0 AA", "  2   1 AA", "  3   2 BR"
    );
    for input in [policy_e(), book_bytes(&policy_e())] {
        assert_eq!(
            text(&run(&["page", "-"], &input)),
            (expected.as_str(), Some(0))
        );
    }
    for (input, refused) in [
        (&b""[..], "refused 2\n"),
        (b"BOK", "refused 12\n"),
        (&policy_s(7), "refused 11\n"),
    ] {
        assert_eq!(text(&run(&["page", "-"], input)), (refused, Some(0)));
    }
}

#[test]
fn way_prints_the_earliest_history_or_a_dash() {
    let way = |input: &[u8], request: &str, outcome: &str| {
        let output = run(&["way", "-", request, outcome], input);
        assert_eq!(output.status.code(), Some(0));
        String::from_utf8(output.stdout).expect("plain text")
    };
    let (greatest, half) = (u64::MAX.to_string(), (1_u64 << 63).to_string());
    for (policy, request, outcome, line) in [
        (policy_e(), "0", "3", "way 2 3 3\n"),
        (policy_e(), "0", "1", "way 0\n"),
        (policy_a(), "0", "0", "way -\n"),
        (policy_g(), "0", "0", "way 1 0\n"),
        (policy_a(), "2", "3", "refused 16\n"),
        (policy_a(), &half, "1", "refused 16\n"),
        (policy_a(), "1", "4", "refused 18\n"),
        (policy_a(), &greatest, &greatest, "refused 18\n"),
    ] {
        assert_eq!(way(&policy, request, outcome), line);
        assert_eq!(way(&book_bytes(&policy), request, outcome), line);
    }
    assert_eq!(way(&[], "2", "4"), "refused 2\n");
    assert_eq!(way(b"BOK", "2", "4"), "refused 12\n");
    let refused = run(&["way", "-", "0", "4"], &policy_a());
    assert_eq!(
        String::from_utf8(refused.stderr).unwrap(),
        "refused by number 18: the outcome is above 3\n"
    );
    for words in [["way", "-", "x", "1"], ["way", "-", "0", "-1"]] {
        assert_eq!(text(&run(&words, &policy_a())), ("", Some(2)));
    }
}

#[test]
fn inventory_prints_which_files_are_equal() {
    let a = file("inventory-a.bok", &book_bytes(&policy_a()));
    let c = file("inventory-c.bok", &book_bytes(&policy_c()));
    let h = file("inventory-h.bok", &book_bytes(&policy_h()));
    let expected = format!(
        "3 equal files of 27 bytes:\n  {a}\n  {c}\n  {a}\nunlike every other file:\n  {h}\n  -\n\
         5 files, 3 different\n"
    );
    assert_eq!(
        text(&run(&["inventory", &a, &h, &c, "-", &a], b"no book")),
        (expected.as_str(), Some(0))
    );
    let one = format!("unlike every other file:\n  {a}\n1 file, 1 different\n");
    assert_eq!(text(&run(&["inventory", &a], &[])), (one.as_str(), Some(0)));
    let missing = file("inventory-missing", b"") + ".nowhere";
    let output = run(&["inventory", &a, &missing, &c], &[]);
    assert_eq!(text(&output), ("", Some(2)));
    let message = String::from_utf8(output.stderr).unwrap();
    assert!(message.starts_with(&format!("cannot read {missing}")));
    for words in [&["inventory"][..], &["inventory", "-", &a, "-"]] {
        assert_eq!(text(&run(words, &[])), ("", Some(2)));
    }
}

#[test]
fn build_writes_the_book() {
    let out = file("built.bok", b"");
    assert_eq!(
        text(&run(&["build", "-", &out], &policy_a())),
        ("", Some(0))
    );
    assert_eq!(std::fs::read(out).unwrap(), book_bytes(&policy_a()));
}

#[test]
fn generate_writes_an_input_of_each_kind() {
    let out = file("generated", b"");
    for kind in reference::generate::KINDS {
        assert_eq!(
            text(&run(&["generate", kind, "5", &out], &[])),
            ("", Some(0))
        );
        assert_eq!(
            std::fs::read(&out).unwrap(),
            reference::generate::one(kind, 5).unwrap()
        );
    }
    assert_eq!(
        text(&run(&["generate", "nothing", "5", &out], &[])).1,
        Some(2)
    );
    assert_eq!(
        text(&run(&["generate", "policy", "five", &out], &[])).1,
        Some(2)
    );
}

#[test]
fn bad_usage_ends_with_2() {
    for arguments in [&[][..], &["books", "-"], &["book"], &["shelf", "-", "-"]] {
        let output = run(arguments, &[]);
        assert_eq!(text(&output), ("", Some(2)));
        assert!(String::from_utf8(output.stderr)
            .unwrap()
            .contains("reference help"));
    }
    let missing = file("missing", b"") + ".nowhere";
    let output = run(&["book", &missing], &[]);
    assert_eq!(text(&output), ("", Some(2)));
    assert!(String::from_utf8(output.stderr)
        .unwrap()
        .starts_with("cannot read"));
}

#[test]
fn help_is_an_answer() {
    let output = run(&["help"], &[]);
    let (help, status) = text(&output);
    assert_eq!(status, Some(0));
    for command in [
        "book",
        "shelf",
        "compare",
        "verdict",
        "page",
        "way",
        "inventory",
        "build",
        "generate",
        "host",
        "dot",
        "help",
    ] {
        assert!(help.contains(&format!("reference {command}")));
    }
    let kinds = help.lines().last().expect("a line with the kinds");
    for kind in reference::generate::KINDS {
        assert!(kinds.split(' ').any(|word| word == kind), "{kind}");
    }
}
