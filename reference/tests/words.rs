//! Histories in words, the lines of the sample host, and pictures.

mod common;

use std::process::{Command, Output};

use common::*;
use reference::dot::dot;
use reference::host::{host, File};
use reference::words::Names;

const NAMES: [&str; 3] = ["midnight", "view", "copy"];

fn told(first: &[u8], second: &[u8]) -> String {
    let file = |name, bytes: &[u8]| File {
        name,
        content: Ok(bytes.to_vec()),
    };
    host(file("one", first), file("two", second))
}

/// The text of `reference dot` for bytes on standard input.
fn command(arguments: &[&str], input: &[u8]) -> Output {
    let path = std::path::PathBuf::from(env!("CARGO_TARGET_TMPDIR")).join("dot-input");
    std::fs::write(&path, input).expect("a writable directory");
    Command::new(env!("CARGO_BIN_EXE_reference"))
        .args(["dot", path.to_str().expect("a plain path")])
        .args(arguments)
        .output()
        .expect("the program ends")
}

#[test]
fn steps_and_histories_in_words() {
    let frame = book_of(&policy_a()).frame;
    let plain = Names::plain(&frame);
    assert_eq!(plain.step(0), "event 0");
    assert_eq!(
        plain.history(&[3, 4]),
        "request 1 accepted, request 1 rejected"
    );
    let given = Names::given(&frame, &NAMES).expect("three names");
    assert_eq!(
        given.history(&[0, 1, 4]),
        "midnight, view accepted, copy rejected"
    );
    assert_eq!(given.history(&[]), "");
    assert_eq!((given.event(0), given.request(1)), ("midnight", "copy"));
    assert!(Names::given(&frame, &NAMES[..2]).is_none());
}

#[test]
fn the_host_tells_findings_and_the_book_that_allows_more() {
    let expected = "\
one: a book of 27 bytes, states: 3
  conflict: request 0 may be both accepted and rejected, first after: request 1 accepted, request 1 accepted
  missing: none
  blocked: none
two: a book of 27 bytes, states: 3
  conflict: none
  missing: none
  blocked: none
comparison: the earliest history possible under just one of them, one: request 1 accepted, request 1 accepted, request 0 rejected
exit status 0
";
    assert_eq!(told(&policy_e(), &policy_a()), expected);
    assert!(told(&policy_a(), &policy_e()).contains("just one of them, two: request 1 accepted"));
    let same = "comparison: the same histories are possible under both\nexit status 0\n";
    assert!(told(&policy_a(), &policy_c()).ends_with(same));
    assert!(told(&policy_a(), &with_starts(&policy_a(), &[0])).ends_with(same));
    assert!(told(&policy_a(), &with_starts(&policy_a(), &[2]))
        .ends_with("possible under just one of them, one: request 1 accepted\nexit status 0\n"));
}

#[test]
fn the_host_tells_what_is_missing_and_blocked() {
    let text = told(&policy_g(), &policy_g());
    assert!(text.contains("missing: request 0 is unanswered, first after: request 0 accepted\n"));
    assert!(text
        .contains("blocked: no request is answered any more, first after: request 0 accepted\n"));
    let never = bytes("50 4F 4C 00 01 00 01 01 01 01 | 00 01 01 00 01 00 00");
    let text = told(&never, &never);
    assert!(text.contains("missing: request 0 is unanswered, already at the start\n"));
    assert!(text.contains("blocked: no request is ever answered\n"));
}

#[test]
fn the_host_tells_refusals_and_unreadable_files() {
    let refused = told(&policy_a(), &policy_h());
    assert!(refused.ends_with(
        "comparison: refused by number 15: the frames of the two books differ\nexit status 1\n"
    ));
    let refused = told(&[], &policy_h());
    assert!(refused.starts_with("one: refused by number 2: the policy has fewer than 9 bytes\n"));
    assert!(refused.ends_with("exit status 1\n"));
    let refused = told(
        &with_byte(&policy_a(), 4, 3),
        &with_starts(&policy_a(), &[64]),
    );
    assert_eq!(
        refused,
        "one: refused by number 4: the policy's version is neither 1 nor 2\n\
         two: refused by number 17: a starting value is above 63\nexit status 1\n"
    );
    let missing = |name| File {
        name,
        content: Err(std::io::Error::from_raw_os_error(2)),
    };
    assert_eq!(
        host(missing("x"), missing("y")),
        "x: cannot be read: No such file or directory\ny: cannot be read: No such file or directory\nexit status 2\n"
    );
}

#[test]
fn a_picture_has_a_circle_for_each_state_and_joined_arrows() {
    let book = book_of(&policy_e());
    let text = dot(&book, &Names::given(&book.frame, &NAMES).unwrap());
    assert!(text.starts_with("digraph book {\n") && text.ends_with("}\n"));
    assert!(text.contains("start -> 1;"));
    assert_eq!(text.matches("[label=<<b>").count(), 3);
    assert_eq!(text.matches(" -> ").count(), 1 + 7);
    assert!(text.contains("  1 -> 1 [label=<<font color=\"#57606a\">&#160;midnight&#160;</font><br/><font color=\"#1a7f37\">&#160;view accepted&#160;</font>>];\n"));
    assert!(text.contains("conflict:<br/>view"));
}

#[test]
fn a_picture_says_what_is_missing_or_blocked_and_escapes_names() {
    let book = book_of(&policy_j());
    let text = dot(
        &book,
        &Names::given(&book.frame, &["<&>", "a", "b"]).unwrap(),
    );
    assert!(text.contains("missing:<br/>a") && !text.contains("blocked"));
    assert!(text.contains("&lt;&amp;&gt;"));
    let book = book_of(&policy_g());
    let text = dot(&book, &Names::plain(&book.frame));
    assert!(text.contains("blocked") && !text.contains("missing"));
}

#[test]
fn dot_takes_policies_and_books() {
    let of_policy = command(&[], &policy_a());
    assert!(of_policy.status.success());
    assert_eq!(
        of_policy.stdout,
        command(&[], &book_bytes(&policy_a())).stdout
    );
    assert_eq!(
        command(&["only one name"], &policy_a()).status.code(),
        Some(2)
    );
    assert_eq!(command(&[], b"BOK").stdout, b"refused 12\n");
    assert_eq!(command(&[], b"").stdout, b"refused 2\n");
}
