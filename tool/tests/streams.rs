//! Where answers go: files that appear whole or not at all, pipes, and streams
//! that fail, which no command takes for success.

mod common;

use std::fs::{self, File};
use std::os::unix::fs::{symlink, PermissionsExt};
use std::process::{Command, Stdio};

use common::run::{run, shell, Folder, Ran, TOOL};

/// Rules with a finding, which make a book of three states.
const RULES: &str = "events midnight
field thing = drawing, render
variables copies
rule drawing accept
rule render when copies < 2 accept, copies + 1
on midnight copies to 0
";

/// A call of each command on the rules, which are standard input, and its status.
const CALLS: [(&[&str], i32); 16] = [
    (&["check", "-"], 1),
    (&["check", "--json", "-"], 1),
    (&["build", "-"], 0),
    (&["compile", "-"], 0),
    (&["print", "-"], 0),
    (&["compare", "-", "other.txt"], 1),
    (&["after", "-", "midnight"], 0),
    (&["after", "--json", "-"], 0),
    (&["way", "-", "render", "none"], 0),
    (&["page", "-"], 0),
    (&["page", "--key", "-"], 0),
    (&["draw", "-"], 0),
    (&["inventory", "-"], 0),
    (&["--help"], 0),
    (&["help", "check"], 0),
    (&["--version"], 0),
];

fn folder(name: &str) -> Folder {
    let folder = Folder::new(name);
    folder.file("rules.txt", RULES);
    folder.file("other.txt", RULES.replace("< 2", "< 1"));
    folder
}

/// Runs the call in the folder, with this for its standard output.
fn run_into(words: &[&str], folder: &Folder, output: Stdio) -> Ran {
    let input = File::open(folder.name("rules.txt")).expect("the rules");
    let mut command = Command::new(TOOL);
    command.args(words).current_dir(&folder.path).stdin(input);
    let child = command.stdout(output).stderr(Stdio::piped()).spawn();
    let output = child.expect("the tool starts").wait_with_output();
    Ran::of(output.expect("the tool ends"))
}

#[test]
fn answers_go_through_pipes() {
    let book = run(&["build", "-"], RULES.as_bytes());
    assert_eq!(&book.output[..5], b"BOK\0\x01");
    let policy = run(&["compile", "-"], RULES.as_bytes());
    assert_eq!(run(&["build", "-"], &policy.output).output, book.output);
    assert_eq!(run(&["build", "-"], &book.output).output, book.output);
    let text = run(&["print", "-"], &policy.output);
    assert_eq!(run(&["compile", "-"], &text.output).output, policy.output);
    let folder = folder("pipes");
    let line = "cat rules.txt | \"$TOOL\" compile - | \"$TOOL\" build - | \"$TOOL\" page - | cat";
    let page = shell(line, &folder);
    assert_eq!(page.output, run(&["page", "-"], RULES.as_bytes()).output);
}

#[test]
fn a_named_file_has_what_standard_output_would_have() {
    let folder = folder("named");
    for (words, status) in CALLS.into_iter().filter(|(words, _)| words[0].starts_with(|first| first != '-')) {
        if words[0] == "help" {
            continue;
        }
        let wanted = run_into(words, &folder, Stdio::piped());
        assert_eq!(wanted.status, status, "{words:?}: {}", wanted.errors);
        for option in [&["-o", "out"][..], &["--output", "out"], &["--output=out"]] {
            let words = [words, option].concat();
            let ran = run_into(&words, &folder, Stdio::piped());
            assert_eq!((ran.status, ran.output.len()), (status, 0), "{words:?}: {}", ran.errors);
            assert_eq!(fs::read(folder.name("out")).expect("the file"), wanted.output, "{words:?}");
            assert_eq!(folder.list(), ["other.txt", "out", "rules.txt"], "{words:?}");
            fs::remove_file(folder.name("out")).expect("the file");
        }
    }
}

#[test]
fn a_file_is_replaced_in_its_place() {
    let folder = folder("replaced");
    let out = folder.file("out", "as before, and longer than a book of so few states will ever be");
    fs::set_permissions(&out, fs::Permissions::from_mode(0o640)).expect("permissions");
    symlink("out", folder.name("link")).expect("a link");
    let ran = run_into(&["build", "-", "-o", "link"], &folder, Stdio::piped());
    assert_eq!(ran.status, 0, "{}", ran.errors);
    let book = run(&["build", "-"], RULES.as_bytes()).output;
    assert_eq!(fs::read(&out).expect("the file"), book);
    assert!(fs::symlink_metadata(folder.name("link")).expect("the link").is_symlink());
    let mode = fs::metadata(&out).expect("the file").permissions().mode();
    assert_eq!(mode & 0o777, 0o640);
}

/// But `print` may put a text into its standard layout.
#[test]
fn an_input_is_not_written_over() {
    let folder = folder("over");
    symlink("rules.txt", folder.name("link")).expect("a link");
    for out in ["rules.txt", "./rules.txt", "link"] {
        let ran = run_into(&["build", "rules.txt", "-o", out], &folder, Stdio::piped());
        assert_eq!((ran.status, ran.text()), (2, ""), "{out}");
        let rules = fs::read(folder.name("rules.txt")).expect("the rules");
        assert_eq!(rules, RULES.as_bytes(), "{out}");
    }
    let standard = run(&["print", "-"], RULES.as_bytes()).output;
    let words = ["print", "rules.txt", "-o", "rules.txt"];
    assert_eq!(run_into(&words, &folder, Stdio::piped()).status, 0);
    assert_eq!(fs::read(folder.name("rules.txt")).expect("the rules"), standard);
}

#[test]
fn where_a_file_cannot_be_written_nothing_is_left() {
    let folder = folder("unwritten");
    let before = folder.list();
    for out in ["nowhere/out", "rules.txt/out", "/dev/full", ".", "", "rules.txt/"] {
        for words in [["build", "rules.txt"], ["check", "rules.txt"], ["page", "rules.txt"]] {
            let ran = run_into(&[&words[..], &["-o", out]].concat(), &folder, Stdio::piped());
            assert_eq!((ran.status, ran.text()), (2, ""), "{words:?} {out}");
            assert!(ran.errors.starts_with(&format!("policybook: {out}: ")), "{}", ran.errors);
            assert_eq!(folder.list(), before, "{words:?} {out}");
        }
    }
    assert_eq!(fs::read(folder.name("rules.txt")).expect("the rules"), RULES.as_bytes());
}

/// What `compile` says of a policy that has no book is true.
#[test]
fn what_is_not_written_is_not_said_to_be() {
    let folder = folder("said");
    let large = "field a = b, c\nvariables v, w\nrule any when v < 60 and w < 60 accept\n";
    folder.file("large.txt", large);
    for (out, status) in [("out", 0), ("nowhere/out", 2), ("/dev/full", 2)] {
        let ran = run_into(&["compile", "large.txt", "-o", out], &folder, Stdio::piped());
        assert_eq!(ran.status, status, "{}", ran.errors);
        assert_eq!(ran.errors.contains("is written"), status == 0, "{}", ran.errors);
    }
}

/// A file may have at most 512 bytes here, as on a disk that is full.
#[test]
fn a_file_that_would_not_be_whole_does_not_appear() {
    let folder = folder("cut");
    folder.file("out", "as before");
    for out in ["out", "new"] {
        let line = format!("trap '' XFSZ; ulimit -f 1; \"$TOOL\" draw rules.txt -o {out}");
        let ran = shell(&line, &folder);
        assert_eq!((ran.status, ran.text()), (2, ""), "{}", ran.errors);
        assert!(ran.errors.starts_with(&format!("policybook: {out}: ")), "{}", ran.errors);
        assert_eq!(folder.list(), ["other.txt", "out", "rules.txt"]);
        assert_eq!(fs::read(folder.name("out")).expect("the file"), b"as before");
    }
}

#[test]
fn a_refused_input_leaves_the_file_as_it_was() {
    let folder = folder("refused");
    let out = folder.file("out", "as before");
    let bad = folder.file("bad.policy", b"POL\0\x01\0\x01\0\0\x02\0");
    for command in ["check", "build", "compile", "print", "page", "draw", "after"] {
        let ran = run_into(&[command, &bad, "-o", "out"], &folder, Stdio::piped());
        assert_eq!(ran.status, 2, "{command}");
        assert!(ran.errors.contains("number 6"), "{command}: {}", ran.errors);
        assert_eq!(fs::read(&out).expect("the file"), b"as before", "{command}");
    }
    assert_eq!(folder.list(), ["bad.policy", "other.txt", "out", "rules.txt"]);
}

#[test]
fn standard_output_that_takes_nothing_is_told() {
    let folder = folder("full");
    for (words, _) in CALLS {
        let full = File::options().write(true).open("/dev/full").expect("the device");
        let (reader, writer) = std::io::pipe().expect("a pipe");
        drop(reader);
        for output in [Stdio::from(full), Stdio::from(writer)] {
            let ran = run_into(words, &folder, output);
            assert_eq!(ran.status, 2, "{words:?}");
            assert!(ran.errors.contains("policybook: standard output cannot be written: "), "{}", ran.errors);
        }
        let line = format!("\"$TOOL\" {} < rules.txt >&-", words.join(" "));
        let ran = shell(&line, &folder);
        assert_eq!(ran.status, 2, "{words:?}");
        assert!(ran.errors.contains("policybook: standard output cannot be written: "), "{}", ran.errors);
    }
}

#[test]
fn a_closed_standard_output_does_not_matter_to_a_named_file() {
    let folder = folder("closed");
    let ran = shell("\"$TOOL\" build rules.txt -o out >&-", &folder);
    assert_eq!((ran.status, ran.errors.as_str()), (0, ""));
    let book = run(&["build", "-"], RULES.as_bytes()).output;
    assert_eq!(fs::read(folder.name("out")).expect("the file"), book);
}

#[test]
fn standard_error_that_takes_nothing_changes_no_answer() {
    let folder = folder("no-errors");
    for closed in ["2>&-", "2>/dev/full"] {
        for (words, status) in CALLS {
            let line = format!("\"$TOOL\" {} < rules.txt {closed}", words.join(" "));
            let ran = shell(&line, &folder);
            assert_eq!(ran.status, status, "{line}");
            assert_eq!(ran.output, run_into(words, &folder, Stdio::piped()).output, "{line}");
        }
        for words in ["", "check nowhere", "check --frobnicate", "after rules.txt render rejected"] {
            let ran = shell(&format!("\"$TOOL\" {words} {closed}"), &folder);
            assert_eq!((ran.status, ran.text()), (2, ""), "{words}");
        }
    }
    let ran = shell("\"$TOOL\" check nowhere >&- 2>&- <&-", &folder);
    assert_eq!(ran.status, 2);
}

#[test]
fn a_closed_standard_input_is_no_policy() {
    let folder = folder("no-input");
    for command in ["check", "build", "print", "page"] {
        let ran = shell(&format!("\"$TOOL\" {command} - <&-"), &folder);
        assert_eq!((ran.status, ran.text()), (2, ""), "{command}");
        assert!(ran.errors.starts_with("-:"), "{}", ran.errors);
    }
}

/// `script` runs a line of the shell at a terminal of its own.
#[test]
fn bytes_do_not_go_to_a_terminal() {
    let folder = folder("terminal");
    let at_terminal = |call: &str| {
        let line = format!("script -qec '\"$TOOL\" {call}' /dev/null");
        shell(&line, &folder)
    };
    for command in ["build", "compile", "draw"] {
        let ran = at_terminal(&format!("{command} rules.txt"));
        assert_eq!(ran.status, 2);
        assert!(ran.text().contains(&format!("policybook {command} -o FILE")), "{}", ran.text());
        assert!(!ran.text().contains("BOK") && !ran.text().contains("POL"), "{}", ran.text());
        let ran = at_terminal(&format!("{command} rules.txt -o out"));
        assert_eq!((ran.status, ran.text()), (0, ""));
    }
    let ran = at_terminal("page rules.txt");
    assert_eq!((ran.status, ran.text().lines().count()), (0, 3));
}
