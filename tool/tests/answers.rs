//! The tool's answers for machines, on files of all sorts, against the reference:
//! what `check`, `compare` and `inventory` find, and which rules can be left out.

mod common;

use common::json::{read, Value};
use common::run::{run, Folder};
use common::subjects::Subject;
use common::Met;
use reference::book::{build, Book};
use reference::compare::{compare_books, Comparison};
use reference::findings::findings;
use reference::policy::{self, Policy};
use reference::{generate, History};

/// How many files are checked, in runs of so many.
const CHECKED: u64 = 960;
const AT_ONCE: u64 = 60;
/// How many pairs are compared.
const COMPARED: u64 = 480;
/// How many files are in the inventory.
const INVENTORY: u64 = 600;

/// The codes of a history, after a check that each step is named as it should be.
fn codes(history: &Value, subject: &Subject, book: &Book) -> History {
    let code = |step: &Value| {
        let code = step.get("code").number();
        assert_eq!(step.get("name").text(), subject.step(book, code), "{}", subject.input);
        code as u8
    };
    history.list().iter().map(code).collect()
}

/// A finding about a request: its number and the history.
fn finding(value: &Value, subject: &Subject, book: &Book) -> Option<(usize, History)> {
    value.maybe(|found| {
        let request = found.get("request").get("number").number();
        let name = found.get("request").get("name").text();
        assert_eq!(name, subject.request(book, request), "{}", subject.input);
        (request, codes(found.get("history"), subject, book))
    })
}

/// The rules, from 1, without which the reference builds the same book, and
/// whether it does so without all of them.
fn superfluous(bytes: &[u8], book: &Book) -> (Vec<usize>, bool) {
    let policy = policy::read(bytes).expect("a policy that has a book");
    let same = |left_out: &[usize]| {
        let rules = policy.rules.iter().enumerate();
        let kept = rules.filter(|(rule, _)| !left_out.contains(&(rule + 1))).map(|(_, rule)| rule.clone());
        let less = Policy { rules: kept.collect(), ..policy.clone() };
        build(&policy::write(&less)).as_ref() == Ok(book)
    };
    let alone: Vec<usize> = (1..=policy.rules.len()).filter(|&rule| same(&[rule])).collect();
    let together = alone.len() > 1 && same(&alone);
    (alone, together)
}

/// Each rule that can be left out is said with its line, if it comes from a text.
fn check_lines(superfluous: &Value, subject: &Subject) {
    let text = std::fs::read(&subject.file).expect("the file");
    let text = String::from_utf8_lossy(&text);
    let rules = (1..).zip(text.lines()).filter(|(_, line)| line.starts_with("rule "));
    let lines: Vec<usize> = rules.map(|(number, _)| number).collect();
    for rule in superfluous.list() {
        let line = (subject.kind == "text").then(|| lines[rule.get("rule").number() - 1]);
        assert_eq!(rule.get("line").maybe(Value::number), line, "{}", subject.input);
    }
}

fn check_found(found: &Value, subject: &Subject, book: &Book, met: &mut Met) -> bool {
    let input = &subject.input;
    let expected = findings(book);
    let about = |name: &str| finding(found.get(name), subject, book);
    let pair = |found: reference::findings::RequestFinding| (found.request, found.history);
    assert_eq!(found.get("kind").text(), subject.kind, "{input}");
    assert_eq!(found.get("states").number(), book.states(), "{input}");
    assert_eq!(about("conflict"), expected.conflict.clone().map(pair), "{input}");
    assert_eq!(about("missing"), expected.missing.clone().map(pair), "{input}");
    let blocked = found.get("blocked").maybe(|found| codes(found.get("history"), subject, book));
    assert_eq!(blocked, expected.blocked, "{input}");
    let (alone, together) = match subject.kind {
        "book" => (Vec::new(), false),
        _ => superfluous(&subject.bytes, book),
    };
    assert_eq!(found.get("superfluous").each("rule"), alone, "{input}");
    check_lines(found.get("superfluous"), subject);
    assert_eq!(*found.get("superfluous_together"), Value::Bool(together), "{input}");
    let rules = (subject.kind != "book").then(|| usize::from(subject.bytes[8]));
    assert_eq!(found.get("rules").maybe(Value::number), rules, "{input}");
    met.note("a conflict", expected.conflict.is_some());
    met.note("a request missing", expected.missing.is_some());
    met.note("blocked", expected.blocked.is_some());
    met.note("superfluous together", together);
    met.note("superfluous, but not together", alone.len() > 1 && !together);
    expected.conflict.is_some() || expected.missing.is_some() || expected.blocked.is_some()
}

/// A refusal has a place. Where too much is counted it says how many valuations
/// there are, or which two rules leave it open what was carried out.
fn check_place(row: u8, place: &str, subject: &Subject) {
    assert!(!place.is_empty(), "{}", subject.input);
    if row != 10 && row != 11 {
        return;
    }
    let policy = policybook::policy::Policy::decode(&subject.bytes).expect("a policy");
    if row == 10 {
        let tests = |variable: usize| policy.rules.iter().map(move |rule| rule.tests[variable]);
        let bound = |variable| tests(variable).map(|test| test.at_least.max(test.below)).max();
        let values = (0..policy.starts.len()).map(|variable| usize::from(bound(variable).unwrap_or(0)) + 1);
        let valuations: usize = values.product();
        assert!(place.contains(&format!("= {valuations} valuations")), "{}: {place}", subject.input);
        return;
    }
    let digits = |rest: &str| rest.split(|letter: char| !letter.is_ascii_digit()).next()?.parse().ok();
    let rules: Vec<usize> = place.split("rule ").skip(1).filter_map(digits).collect();
    let [one, other] = [0, 1].map(|place| &policy.rules[rules[place] - 1]);
    let mut masks = one.masks.iter().zip(&other.masks);
    let together = masks.all(|(one, other)| one & other != 0) && one.level == other.level;
    let forks = one.accepts == other.accepts && one.changes != other.changes;
    assert!(together && forks, "{}: {place}", subject.input);
}

/// Checks what is said of a file; the status that it makes for.
fn check_file(found: &Value, subject: &Subject, met: &mut Met) -> i32 {
    assert_eq!(found.get("file").text(), subject.file);
    for kind in ["text", "policy", "book"] {
        met.note(kind, subject.kind == kind);
    }
    let refused = subject.book().err();
    for row in [6, 8, 9, 11, 13, 14, 17] {
        met.note(&format!("row {row}"), refused == Some(row));
    }
    if !subject.has_mark() && subject.kind != "text" || subject.has_wrong_mark() {
        assert!(found.find("states").is_none(), "{}: {found:?}", subject.input);
        return 2;
    }
    match subject.book() {
        Ok(book) => i32::from(check_found(found, subject, &book, met)),
        Err(row) => {
            let refused = found.get("refused");
            assert_eq!(refused.get("number").number(), usize::from(row), "{}", subject.input);
            check_place(row, refused.get("place").text(), subject);
            2
        }
    }
}

#[test]
fn findings_are_the_reference_findings() {
    let folder = Folder::new("findings");
    let mut met = Met::default();
    for first in (0..CHECKED).step_by(AT_ONCE as usize) {
        let subjects: Vec<Subject> = (first..first + AT_ONCE).map(|number| Subject::new(number, &folder)).collect();
        let files: Vec<&str> = subjects.iter().map(|subject| subject.file.as_str()).collect();
        let ran = run(&[&["check", "--json"][..], &files].concat(), &[]);
        let found = read(ran.text());
        let found = found.get("files").list();
        assert_eq!(found.len(), subjects.len());
        let statuses = found.iter().zip(&subjects).map(|(found, subject)| check_file(found, subject, &mut met));
        assert_eq!(ran.status, statuses.max().expect("a file"));
    }
    met.each_at_least(5);
}

/// Two files to compare: policies, of which one may be a text, or books.
fn pair(number: u64, folder: &Folder) -> [Subject; 2] {
    let (kinds, bytes) = match number % 6 {
        0 => (["policy", "text"], generate::policy_pair(number)),
        1 => (["text", "policy"], generate::starting_pair(number)),
        2 => (["policy", "policy"], generate::no_rules_pair(number)),
        3 => (["book", "book"], generate::book_pair(number)),
        4 => (["book", "book"], generate::longest_pair(number)),
        _ => (["book", "book"], generate::faulty_pair(number)),
    };
    let subject = |kind, bytes, place| Subject::of(kind, bytes, format!("pair {number}"), 2 * number + place, folder);
    [subject(kinds[0], bytes.0, 0), subject(kinds[1], bytes.1, 1)]
}

/// Checks the comparison of two books of one frame.
fn check_compared(pair: &[Subject; 2], books: [Book; 2], met: &mut Met) {
    let input = &pair[0].input;
    let ran = run(&["compare", "--json", &pair[0].file, &pair[1].file], &[]);
    let found = read(ran.text());
    let expected = compare_books(&books[0], &books[1]);
    met.note("same", expected == Comparison::Same);
    met.note("different", expected != Comparison::Same);
    assert_eq!(*found.get("same"), Value::Bool(expected == Comparison::Same), "{input}");
    let Comparison::Differ(history) = expected else {
        assert_eq!((ran.status, found.get("history")), (0, &Value::Null), "{input}");
        assert_eq!(*found.get("possible_in"), Value::Null, "{input}");
        return;
    };
    let named = usize::from(pair[1].kind == "text");
    assert_eq!(codes(found.get("history"), &pair[named], &books[0]), history, "{input}");
    let allows = [0, 1].map(|place| books[place].allows(&history));
    assert_ne!(allows[0], allows[1], "{input}");
    let place = usize::from(allows[1]);
    met.note("possible in the first", place == 0);
    met.note("possible in the second", place == 1);
    assert_eq!(found.get("possible_in").text(), pair[place].file, "{input}");
    assert_eq!(ran.status, 1, "{input}");
}

#[test]
fn comparisons_are_the_reference_comparisons() {
    let folder = Folder::new("comparisons");
    let mut met = Met::default();
    for number in 0..COMPARED {
        let pair = pair(number, &folder);
        match (pair[0].book(), pair[1].book()) {
            (Ok(first), Ok(second)) if first.frame == second.frame => check_compared(&pair, [first, second], &mut met),
            (first, second) => {
                let row = first.err().or(second.err()).unwrap_or(15);
                let ran = run(&["compare", &pair[0].file, &pair[1].file], &[]);
                assert_eq!((ran.status, ran.text()), (2, ""), "{}", pair[0].input);
                let marks = pair.iter().all(|subject| subject.kind == "text" || subject.has_mark());
                let told = ran.errors.contains(&format!("number {row}:"));
                assert!(told || !marks, "{}: {row}, {}", pair[0].input, ran.errors);
                met.note("refused", told);
            }
        }
    }
    met.each_at_least(10);
}

/// The groups of files with equal books, in the order of their first files.
fn groups(subjects: &[Subject]) -> Vec<(usize, Vec<&str>)> {
    let mut groups: Vec<(Book, Vec<&str>)> = Vec::new();
    for subject in subjects {
        let Ok(book) = subject.book() else {
            continue;
        };
        match groups.iter_mut().find(|(other, _)| *other == book) {
            Some((_, files)) => files.push(&subject.file),
            None => groups.push((book, vec![&subject.file])),
        }
    }
    groups.into_iter().map(|(book, files)| (book.states(), files)).collect()
}

#[test]
fn the_inventory_groups_equal_books() {
    let folder = Folder::new("inventory");
    let mut subjects = Vec::new();
    for number in 0..INVENTORY / 2 {
        subjects.extend(pair(number / 2 * 6 + number % 3, &folder));
    }
    let files: Vec<&str> = subjects.iter().map(|subject| subject.file.as_str()).collect();
    let ran = run(&[&["inventory", "--json"][..], &files].concat(), &[]);
    let found = read(ran.text());
    let group = |group: &Value| {
        let files: Vec<String> = group.get("files").list().iter().map(|file| file.text().to_string()).collect();
        (group.get("states").number(), files)
    };
    let found_groups: Vec<(usize, Vec<String>)> = found.get("groups").list().iter().map(group).collect();
    let expected = groups(&subjects);
    let named: Vec<(usize, Vec<&str>)> =
        found_groups.iter().map(|(states, files)| (*states, files.iter().map(String::as_str).collect())).collect();
    assert_eq!(named, expected);
    assert!(expected.iter().filter(|(_, files)| files.len() > 1).count() > 10);
    let refused: Vec<&str> =
        subjects.iter().filter(|subject| subject.book().is_err()).map(|subject| subject.file.as_str()).collect();
    let failures: Vec<&str> = found.get("failures").list().iter().map(|failure| failure.get("file").text()).collect();
    assert_eq!(failures, refused);
    assert_eq!(ran.status, if refused.is_empty() { 0 } else { 2 });
}

#[test]
fn names_of_files_are_escaped() {
    let folder = Folder::new("escaped");
    let name = "a \"b\" \\ c\td\ne é.txt";
    let good = folder.file(name, "field a = b, c\nrule any accept\n");
    let bad = folder.file(&format!("{name}.2"), "field \"a\\\\b\" = \"\t\"");
    for (file, status) in [(&good, 0), (&bad, 2)] {
        let ran = run(&["check", "--json", file], &[]);
        assert_eq!(ran.status, status);
        assert_eq!(read(ran.text()).get("files").list()[0].get("file").text(), file);
    }
}
