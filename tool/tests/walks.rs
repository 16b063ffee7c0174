//! What the tool says of single books, against the reference: after random
//! histories, on ways and pages, and the bytes that it builds and compiles.

mod common;

use common::json::{read, Value};
use common::run::{run, Folder, Ran};
use common::subjects::{walk, with_books, Subject};
use common::{Met, Random};
use reference::book::Book;
use reference::generate::{question, Question};
use reference::way::{outcome_in, way};
use reference::{page, History};

/// How many files are asked about.
const FILES: u64 = 320;

const OUTCOMES: [&str; 4] = ["none", "accept", "reject", "both"];

/// Files that have a book.
fn subjects(folder: &Folder) -> impl Iterator<Item = (u64, Subject, Book)> + '_ {
    with_books(3_000..3_000 + FILES, folder)
}

/// Checks the answer for machines after these steps.
fn check_after(found: &Value, subject: &Subject, book: &Book, steps: &[(u8, usize)]) {
    let input = &subject.input;
    let state = steps.last().map_or(1, |&(_, state)| state);
    assert_eq!(found.get("file").text(), subject.file);
    assert_eq!(found.get("state").number(), state, "{input}");
    assert_eq!(found.get("states").number(), book.states(), "{input}");
    for (found, &(code, state)) in found.get("steps").list().iter().zip(steps) {
        assert_eq!(found.get("code").number(), usize::from(code), "{input}");
        assert_eq!(found.get("name").text(), subject.step(book, usize::from(code)), "{input}");
        assert_eq!(found.get("state").number(), state, "{input}");
    }
    assert_eq!(found.get("steps").list().len(), steps.len(), "{input}");
    assert_eq!(found.get("requests").list().len(), book.frame.requests(), "{input}");
    for (request, found) in found.get("requests").list().iter().enumerate() {
        let outcome = OUTCOMES[outcome_in(book, state, request)];
        assert_eq!(found.get("request").get("number").number(), request, "{input}");
        assert_eq!(found.get("request").get("name").text(), subject.request(book, request), "{input}");
        assert_eq!(found.get("outcome").text(), outcome, "{input}");
        let codes = [book.frame.accept_code(request), book.frame.reject_code(request)];
        for (name, code) in ["accepted_to", "rejected_to"].iter().zip(codes) {
            let to = Some(book.entry(state, code)).filter(|&to| to != 0);
            assert_eq!(found.get(name).maybe(Value::number), to, "{input}");
        }
    }
    let states: Vec<usize> = (0..book.frame.events).map(|event| book.entry(state, event)).collect();
    assert_eq!(found.get("events").each("state"), states, "{input}");
}

/// Asks what is possible after these steps, said by their codes.
fn ask_after(subject: &Subject, steps: &[(u8, usize)], further: Option<usize>) -> Ran {
    let codes = steps.iter().map(|&(code, _)| usize::from(code));
    let words: Vec<String> = codes.chain(further).map(|code| format!("code {code}")).collect();
    let words: Vec<&str> = words.iter().map(String::as_str).collect();
    run(&[&["after", "--json", &subject.file][..], &words].concat(), &[])
}

#[test]
fn after_is_what_the_reference_walks_to() {
    let folder = Folder::new("after");
    let mut met = Met::default();
    for (number, subject, book) in subjects(&folder) {
        let input = &subject.input;
        let steps = walk(&book, &mut Random::new(number, "walk"));
        let ran = ask_after(&subject, &steps, None);
        assert_eq!(ran.status, 0, "{input}: {}", ran.errors);
        check_after(&read(ran.text()), &subject, &book, &steps);
        let named = steps.iter().map(|&(code, _)| subject.step(&book, code.into()));
        let named: Vec<String> = named.collect();
        let by_names = run(&["after", "--json", &subject.file, &named.join(", ")], &[]);
        assert_eq!(by_names.text(), ran.text(), "{input}: {}", by_names.errors);
        met.note("over 20 steps", steps.len() > 20);
        met.note("names", subject.kind == "text");
        let state = steps.last().map_or(1, |&(_, state)| state);
        let impossible = (0..book.frame.width()).find(|&code| book.entry(state, code) == 0);
        met.note("a step that is not possible", impossible.is_some());
        if let Some(code) = impossible {
            let further = ask_after(&subject, &steps, Some(code));
            let step = format!("step {}, {},", steps.len() + 1, subject.step(&book, code));
            let told = further.errors.contains(&format!("{step} is not possible"));
            assert!(further.status == 2 && told, "{input}: {}", further.errors);
        }
    }
    met.each_at_least(20);
}

#[test]
fn steps_are_said_in_several_ways() {
    let folder = Folder::new("steps");
    let rules = "events noon field person = \"late reader\", \"7\", staff field action = copy, lend
                 rule any, any accept";
    let file = folder.file("rules.txt", rules);
    let answer = |words: &[&str]| {
        let ran = run(&[&["after", "--json", &file][..], words].concat(), &[]);
        assert_eq!(ran.status, 0, "{words:?}: {}", ran.errors);
        read(ran.text()).get("steps").each("code")
    };
    for words in [
        &["code", "1", "code", "1", "code", "0", "code", "7"][..],
        &["code 1, code 1, code 0, code 7"],
        &["code 1 twice", "noon", "code 7"],
        &["late reader", "copy", "accepted", "twice", "noon", "7", "lend", "accepted"],
        &["late reader", "copy", "accepted,", "late reader", "copy", "accept", "noon", "code", "7"],
        &["\"late reader\" copy accepted 2 times, noon, \"7\" lend accepted"],
        &["\"late reader\",", "copy", "accepted", "2", "times", "noon,", "\"7\"", "lend", "accepted"],
    ] {
        assert_eq!(answer(words), [1, 1, 0, 7], "{words:?}");
    }
}

/// Checks the answer to a question that is not refused.
fn check_way(ran: &Ran, subject: &Subject, asked: Question, expected: &Option<History>) {
    let (input, found) = (&subject.input, read(ran.text()));
    let codes = |history: &Value| history.each("code").iter().map(|&code| code as u8).collect();
    assert_eq!(found.get("history").maybe(codes), *expected, "{input}");
    assert_eq!(found.get("outcome").text(), OUTCOMES[asked.outcome], "{input}");
    let request = found.get("request").get("number").number();
    assert_eq!(request, asked.request, "{input}");
    assert_eq!(ran.status, i32::from(expected.is_none()), "{input}");
}

/// The way in words can be given back as steps.
fn check_said(subject: &Subject, request: &str, outcome: &str, history: &[u8]) {
    let ran = run(&["way", &subject.file, request, outcome], &[]);
    let count = history.len();
    let steps = if count == 1 { " 1 step: ".to_string() } else { format!(" {count} steps: ") };
    let (_, said) = ran.text().split_once(&steps).expect("the steps");
    let after = run(&["after", "--json", &subject.file, said.trim_end()], &[]);
    assert_eq!(after.status, 0, "{}: {said}{}", subject.input, after.errors);
    let codes = read(after.text()).get("steps").each("code");
    let expected: Vec<usize> = history.iter().map(|&code| code.into()).collect();
    assert_eq!(codes, expected, "{}: {said}", subject.input);
}

#[test]
fn ways_are_the_reference_ways() {
    let folder = Folder::new("ways");
    let mut met = Met::default();
    for (number, subject, book) in subjects(&folder) {
        let asked = question(number, &book.to_bytes());
        let expected = way(&book, asked.request, asked.outcome);
        let (request, outcome) = match expected.is_ok() && number % 2 == 0 {
            true => (subject.request(&book, asked.request), OUTCOMES[asked.outcome].to_string()),
            false => (asked.request.to_string(), asked.outcome.to_string()),
        };
        let ran = run(&["way", "--json", &subject.file, &request, &outcome], &[]);
        met.note("a way", matches!(expected, Ok(Some(_))));
        met.note("no way", matches!(expected, Ok(None)));
        met.note("a refused question", expected.is_err());
        match expected {
            Ok(expected) => {
                check_way(&ran, &subject, asked, &expected);
                let history = expected.filter(|history| !history.is_empty());
                met.note("a way of some steps", history.is_some());
                if let Some(history) = history {
                    check_said(&subject, &request, &outcome, &history);
                }
            }
            Err(_) => assert_eq!(ran.status, 2, "{}", subject.input),
        }
    }
    met.each_at_least(10);
}

#[test]
fn pages_are_the_reference_pages() {
    let folder = Folder::new("pages");
    for (_, subject, book) in subjects(&folder) {
        let (input, expected) = (&subject.input, page::page(&book));
        let ran = run(&["page", &subject.file], &[]);
        assert_eq!((ran.status, ran.text()), (0, expected.as_str()), "{input}");
        let with_key = run(&["page", "--key", &subject.file], &[]);
        let (before, key) = with_key.text().split_at(expected.len());
        assert_eq!(before, expected, "{input}");
        let requests: Vec<usize> = (0..book.frame.requests()).collect();
        for request in &requests {
            let name = subject.request(&book, *request);
            let line = format!("column {:>2}  {name}", 9 + request);
            assert!(key.lines().any(|other| other == line), "{input}: {line}\n{key}");
        }
        let found = read(run(&["page", "--json", &subject.file], &[]).text());
        let lines = found.get("page").list().iter().map(Value::text);
        assert!(lines.eq(expected.lines()), "{input}");
        assert_eq!(found.get("requests").each("number"), requests, "{input}");
    }
}

#[test]
fn built_and_compiled_bytes_are_those_of_the_reference() {
    let folder = Folder::new("bytes");
    let mut met = Met::default();
    for (_, subject, book) in subjects(&folder) {
        let built = run(&["build", &subject.file], &[]);
        assert_eq!((built.status, built.output), (0, book.to_bytes()), "{}", subject.input);
        for kind in ["text", "policy", "book"] {
            met.note(kind, subject.kind == kind);
        }
        if subject.kind == "book" {
            continue;
        }
        let compiled = run(&["compile", &subject.file], &[]);
        assert_eq!(compiled.status, 0, "{}", subject.input);
        assert_eq!(compiled.output, subject.bytes, "{}", subject.input);
        let printed = run(&["print", "--names", &subject.file, "-"], &subject.bytes);
        match subject.kind {
            "text" => assert_eq!(printed.output, std::fs::read(&subject.file).expect("the text")),
            _ => assert_eq!(printed.status, 2, "{}", subject.input),
        }
    }
    met.each_at_least(20);
}
