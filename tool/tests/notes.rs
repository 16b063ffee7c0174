//! What `check` says beside the findings: the rules behind a conflict, the other
//! requests of which a finding is true, and what may have been forgotten.

mod common;

use std::collections::BTreeSet;

use common::json::{self, Value};
use common::run::{run, Folder};
use common::{policy_file, Met};
use policybook::explain::{deciding_rules, situation};
use policybook::names::Names;
use policybook::policy::Policy;
use reference::book::{self, Book};
use reference::policy;
use reference::situation::{all_valuations, bounds, carry_out, Valuation};

/// The numbers of the policy files that are checked.
const FILES: std::ops::Range<u64> = 5_000..5_600;
/// How many files are checked in one run.
const IN_ONE_RUN: usize = 60;

/// A policy file that has a book.
struct Checked {
    file: String,
    bytes: Vec<u8>,
    book: Book,
}

/// The files that have a book.
fn files(folder: &Folder) -> Vec<Checked> {
    let made = FILES.map(|number| (number, policy_file(number).0));
    made.filter_map(|(number, bytes)| {
        let book = book::build(&bytes).ok()?;
        Some(Checked { file: folder.file(&number.to_string(), &bytes), bytes, book })
    })
    .collect()
}

fn check(files: &[Checked], json: bool) -> String {
    let mut words = vec!["check"];
    words.extend(json.then_some("--json"));
    words.extend(files.iter().map(|file| file.file.as_str()));
    run(&words, b"").text().to_string()
}

/// What must be noted, from the reference's reading: an event that changes no
/// valuation, and variables by their bounds and changes.
fn expected_notes(policy: &policy::Policy) -> BTreeSet<String> {
    let mut notes = BTreeSet::new();
    if policy.rules.is_empty() {
        return notes;
    }
    let bounds = bounds(policy);
    for (event, changes) in policy.events.iter().enumerate() {
        let stays = |valuation: &Valuation| carry_out(changes, &bounds, valuation) == *valuation;
        if all_valuations(policy).iter().all(stays) {
            notes.insert(format!("the event e{event} changes nothing that is tested"));
        }
    }
    let changes: Vec<&Vec<policy::Change>> =
        policy.rules.iter().map(|rule| &rule.changes).chain(&policy.events).collect();
    for variable in 0..policy.variables {
        let any = |change| changes.iter().any(|changes| changes[variable] == change);
        let note = match bounds[variable] {
            0 => format!("the variable v{variable} is not tested"),
            _ if !any(policy::Change::AddOne) => format!("nothing adds to the variable v{variable}"),
            _ if !any(policy::Change::SetToZero) => format!("nothing sets the variable v{variable} to 0"),
            _ => continue,
        };
        notes.insert(note);
    }
    notes
}

#[test]
fn notes_and_rules_of_conflicts() {
    let folder = Folder::new("notes");
    let mut met = Met::default();
    for part in files(&folder).chunks(IN_ONE_RUN) {
        let answer = json::read(&check(part, true));
        for (found, file) in answer.get("files").list().iter().zip(part) {
            let read = policy::read(&file.bytes).expect("a policy");
            let notes: BTreeSet<String> =
                found.get("notes").list().iter().map(|note| note.text().to_string()).collect();
            assert_eq!(notes, expected_notes(&read), "{}", file.file);
            for sort in ["the event", "is not tested", "nothing adds", "nothing sets"] {
                met.note(sort, notes.iter().any(|note| note.contains(sort)));
            }
            let Value::Object(_) = found.get("conflict") else { continue };
            check_rules(found.get("conflict"), &file.bytes);
            met.note("a conflict", true);
        }
    }
    met.each_at_least(10);
}

/// The rules of a conflict, which `explained.rs` holds against the reference.
fn check_rules(conflict: &Value, bytes: &[u8]) {
    let policy = Policy::decode(bytes).expect("a policy");
    let history: Vec<u8> = conflict.get("history").each("code").into_iter().map(|code| code as u8).collect();
    let request = conflict.get("request").get("number").number();
    let rules = deciding_rules(&policy, &situation(&policy, &history), request);
    let from_one = |rules: &BTreeSet<usize>| rules.iter().map(|rule| rule + 1).collect::<Vec<usize>>();
    assert_eq!(conflict.get("accepting").each("rule"), from_one(&rules.accepting));
    assert_eq!(conflict.get("rejecting").each("rule"), from_one(&rules.rejecting));
}

/// The requests that the words of a line stand for, under made-up names.
fn requests_of(words: &str, names: &Names) -> BTreeSet<usize> {
    let frame = names.frame();
    let fits = |product: &str, request: usize| {
        product == "any request"
            || product.split(", ").zip(names.fields.iter().zip(frame.values(request))).all(|(part, (field, value))| {
                part == "any" || part.split(" or ").any(|name| name == field.values[value])
            })
    };
    (0..frame.requests()).filter(|&request| words.split("; ").any(|product| fits(product, request))).collect()
}

#[test]
fn further_requests_of_a_finding() {
    let folder = Folder::new("further");
    let mut met = Met::default();
    for part in files(&folder).chunks(IN_ONE_RUN) {
        let text = check(part, false);
        let mut sections = text.split("\n/").map(str::to_string);
        for file in part {
            let section = sections.next().expect("a section for each file");
            let names = Names::made_up(&Policy::decode(&file.bytes).expect("a policy").frame, 0);
            check_further(&section, "  conflict:", &names, &file.book, true, &mut met);
            check_further(&section, "  missing:", &names, &file.book, false, &mut met);
        }
    }
    met.each_at_least(10);
}

/// A finding's line names the lowest request of its earliest history; a line below
/// it all others that are so after some history.
fn check_further(section: &str, title: &str, names: &Names, book: &Book, conflict: bool, met: &mut Met) {
    let mut lines = section.lines().skip_while(|line| !line.starts_with(title));
    let first = lines.next();
    let further =
        lines.take_while(|line| line.starts_with("      ")).find(|line| line.contains("and after some history: "));
    let is_so = |request: usize| {
        (1..=book.states()).any(|state| {
            let decided = [book.accepts(state, request), book.rejects(state, request)];
            decided == [conflict, conflict]
        })
    };
    let all: BTreeSet<usize> = (0..names.frame().requests()).filter(|&request| is_so(request)).collect();
    let Some(first) = first else {
        assert!(all.is_empty(), "{section}");
        return;
    };
    let told = first.rsplit(": ").next().expect("a request").split(" may be").next().expect("a request");
    let told = told.split(" is neither").next().expect("a request").replace(' ', ", ");
    let mut found = requests_of(&told, names);
    assert_eq!(found.len(), 1, "{first}");
    if let Some(line) = further {
        let others = requests_of(line.split(": ").nth(1).expect("requests"), names);
        assert!(found.is_disjoint(&others), "{section}");
        found.extend(others);
    }
    assert_eq!(found, all, "{section}");
    met.note(title, further.is_some());
}
