//! `inventory`: which of many books are equal, byte for byte.

use std::collections::HashMap;
use std::hash::{DefaultHasher, Hash, Hasher};
use std::io::{self, IsTerminal, Write};
use std::time::{Duration, Instant};

use super::{count, one_standard_input, Answer, Command};
use crate::arguments::{wrong, Arguments};
use crate::input::{read, Failure, Subject};
use crate::json::Json;
use crate::library;
use crate::names::Names;
use crate::reorder::{in_order_of, sorted};

/// Books that are equal, and the files that have them.
struct Group<'a> {
    book: Vec<u8>,
    files: Vec<&'a str>,
    /// The first text among the files, with its names.
    named: Option<(&'a str, Names)>,
    /// The texts that have other names than that one.
    otherwise: Vec<&'a str>,
}

pub fn inventory(arguments: &Arguments) -> Result<Answer, Failure> {
    if arguments.words.is_empty() {
        return Err(wrong("no file is named", Some(Command::Inventory)));
    }
    one_standard_input(arguments, Command::Inventory)?;
    let mut groups = Groups::default();
    let mut progress = Progress::new(arguments.words.len());
    let mut failures = Vec::new();
    for (number, file) in arguments.words.iter().enumerate() {
        progress.show(number);
        match read(file).and_then(|document| document.subject(None)) {
            Ok(subject) => groups.add(file, &subject),
            Err(failure) => failures.push(failure),
        }
    }
    progress.clear();
    let output = match arguments.json {
        true => format!("{}\n", groups.json(&failures)),
        false => groups.words(failures.len()),
    };
    Ok(Answer {
        status: if failures.is_empty() { 0 } else { 2 },
        output: output.into_bytes(),
        notes: failures.into_iter().map(|failure| failure.message).collect(),
        binary: false,
    })
}

impl<'a> Group<'a> {
    fn add(&mut self, file: &'a str, names: Option<&Names>) {
        self.files.push(file);
        match (&self.named, names) {
            (None, Some(names)) => self.named = Some((file, names.clone())),
            (Some((_, first)), Some(names)) if first.events != names.events || first.fields != names.fields => {
                self.otherwise.push(file)
            }
            _ => {}
        }
    }
}

/// The groups so far, in the order of their first files.
#[derive(Default)]
struct Groups<'a> {
    groups: Vec<Group<'a>>,
    /// The groups whose books have a checksum. It keeps apart what cannot be
    /// equal; that books are equal is said by the library alone.
    by_checksum: HashMap<u64, Vec<usize>>,
    /// The texts with the same names in any order, by the book that they have in the
    /// order of the alphabet; each with its group.
    by_names: HashMap<InOrder, Vec<(&'a str, usize)>>,
}

/// Events, values and book of a text in the order of the alphabet.
type InOrder = (Vec<String>, Vec<Vec<String>>, Vec<u8>);

impl<'a> Groups<'a> {
    fn add(&mut self, file: &'a str, subject: &Subject) {
        let book = subject.book.bytes();
        let mut hasher = DefaultHasher::new();
        book.hash(&mut hasher);
        let candidates = self.by_checksum.entry(hasher.finish()).or_default();
        let equal = candidates.iter().find(|&&group| library::same_bytes(&self.groups[group].book, book)).copied();
        let group = equal.unwrap_or_else(|| {
            candidates.push(self.groups.len());
            self.groups.push(Group { book: book.to_vec(), files: Vec::new(), named: None, otherwise: Vec::new() });
            self.groups.len() - 1
        });
        self.groups[group].add(file, subject.named.then_some(&subject.names));
        if let (Some(_), Some(policy)) = (&subject.document.text, &subject.policy) {
            let names = sorted(&subject.names);
            let ordered = in_order_of(policy, &subject.names, &names);
            if let Some(Ok(book)) = ordered.map(|policy| library::build(&policy.encode())) {
                let values = names.fields.into_iter().map(|field| field.values).collect();
                self.by_names.entry((names.events, values, book)).or_default().push((file, group));
            }
        }
    }

    /// Texts that say the same, though their books differ, since they declare their
    /// names in different orders.
    fn same_by_names(&self) -> Vec<Vec<&'a str>> {
        let alike = self.by_names.values().filter(|files| files.iter().any(|(_, group)| *group != files[0].1));
        let mut alike: Vec<Vec<&str>> = alike.map(|files| files.iter().map(|(file, _)| *file).collect()).collect();
        alike.sort();
        alike
    }

    fn words(&self, failures: usize) -> String {
        let mut lines = Vec::new();
        for group in self.groups.iter().filter(|group| group.files.len() > 1) {
            lines.push(format!(
                "{} equal books of {}:",
                group.files.len(),
                count(usize::from(group.book[11]), "state")
            ));
            lines.extend(group.files.iter().map(|file| format!("  {file}")));
            if let (Some((first, _)), false) = (&group.named, group.otherwise.is_empty()) {
                lines.push(format!(
                    "  equal as books, but with other names than in {first}: {}",
                    group.otherwise.join(", ")
                ));
            }
        }
        let single: Vec<&str> =
            self.groups.iter().filter(|group| group.files.len() == 1).map(|group| group.files[0]).collect();
        if !single.is_empty() {
            lines.push("unlike every other book:".to_string());
            lines.extend(single.iter().map(|file| format!("  {file}")));
        }
        for files in self.same_by_names() {
            lines.push(format!("different books, but the same by names, in another order: {}", files.join(", ")));
        }
        let files = self.groups.iter().map(|group| group.files.len()).sum();
        let refused = if failures == 0 { String::new() } else { format!("; {} left out", count(failures, "file")) };
        lines.push(format!("{}; {} if equal ones are kept once{refused}", count(files, "book"), self.groups.len()));
        lines.join("\n") + "\n"
    }

    fn json(&self, failures: &[Failure]) -> Json {
        let group = |group: &Group| {
            Json::Object(vec![
                ("states", usize::from(group.book[11]).into()),
                ("files", group.files.iter().copied().collect()),
                ("other_names", group.otherwise.iter().copied().collect()),
            ])
        };
        Json::Object(vec![
            ("groups", self.groups.iter().map(group).collect()),
            (
                "same_by_names",
                self.same_by_names().into_iter().map(|files| files.into_iter().collect::<Json>()).collect(),
            ),
            ("failures", failures.iter().map(|failure| failure.json.clone()).collect()),
        ])
    }
}

/// A line on a terminal that says how far it is, where it takes long.
struct Progress {
    files: usize,
    next: Instant,
    shown: bool,
    terminal: bool,
}

impl Progress {
    fn new(files: usize) -> Progress {
        Progress {
            files,
            next: Instant::now() + Duration::from_millis(500),
            shown: false,
            terminal: io::stderr().is_terminal(),
        }
    }

    fn show(&mut self, done: usize) {
        if self.terminal && Instant::now() >= self.next {
            eprint!("\r{done} of {} files", self.files);
            let _ = io::stderr().flush();
            self.next = Instant::now() + Duration::from_millis(100);
            self.shown = true;
        }
    }

    fn clear(&self) {
        if self.shown {
            eprint!("\r{}\r", " ".repeat(40));
        }
    }
}
