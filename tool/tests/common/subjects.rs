//! Texts, policy files and books of all sorts, good and bad, as files for the
//! tool, with what the reference says of them.

use super::named::{draw_names, is_plain};
use super::run::Folder;
use super::{policy_file, Random};
use policybook::names::Names;
use policybook::notation::print;
use policybook::policy::Policy;
use reference::book::{self, Book};
use reference::generate;

/// A file for the tool.
pub struct Subject {
    pub file: String,
    /// What makes it again.
    pub input: String,
    /// `text`, `policy` or `book`.
    pub kind: &'static str,
    /// A policy file or a book; a text's are those of its policy.
    pub bytes: Vec<u8>,
    pub names: Names,
}

impl Subject {
    /// The subject with this number, of each sort in turn, as a file.
    pub fn new(number: u64, folder: &Folder) -> Subject {
        let kind = ["policy", "text", "book", "policy", "text", "book", "book", "book"][number as usize % 8];
        let (bytes, input) = match number % 8 {
            2 => (generate::book(number), format!("generate book {number}")),
            5 => (generate::damaged_book(number), format!("generate damaged-book {number}")),
            6 => (generate::late_outcome_book(number), format!("generate late-outcome-book {number}")),
            7 => (generate::late_finding_book(number), format!("generate late-finding-book {number}")),
            rest => policy_file(number / 8 * 4 + rest - rest / 3),
        };
        Subject::of(kind, bytes, input, number, folder)
    }

    /// These bytes as a file; as text, if they are to be one and have one.
    pub fn of(kind: &'static str, bytes: Vec<u8>, input: String, number: u64, folder: &Folder) -> Subject {
        let read = Policy::decode(&bytes);
        if let (Ok(policy), "text") = (&read, kind) {
            let mut random = Random::new(number, "names");
            let names = draw_names(&policy.frame, policy.starts.len(), &mut random);
            let file = folder.file(&format!("{number}"), print(policy, &names, &[]));
            return Subject { file, input, kind, bytes, names };
        }
        let names = match (&read, book::read(&bytes)) {
            (Ok(policy), _) => Names::made_up(&policy.frame, policy.starts.len()),
            (_, Ok(book)) => Names::made_up(&frame(&book), 0),
            _ => Names::default(),
        };
        let file = folder.file(&format!("{number}"), &bytes);
        let kind = if kind == "text" { "policy" } else { kind };
        Subject { file, input, kind, bytes, names }
    }

    /// The book that the reference builds or reads, or the number of its refusal.
    pub fn book(&self) -> Result<Book, u8> {
        let book = match self.kind {
            "book" => book::read(&self.bytes),
            _ => book::build(&self.bytes),
        };
        book.map_err(|refusal| refusal.number())
    }

    /// Whether the tool takes it for what it is; else for a mistaken text.
    pub fn has_mark(&self) -> bool {
        self.bytes.starts_with(b"POL") || self.bytes.starts_with(b"BOK")
    }

    /// Whether the bytes have the mark of the other format.
    pub fn has_wrong_mark(&self) -> bool {
        self.has_mark() && (self.kind == "book") != self.bytes.starts_with(b"BOK")
    }

    /// A request in words.
    pub fn request(&self, book: &Book, request: usize) -> String {
        let values = book.frame.values_of(request);
        let fields = self.names.fields.iter().zip(values);
        let names: Vec<String> = fields.map(|(field, value)| quoted(&field.values[value])).collect();
        names.join(" ")
    }

    /// A step in words.
    pub fn step(&self, book: &Book, code: usize) -> String {
        match code.checked_sub(book.frame.events) {
            None => quoted(&self.names.events[code]),
            Some(rest) => {
                let decided = ["accepted", "rejected"][rest % 2];
                format!("{} {decided}", self.request(book, rest / 2))
            }
        }
    }
}

fn quoted(name: &str) -> String {
    match is_plain(name) {
        true => name.to_string(),
        false => format!("\"{name}\""),
    }
}

fn frame(book: &Book) -> policybook::frame::Frame {
    policybook::frame::Frame { events: book.frame.events, counts: book.frame.counts.clone() }
}

/// The files with these numbers that have a book.
pub fn with_books(numbers: std::ops::Range<u64>, folder: &Folder) -> impl Iterator<Item = (u64, Subject, Book)> + '_ {
    numbers.filter_map(|number| {
        let subject = Subject::new(number, folder);
        let book = subject.book().ok()?;
        Some((number, subject, book))
    })
}

/// A random history that is possible in the book, with the state after each step.
pub fn walk(book: &Book, random: &mut Random) -> Vec<(u8, usize)> {
    let mut state = 1;
    let mut steps = Vec::new();
    for _ in 0..random.below(40) {
        let possible: Vec<usize> = (0..book.frame.width()).filter(|&code| book.entry(state, code) != 0).collect();
        if possible.is_empty() {
            break;
        }
        let code = *random.pick(&possible);
        state = book.entry(state, code);
        steps.push((code as u8, state));
    }
    steps
}
