//! What the sample host in C (`host/sample.c`) prints for two policy files.

use std::io;

use crate::book::{self, Book};
use crate::compare::{compare_books, Comparison};
use crate::findings::{findings, RequestFinding};
use crate::refusal::Refusal;
use crate::words::Names;
use crate::History;

/// A policy file: its name, and its bytes or why it cannot be read.
pub struct File<'a> {
    /// The name as it was given.
    pub name: &'a str,
    /// What reading gave.
    pub content: io::Result<Vec<u8>>,
}

/// The host's lines for two policy files, and a last one with its exit status.
pub fn host(first: File, second: File) -> String {
    let mut text = String::new();
    let (one, one_book) = build_and_judge(&first, &mut text);
    let (two, two_book) = build_and_judge(&second, &mut text);
    let mut status = one.max(two);
    if let (Some(one), Some(two)) = (one_book, two_book) {
        status = compare((first.name, &one), (second.name, &two), &mut text);
    }
    format!("{text}exit status {status}\n")
}

/// The exit status so far, and the book if there is one.
fn build_and_judge(file: &File, text: &mut String) -> (u8, Option<Book>) {
    let policy = match &file.content {
        Ok(policy) => policy,
        Err(error) => {
            text.push_str(&format!(
                "{}: cannot be read: {}\n",
                file.name,
                reason(error)
            ));
            return (2, None);
        }
    };
    match book::build(policy) {
        Ok(book) => {
            text.push_str(&judgement(file.name, &book));
            (0, Some(book))
        }
        Err(refusal) => {
            text.push_str(&refusal_line(file.name, refusal));
            (1, None)
        }
    }
}

/// The error as the C library says it: without Rust's number at the end.
fn reason(error: &io::Error) -> String {
    let text = error.to_string();
    match text.split_once(" (os error") {
        Some((reason, _)) => reason.to_string(),
        None => text,
    }
}

fn refusal_line(what: &str, refusal: Refusal) -> String {
    format!(
        "{what}: refused by number {}: {}\n",
        refusal.number(),
        refusal.meaning()
    )
}

fn judgement(name: &str, book: &Book) -> String {
    let names = Names::plain(&book.frame);
    let found = findings(book);
    let about_request = |finding: Option<RequestFinding>, what: &str| {
        finding.map_or("none".to_string(), |finding| {
            format!(
                "{} {what}, {}",
                names.request(finding.request),
                when(&names, &finding.history)
            )
        })
    };
    format!(
        "{name}: a book of {} bytes, states: {}\n  conflict: {}\n  missing: {}\n  blocked: {}\n",
        book.to_bytes().len(),
        book.states(),
        about_request(found.conflict, "may be both accepted and rejected"),
        about_request(found.missing, "is unanswered"),
        match found.blocked {
            None => "none".to_string(),
            Some(history) if history.is_empty() => "no request is ever answered".to_string(),
            Some(history) => format!(
                "no request is answered any more, {}",
                when(&names, &history)
            ),
        }
    )
}

fn when(names: &Names, history: &History) -> String {
    match history.is_empty() {
        true => "already at the start".to_string(),
        false => format!("first after: {}", names.history(history)),
    }
}

/// The exit status.
fn compare(first: (&str, &Book), second: (&str, &Book), text: &mut String) -> u8 {
    if first.1.frame != second.1.frame {
        text.push_str(&refusal_line("comparison", Refusal::Frames));
        return 1;
    }
    text.push_str(&match compare_books(first.1, second.1) {
        Comparison::Same => "comparison: the same histories are possible under both\n".to_string(),
        Comparison::Differ(history) => format!(
            "comparison: the earliest history possible under just one of them, {}: {}\n",
            [first.0, second.0][usize::from(!first.1.allows(&history))],
            Names::plain(&first.1.frame).history(&history)
        ),
    });
    0
}
