//! The examples of the file room: a policy whose page has every letter, and a
//! book from elsewhere with a state that no history leads to.

use std::collections::VecDeque;

use reference::book::Book;
use reference::page::{page, LINE_LENGTH};
use reference::shelf::shelf;
use reference::words::Names;

use crate::files::{book_files, book_of, policy_files, File, FOLDER};
use crate::lessons::daily;
use crate::rules::{rule, Also, Table};

/// A book whose page is shown.
pub struct Example {
    /// The stem of its files' names, and the word for it in the guide's text.
    pub name: &'static str,
    /// The policy, with the names of its events and requests.
    pub table: Table,
    /// The policy's book, or the one from elsewhere.
    pub book: Book,
}

/// The examples in the order of the guide.
pub fn examples() -> [Example; 2] {
    let table = copies_and_loans();
    let built = book_of(&table);
    [
        Example {
            name: "file-room",
            table: table.clone(),
            book: built.clone(),
        },
        Example {
            name: "file-room-foreign",
            table,
            book: with_unreached_state(built),
        },
    ]
}

/// Nobody has said what happens to loans after one copy, and two rules on views
/// meet after two.
fn copies_and_loans() -> Table {
    let rules = vec![
        rule(&[0], true, 1),
        rule(&[1], true, 1).below(0, 2).adding(0),
        rule(&[2], true, 1).below(0, 1),
        rule(&[0, 1, 2], false, 1).from(0, 2),
    ];
    daily(&["view", "copy", "lend"], &["copies"], rules)
}

/// One state more, which leads to itself and to state 1.
fn with_unreached_state(mut book: Book) -> Book {
    let state = book.states() as u8 + 1;
    book.rows.push(vec![1, state, 0, 0, state, state, 0]);
    book
}

impl Example {
    /// Its files: the policy too, where the book is the policy's.
    pub fn files(&self) -> Vec<File> {
        match self.is_built() {
            true => policy_files(self.name, &self.table),
            false => book_files(self.name, &self.table, &self.book),
        }
    }

    fn is_built(&self) -> bool {
        self.book == book_of(&self.table)
    }

    /// Commands of `reference` and `host/answers` about the files, each with what
    /// it prints.
    pub fn answers(&self) -> String {
        let mut text = String::new();
        for (file, bytes) in self.files() {
            if file.ends_with(".policy") {
                text.push_str(&format!("$ shelf {FOLDER}/{file}\n{}", shelf(&bytes)));
            }
            if file.ends_with(".policy") || file.ends_with(".book") {
                text.push_str(&format!("$ page {FOLDER}/{file}\n{}", page(&self.book)));
            }
        }
        text
    }

    /// The lines of the page, each with what it says, as a Markdown table.
    pub fn lines_in_words(&self) -> String {
        let names = self.table.names();
        let mut text = "| state | steps | letters | in words |\n|---:|---:|---|---|\n".to_string();
        for (index, line) in page(&self.book).lines().enumerate() {
            let state = index + 1;
            text.push_str(&format!(
                "| {} | {} | `{}` | {}: {} |\n",
                line[..3].trim(),
                line[4..7].trim(),
                line[8..].trim_end(),
                self.reached_in_words(&names, state),
                self.letters_in_words(&names, state, line)
            ));
        }
        text
    }

    fn reached_in_words(&self, names: &Names, state: usize) -> String {
        match self.earliest_history(state) {
            None => "after no history".to_string(),
            Some(history) if history.is_empty() => "at the start".to_string(),
            Some(history) => format!("at the earliest after {}", names.history(&history)),
        }
    }

    /// What the letters of a line say, checked against the book.
    fn letters_in_words(&self, names: &Names, state: usize, line: &str) -> String {
        let parts: Vec<String> = (0..self.book.frame.requests())
            .map(|request| {
                let (may, accepts, rejects) = match line.as_bytes()[8 + request] {
                    b'A' => ("may be accepted", true, false),
                    b'R' => ("may be rejected", false, true),
                    b'B' => ("may be both accepted and rejected", true, true),
                    _ => ("is not answered", false, false),
                };
                assert_eq!(self.book.accepts(state, request), accepts);
                assert_eq!(self.book.rejects(state, request), rejects);
                format!("*{}* {may}", names.request(request))
            })
            .collect();
        parts.join(", ")
    }

    /// A history followed in the picture, and the line that holds after it.
    pub fn walked_in_words(&self, history: &[u8]) -> String {
        let names = self.table.names();
        let mut states = vec![1];
        for &code in history {
            states.push(self.book.entry(states[states.len() - 1], code as usize));
        }
        assert!(!states.contains(&0), "a possible history");
        let last = states[states.len() - 1];
        let led: Vec<String> = states[1..].iter().map(usize::to_string).collect();
        let page = page(&self.book);
        let line = &page[LINE_LENGTH * (last - 1)..LINE_LENGTH * last];
        format!(
            "After *{}* the arrows have led from state 1 to {}. Now line {last} holds: {}. The number {} in that line does not count the {} steps that were taken; it says that {} would have been enough.\n",
            names.history(history),
            led.join(", to "),
            self.letters_in_words(&names, last, line),
            line[4..7].trim(),
            history.len(),
            line[4..7].trim(),
        )
    }

    /// The earliest history that leads to a state.
    pub fn earliest_history(&self, wanted: usize) -> Option<Vec<u8>> {
        let mut met = vec![1];
        let mut waiting = VecDeque::from([(1, Vec::new())]);
        while let Some((state, history)) = waiting.pop_front() {
            if state == wanted {
                return Some(history);
            }
            for code in 0..self.book.frame.width() {
                let target = self.book.entry(state, code);
                if target != 0 && !met.contains(&target) {
                    met.push(target);
                    waiting.push_back((target, [&history[..], &[code as u8]].concat()));
                }
            }
        }
        None
    }
}
