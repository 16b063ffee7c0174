//! The files of the guide: policies, books, the text of pictures, and the answers
//! that both the reference and the proved library must give for them.

use reference::book::{self, Book};
use reference::compare::{compare_books, Comparison};
use reference::dot::dot;
use reference::policy;
use reference::shelf::{history_part, shelf};

use crate::lessons::{Lesson, Mistaken};
use crate::mistakes::book_with;
use crate::rules::Table;

/// A file's name in the guide's folder and its bytes.
pub type File = (String, Vec<u8>);

/// The folder as the answers name it, from the root of the repository.
pub(crate) const FOLDER: &str = "docs/guide";

/// The book of a lesson's table.
pub fn book_of(table: &Table) -> Book {
    book::build(&policy::write(&table.policy)).expect("a lesson's policy is accepted")
}

/// The book that someone with the error has in mind.
pub fn mistaken_book(lesson: &Lesson) -> Book {
    match &lesson.mistaken {
        Mistaken::Policy(table, _) => book_of(table),
        Mistaken::Method(mistake) => book_with(&lesson.table.policy, Some(*mistake)),
    }
}

/// The files of one lesson.
pub fn files_of(lesson: &Lesson) -> Vec<File> {
    let mut files = policy_files(lesson.name, &lesson.table);
    let mistaken = format!("{}-mistaken", lesson.name);
    match &lesson.mistaken {
        Mistaken::Policy(table, _) => files.extend(policy_files(&mistaken, table)),
        Mistaken::Method(_) => {
            files.extend(book_files(&mistaken, &lesson.table, &mistaken_book(lesson)))
        }
    }
    if let Some(table) = &lesson.mended {
        files.extend(policy_files(&format!("{}-mended", lesson.name), table));
    }
    files
}

pub(crate) fn policy_files(name: &str, table: &Table) -> Vec<File> {
    let mut files = vec![(format!("{name}.policy"), policy::write(&table.policy))];
    files.extend(book_files(name, table, &book_of(table)));
    files
}

pub(crate) fn book_files(name: &str, table: &Table, book: &Book) -> Vec<File> {
    vec![
        (format!("{name}.book"), book.to_bytes()),
        (
            format!("{name}.dot"),
            dot(book, &table.names()).into_bytes(),
        ),
    ]
}

/// Commands of `reference` and `host/answers` about the files, each with what it
/// prints.
pub fn answers(lessons: &[Lesson]) -> String {
    let mut text = String::new();
    for lesson in lessons {
        let name = lesson.name;
        for (file, bytes) in files_of(lesson) {
            if file.ends_with(".policy") {
                text.push_str(&format!("$ shelf {FOLDER}/{file}\n{}", shelf(&bytes)));
            }
        }
        text.push_str(&format!(
            "$ compare {FOLDER}/{name}.book {FOLDER}/{name}-mistaken.book\ndiffer{}\n",
            history_part(&earliest(lesson))
        ));
    }
    text
}

/// The earliest history possible in just one of a lesson's two books.
pub fn earliest(lesson: &Lesson) -> Vec<u8> {
    match compare_books(&book_of(&lesson.table), &mistaken_book(lesson)) {
        Comparison::Differ(history) => history,
        Comparison::Same => panic!("the lesson {} shows nothing", lesson.name),
    }
}
