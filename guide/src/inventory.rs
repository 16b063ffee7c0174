//! The yearly inventory of the file room: a policy that says with levels what the
//! sixth lesson's says without them, and one without rules as the tenth lesson's,
//! so that each has the book of a lesson; and what is told of files of the guide.

use reference::compare::{compare_books, Comparison};
use reference::inventory::{inventory, File as Named};
use reference::policy;
use reference::shelf::shelf;

use crate::files::{book_of, File, FOLDER};
use crate::lessons::{daily, no_rules_started};
use crate::pages::examples;
use crate::rules::{rule, Also, Table};
use crate::text::rules;

/// The policies with the book of a lesson's, each after the stem of its files.
pub fn tables() -> [(&'static str, Table); 2] {
    [
        ("two-copies-levels", two_copies_by_levels()),
        ("no-rules-started", no_rules_started()),
    ]
}

/// At most two copies a day, views always: copies are accepted until a rule of a
/// greater level rejects them.
fn two_copies_by_levels() -> Table {
    let rules = vec![
        rule(&[0], true, 1),
        rule(&[1], true, 1).adding(0),
        rule(&[1], false, 1).from(0, 2).at_level(1),
    ];
    daily(&["view", "copy"], &["copies"], rules).beginning_at(&[0])
}

/// The policies and their books, which need no pictures of their own.
pub fn inventory_files() -> Vec<File> {
    let files = tables().map(|(name, table)| {
        [
            (format!("{name}.policy"), policy::write(&table.policy)),
            (format!("{name}.book"), book_of(&table).to_bytes()),
        ]
    });
    files.into_iter().flatten().collect()
}

/// Commands of `reference` and `host/answers` about the policies, and about the two
/// books that are unlike and allow the same histories, each with what it prints.
pub fn inventory_answers() -> String {
    let mut text = String::new();
    for (name, table) in tables() {
        let findings = shelf(&policy::write(&table.policy));
        text.push_str(&format!("$ shelf {FOLDER}/{name}.policy\n{findings}"));
    }
    let [one, other] = examples();
    assert_eq!(compare_books(&one.book, &other.book), Comparison::Same);
    text + &format!(
        "$ compare {FOLDER}/{}.book {FOLDER}/{}.book\nsame\n",
        one.name, other.name
    )
}

/// What stands for one of the policies, or for an inventory of files of the guide.
pub fn of_inventory(place: &str, files: &[File]) -> Option<String> {
    let (what, rest) = place.split_once(' ')?;
    match what {
        "rules" => {
            let (name, table) = tables().into_iter().find(|(name, _)| *name == rest)?;
            Some(rules(name, &table))
        }
        "inventory" => told(&rest.split(' ').collect::<Vec<_>>(), files),
        _ => None,
    }
}

/// The command and what it prints.
fn told(names: &[&str], files: &[File]) -> Option<String> {
    let paths: Vec<String> = names
        .iter()
        .map(|name| format!("{FOLDER}/{name}"))
        .collect();
    let mut named = Vec::new();
    for (name, path) in names.iter().zip(&paths) {
        let (_, bytes) = files.iter().find(|(file, _)| file == name)?;
        named.push(Named {
            name: path,
            bytes: bytes.clone(),
        });
    }
    Some(format!(
        "$ target/host/inventory {}\n{}",
        paths.join(" "),
        inventory(&named)
    ))
}
