//! The inventory's examples show what they are for: policies of different bytes
//! with one book, and unlike books with the same histories.

use guide::files::{book_of, files_of};
use guide::inventory::{inventory_files, of_inventory, tables};
use guide::lessons::{lessons, no_rules_started};
use guide::pages::examples;
use reference::compare::{compare_books, Comparison};
use reference::policy;

#[test]
fn two_policies_with_one_book() {
    for (lesson, (_, other)) in [5, 9].into_iter().zip(tables()) {
        let one = &lessons()[lesson].table;
        assert_eq!(book_of(one).to_bytes(), book_of(&other).to_bytes());
        assert_ne!(policy::write(&one.policy), policy::write(&other.policy));
    }
}

#[test]
fn the_one_without_rules_is_a_sample() {
    let sample = include_bytes!("../../samples/norules-started.policy");
    assert_eq!(policy::write(&no_rules_started().policy), sample);
}

#[test]
fn unlike_books_with_the_same_histories() {
    let [built, foreign] = examples();
    assert_ne!(built.book.to_bytes(), foreign.book.to_bytes());
    assert_eq!(compare_books(&built.book, &foreign.book), Comparison::Same);
}

#[test]
fn what_is_told() {
    let mut files = files_of(&lessons()[5]);
    files.extend(inventory_files());
    let told = of_inventory(
        "inventory two-copies-levels.policy present-decisions.book two-copies-levels.book",
        &files,
    );
    let expected = "\
$ target/host/inventory docs/guide/two-copies-levels.policy docs/guide/present-decisions.book docs/guide/two-copies-levels.book
2 equal files of 27 bytes:
  docs/guide/present-decisions.book
  docs/guide/two-copies-levels.book
unlike every other file:
  docs/guide/two-copies-levels.policy
3 files, 2 different
";
    assert_eq!(told.as_deref(), Some(expected));
    assert_eq!(of_inventory("inventory none.book", &files), None);
}
