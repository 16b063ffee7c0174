//! `build` and `compile`: the book of a policy, and the policy file of a text.

use super::{one_file, Answer, Command};
use crate::arguments::Arguments;
use crate::input::{read, Failure, Kind};

/// The book's bytes.
pub fn build(arguments: &Arguments) -> Result<Answer, Failure> {
    let document = read(one_file(arguments, Command::Build)?)?;
    let output = document.subject(None)?.book.bytes().to_vec();
    Ok(Answer { output, binary: true, ..Answer::default() })
}

/// The policy file's bytes. One of which no book can be built is written too, and
/// a note says so.
pub fn compile(arguments: &Arguments) -> Result<Answer, Failure> {
    let document = read(one_file(arguments, Command::Compile)?)?;
    if document.kind == Kind::Book {
        return Err(Failure::of_use(format!("{}: is a book; a book has no rules to compile", document.name)));
    }
    let (_, names) = document.policy_and_names(None)?;
    let no_book = document.no_book(&names);
    let notes = no_book
        .map(|failure| format!("{}\nthe policy file is written, but no book can be built of it", failure.message));
    Ok(Answer { output: document.bytes, notes: notes.into_iter().collect(), binary: true, ..Answer::default() })
}
