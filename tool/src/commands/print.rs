//! `print`: the text of a policy file, or a text in its standard layout.

use super::{given, one_file, one_standard_input, Answer, Command};
use crate::arguments::Arguments;
use crate::input::{read, Failure, Kind};
use crate::notation;

pub fn print(arguments: &Arguments) -> Result<Answer, Failure> {
    let file = one_file(arguments, Command::Print)?;
    one_standard_input(arguments, Command::Print)?;
    let document = read(file)?;
    if document.kind == Kind::Book {
        return Err(Failure::of_use(format!(
            "{file}: is a book, which has no rules; `policybook page {file}` and `policybook draw {file}` show it"
        )));
    }
    let (policy, names) = document.policy_and_names(given(arguments)?.as_ref())?;
    let notes = document.text.map(|text| text.notes).unwrap_or_default();
    let output = notation::print(&policy, &names, &notes).into_bytes();
    Ok(Answer { output, ..Answer::default() })
}
