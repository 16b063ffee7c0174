//! `page`: the page of a book, and what its columns stand for.

use super::{answer, one_file, one_standard_input, request_json, subject, Answer, Command};
use crate::arguments::Arguments;
use crate::input::Failure;
use crate::json::Json;
use crate::library;

/// The column of request 0.
const FIRST_COLUMN: usize = 9;

pub fn page(arguments: &Arguments) -> Result<Answer, Failure> {
    let file = one_file(arguments, Command::Page)?;
    one_standard_input(arguments, Command::Page)?;
    let subject = subject(file, arguments)?;
    let page = library::page(subject.book.bytes()).map_err(|number| subject.refused_again(number))?;
    let mut words = String::from_utf8_lossy(&page).into_owned();
    let requests = subject.book.frame().requests();
    if arguments.key {
        words.push_str("\ncolumns 1 to 3 the state, 5 to 7 the length of its earliest history;\nA accepted only, R rejected only, B both, . neither\n");
        for request in 0..requests {
            words.push_str(&format!("column {:>2}  {}\n", FIRST_COLUMN + request, subject.names.request(request)));
        }
    }
    let json = Json::Object(vec![
        ("file", file.into()),
        ("page", String::from_utf8_lossy(&page).lines().map(str::to_string).collect()),
        ("requests", (0..requests).map(|request| request_json(&subject.names, request)).collect()),
    ]);
    Ok(answer(arguments, 0, words, json))
}
