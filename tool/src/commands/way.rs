//! `way`: the earliest history after which a request has an outcome.

use super::{after_words, answer, count, history_json, one_standard_input, request_json, subject, Answer, Command};
use crate::arguments::{wrong, Arguments};
use crate::book::Outcome;
use crate::input::{Failure, Subject};
use crate::json::Json;
use crate::library;
use crate::notation::parse_request;

pub fn way(arguments: &Arguments) -> Result<Answer, Failure> {
    one_standard_input(arguments, Command::Way)?;
    let [file, words @ ..] = &arguments.words[..] else {
        return Err(wrong("a file, a request and an outcome are expected", Some(Command::Way)));
    };
    let subject = subject(file, arguments)?;
    let names = &subject.names;
    let (request, rest) = parse_request(names, words).map_err(|message| wrong(&message, Some(Command::Way)))?;
    let outcome = match &rest[..] {
        [word] => Outcome::named(word).ok_or_else(|| {
            wrong(&format!("an outcome is none, accept, reject or both; found `{word}`"), Some(Command::Way))
        })?,
        _ => {
            return Err(wrong(
                "after the request one outcome is expected: none, accept, reject or both",
                Some(Command::Way),
            ))
        }
    };
    let requests = subject.book.frame().requests();
    let found = library::way(subject.book.bytes(), request, outcome.number()).map_err(|number| {
        Failure::refused(&[file], number, format!("the request is {request}; there are 0 to {}", requests - 1))
    })?;
    let what = format!("{} {}", names.request(request), outcome.words());
    let words = match &found {
        None => format!("there is no history after which {what}\n{}", instead(&subject, request, outcome)?),
        Some(history) if history.is_empty() => format!("already at the start {what}\n"),
        Some(history) => {
            format!("{what}, at the earliest after {}: {}\n", count(history.len(), "step"), names.history(history))
        }
    };
    let json = Json::Object(vec![
        ("file", file.as_str().into()),
        ("request", request_json(names, request)),
        ("outcome", outcome.word().into()),
        ("history", found.as_ref().map_or(Json::Null, |history| history_json(names, history))),
    ]);
    Ok(answer(arguments, u8::from(found.is_none()), words, json))
}

/// Where a request is never accepted only, or rejected only: whether it may be both.
fn instead(subject: &Subject, request: usize, outcome: Outcome) -> Result<String, Failure> {
    if outcome != Outcome::Accept && outcome != Outcome::Reject {
        return Ok(String::new());
    }
    let found = library::way(subject.book.bytes(), request, Outcome::Both.number());
    Ok(found.map_err(|number| subject.refused_again(number))?.map_or(String::new(), |history| {
        format!("but {} it {}\n", after_words(&subject.names, &history), Outcome::Both.words())
    }))
}
