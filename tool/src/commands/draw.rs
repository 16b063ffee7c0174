//! `draw`: a picture of a book, whole or along one history.

use std::path::Path;

use super::after::{steps_of, walk};
use super::{count, one_file, one_standard_input, subject, Answer, Command};
use crate::arguments::{wrong, Arguments};
use crate::draw::{picture, Options, MOST_STATES};
use crate::input::{Failure, Subject};

pub fn draw(arguments: &Arguments) -> Result<Answer, Failure> {
    let file = one_file(arguments, Command::Draw)?;
    one_standard_input(arguments, Command::Draw)?;
    if let Some(name) = arguments.output.as_deref().filter(|name| is_other_picture(name)) {
        return Err(wrong(&format!("the picture is SVG; {name} is named as another kind"), Some(Command::Draw)));
    }
    let subject = subject(file, arguments)?;
    let path = path(&subject, arguments)?;
    let states = subject.book.states();
    if path.is_none() && states > MOST_STATES && !arguments.whole {
        let states = count(states, "state");
        let finding = first_finding(&subject)?.map_or(String::new(), |which| {
            format!("\n    the path to a finding: policybook draw --finding {which} {file}")
        });
        return Err(Failure::of_use(format!(
            "{file}: its book has {states}, too many for one picture that can be read (at most {MOST_STATES})\n    \
             the page shows them all: policybook page {file}\n    \
             the path of some steps: policybook draw --after 'STEPS' {file}{finding}\n    \
             all the same, on a large sheet: policybook draw --whole {file}"
        )));
    }
    let title = Path::new(file).file_name().map_or(file.into(), |name| name.to_string_lossy());
    let options = Options { title: &title, events: !arguments.no_events, path: path.as_deref() };
    let output = picture(&subject.book, &subject.names, &options).into_bytes();
    Ok(Answer { output, binary: true, ..Answer::default() })
}

/// Whether a file is named as a picture of another kind.
fn is_other_picture(name: &str) -> bool {
    let ending = Path::new(name).extension().map(|ending| ending.to_string_lossy().to_lowercase());
    ending.is_some_and(|ending| ["gif", "jpeg", "jpg", "pdf", "png", "webp"].contains(&ending.as_str()))
}

/// The history to draw, if one is asked for.
fn path(subject: &Subject, arguments: &Arguments) -> Result<Option<Vec<u8>>, Failure> {
    match (&arguments.finding, &arguments.after) {
        (None, None) => Ok(None),
        (Some(_), Some(_)) => Err(wrong("either `--finding` or `--after` is given, not both", Some(Command::Draw))),
        (None, Some(steps)) => {
            let words: Vec<String> = match steps.strip_prefix("state ") {
                Some(number) => vec!["state".to_string(), number.trim().to_string()],
                None => vec![steps.clone()],
            };
            let steps = steps_of(subject, &words, Command::Draw)?;
            walk(subject, &steps)?;
            Ok(Some(steps))
        }
        (Some(which), None) => finding_path(subject, which).map(Some),
    }
}

/// The word for the first finding that there is.
fn first_finding(subject: &Subject) -> Result<Option<&'static str>, Failure> {
    let findings = subject.findings()?;
    let words = [("conflict", findings.conflict), ("missing", findings.missing), ("blocked", findings.blocked)];
    Ok(words.into_iter().find(|(_, finding)| finding.is_some()).map(|(word, _)| word))
}

fn finding_path(subject: &Subject, which: &str) -> Result<Vec<u8>, Failure> {
    let file = &subject.document.name;
    let findings = subject.findings()?;
    let finding = match which {
        "conflict" => findings.conflict,
        "missing" => findings.missing,
        "blocked" => findings.blocked,
        _ => {
            return Err(wrong(
                &format!("a finding is conflict, missing or blocked; found `{which}`"),
                Some(Command::Draw),
            ))
        }
    };
    match finding {
        Some(finding) => Ok(finding.history),
        None => Err(Failure::of_use(format!("{file}: there is no finding `{which}` to draw"))),
    }
}
