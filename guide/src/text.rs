//! Filling the guide's text: a line `{{what lesson}}`, or with an example of the
//! file room's, an exercise or files for the lesson, stands for what is computed.

use reference::findings::{findings, RequestFinding};
use reference::page::page;
use reference::words::Names;

use crate::exercises::{of_exercise, Exercise};
use crate::files::{book_of, earliest, mistaken_book, File};
use crate::inventory::of_inventory;
use crate::lessons::{Lesson, Mistaken};
use crate::pages::Example;
use crate::rules::Table;

const NOTE: &str =
    "<!-- Made by guide/make from guide/guide.md and the policies of guide/src/lessons.rs, guide/src/pages.rs, guide/src/exercises.rs and guide/src/inventory.rs. -->\n";

/// The guide's text with every place filled, or which line asks for nothing known.
pub fn filled(
    template: &str,
    lessons: &[Lesson],
    examples: &[Example],
    exercises: &[Exercise],
    files: &[File],
) -> Result<String, String> {
    let mut text = NOTE.to_string();
    for line in template.lines() {
        match line
            .strip_prefix("{{")
            .and_then(|rest| rest.strip_suffix("}}"))
        {
            None => text.push_str(line),
            Some(place) => {
                let part = part(place, lessons)
                    .or_else(|| of_example(place, examples))
                    .or_else(|| of_exercise(place, exercises))
                    .or_else(|| of_inventory(place, files))
                    .ok_or(format!("nothing is known of: {line}"))?;
                text.push_str(part.trim_end_matches('\n'));
            }
        }
        text.push('\n');
    }
    Ok(text)
}

fn part(place: &str, lessons: &[Lesson]) -> Option<String> {
    let (what, name) = place.split_once(' ')?;
    let lesson = lessons.iter().find(|lesson| lesson.name == name)?;
    Some(match what {
        "rules" => rules(name, &lesson.table),
        "mistaken-rules" => match &lesson.mistaken {
            Mistaken::Policy(table, _) => rules(&format!("{name}-mistaken"), table),
            Mistaken::Method(_) => return None,
        },
        "mended-rules" => rules(&format!("{name}-mended"), lesson.mended.as_ref()?),
        "findings" => findings_in_words(&lesson.table),
        "mended-findings" => findings_in_words(lesson.mended.as_ref()?),
        "picture" => picture(name),
        "mistaken-picture" => picture(&format!("{name}-mistaken")),
        "mended-picture" => picture(&format!("{name}-mended")),
        "page" => page(&book_of(&lesson.table)),
        "tried" => tried(lesson),
        "earliest" => earliest_in_words(lesson),
        _ => return None,
    })
}

/// What stands for an example of the file room's.
fn of_example(place: &str, examples: &[Example]) -> Option<String> {
    let (what, rest) = place.split_once(' ')?;
    let mut words = rest.split(' ');
    let name = words.next()?;
    let example = examples.iter().find(|example| example.name == name)?;
    Some(match what {
        "rules" => rules(name, &example.table),
        "picture" => picture(name),
        "page" => page(&example.book),
        "lines" => example.lines_in_words(),
        "walk" => {
            let codes: Option<Vec<u8>> = words.map(|code| code.parse().ok()).collect();
            example.walked_in_words(&codes?)
        }
        _ => return None,
    })
}

pub(crate) fn picture(name: &str) -> String {
    format!("![the book {name}](guide/{name}.svg)")
}

/// The table of rules, and the name of its file.
pub(crate) fn rules(name: &str, table: &Table) -> String {
    let markdown = table.markdown();
    format!("{markdown}\nAs a file: [{name}.policy](guide/{name}.policy).\n")
}

/// A sentence for each finding.
fn findings_in_words(table: &Table) -> String {
    let names = table.names();
    let found = findings(&book_of(table));
    let about = |word: &str, finding: &Option<RequestFinding>, what: &str| {
        finding.as_ref().map(|finding| {
            let request = names.request(finding.request);
            let when = when(&names, &finding.history);
            format!("- **{word}**: {when} the request *{request}* {what}.\n")
        })
    };
    let blocked = found.blocked.as_ref().map(|history| {
        let when = when(&names, history);
        match history.is_empty() {
            true => "- **blocked**: no request is ever answered.\n".to_string(),
            false => format!("- **blocked**: {when} no request is answered any more.\n"),
        }
    });
    let sentences = [
        about(
            "conflict",
            &found.conflict,
            "may be both accepted and rejected",
        ),
        about("missing", &found.missing, "is unanswered"),
        blocked,
    ];
    match sentences.iter().all(Option::is_none) {
        true => "- no finding: after every history every request is accepted or rejected, and never both.\n".to_string(),
        false => sentences.into_iter().flatten().collect(),
    }
}

fn when(names: &Names, history: &[u8]) -> String {
    match history.is_empty() {
        true => "already at the start".to_string(),
        false => format!("after {}", in_words(names, history)),
    }
}

/// The steps, and their codes.
pub(crate) fn in_words(names: &Names, history: &[u8]) -> String {
    let codes: Vec<String> = history.iter().map(|code| code.to_string()).collect();
    format!("*{}* (`{}`)", names.history(history), codes.join(" "))
}

/// The histories tried, each of them possible in both books.
fn tried(lesson: &Lesson) -> String {
    let names = lesson.table.names();
    let (one, other) = (book_of(&lesson.table), mistaken_book(lesson));
    let mut text = String::new();
    for history in &lesson.tried {
        assert!(one.allows(history) && other.allows(history));
        let steps = in_words(&names, history);
        text.push_str(&format!("- {steps}: possible under both.\n"));
    }
    text
}

fn earliest_in_words(lesson: &Lesson) -> String {
    let history = earliest(lesson);
    let allowed = book_of(&lesson.table).allows(&history);
    let [in_one, in_other] = match &lesson.mistaken {
        Mistaken::Policy(_, words) => *words,
        Mistaken::Method(_) => ["in the real book only", "in the mistaken book only"],
    };
    let whose = if allowed { in_one } else { in_other };
    format!(
        "The earliest history that shows it: {}, possible {whose}.",
        in_words(&lesson.table.names(), &history)
    )
}
