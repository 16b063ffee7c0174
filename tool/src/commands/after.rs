//! `after`: what is possible next after some steps, where it leads, and by which
//! rules.

use std::collections::BTreeSet;

use super::{after_words, answer, one_standard_input, request_json, subject, Answer, Command};
use crate::arguments::{wrong, Arguments};
use crate::book::Outcome;
use crate::draw::cover;
use crate::explain::{deciding_rules, situation, Deciding};
use crate::frame::Step;
use crate::input::{Failure, Subject};
use crate::json::Json;
use crate::notation::{parse_steps, quoted};
use crate::refusal::rule_place;

pub fn after(arguments: &Arguments) -> Result<Answer, Failure> {
    one_standard_input(arguments, Command::After)?;
    let [file, words @ ..] = &arguments.words[..] else {
        return Err(wrong("no file is named", Some(Command::After)));
    };
    let subject = subject(file, arguments)?;
    let steps = steps_of(&subject, words, Command::After)?;
    let states = walk(&subject, &steps)?;
    let state = states.last().copied().unwrap_or(1);
    let words = Page::new(&subject, &steps, state).words(&steps);
    let json = json_of(&subject, &steps, &states, state);
    Ok(answer(arguments, 0, words, json))
}

/// The steps that words say, or those of the earliest history to a state.
pub fn steps_of(subject: &Subject, words: &[String], command: Command) -> Result<Vec<u8>, Failure> {
    match state_asked(subject, words) {
        Some(state) => history_to(subject, state),
        None => parse_steps(&subject.names, words).map_err(|message| wrong(&message, Some(command))),
    }
}

/// The state that the words `state 14` name, unless `state` is a name.
fn state_asked(subject: &Subject, words: &[String]) -> Option<usize> {
    match words {
        [word, number] if word == "state" && !subject.names.has(word) => number.parse().ok(),
        _ => None,
    }
}

/// The earliest history that leads to a state.
fn history_to(subject: &Subject, state: usize) -> Result<Vec<u8>, Failure> {
    let states = subject.book.states();
    if state == 0 || state > states {
        return Err(Failure::refused(
            &[&subject.document.name],
            16,
            format!("the state is {state}; there are 1 to {states}"),
        ));
    }
    subject
        .book
        .history_to(state)
        .ok_or_else(|| Failure::of_use(format!("{}: no history leads to state {state}", subject.document.name)))
}

/// The state after each step.
pub fn walk(subject: &Subject, steps: &[u8]) -> Result<Vec<usize>, Failure> {
    let (book, names) = (&subject.book, &subject.names);
    let mut states = Vec::new();
    let mut state = 1;
    for (number, &code) in steps.iter().enumerate() {
        let code = usize::from(code);
        state = book.next(state, code).ok_or_else(|| {
            let there = match book.frame().step(code) {
                Step::Event(_) => String::new(),
                Step::Decided { request, .. } => {
                    format!("; there {} {}", names.request(request), book.outcome(state, request).words())
                }
            };
            let (step, when) = (names.step(code), after_words(names, &steps[..number]));
            let place = format!("step {}, {step}, is not possible {when}{there}", number + 1);
            Failure::refused(&[&subject.document.name], 16, place)
        })?;
        states.push(state);
    }
    Ok(states)
}

/// What one request, or several alike, may come to: the outcome, where it leads,
/// and the rules.
#[derive(PartialEq, Eq, PartialOrd, Ord)]
struct Fate {
    outcome: Outcome,
    accepted: Option<usize>,
    rejected: Option<usize>,
    rules: Option<Deciding>,
}

/// What is said of a state.
struct Page<'a> {
    subject: &'a Subject,
    state: usize,
    /// For each request.
    fates: Vec<Fate>,
}

impl Page<'_> {
    fn new<'a>(subject: &'a Subject, steps: &[u8], state: usize) -> Page<'a> {
        let book = &subject.book;
        let situation = subject.policy.as_ref().map(|policy| (policy, situation(policy, steps)));
        let to = |request, accepted| book.next(state, book.frame().code(Step::Decided { request, accepted }));
        let fate = |request| Fate {
            outcome: book.outcome(state, request),
            accepted: to(request, true),
            rejected: to(request, false),
            rules: situation.as_ref().map(|(policy, situation)| deciding_rules(policy, situation, request)),
        };
        Page { subject, state, fates: (0..book.frame().requests()).map(fate).collect() }
    }

    fn words(&self, steps: &[u8]) -> String {
        let (book, names) = (&self.subject.book, &self.subject.names);
        let mut lines = vec![format!("{}: state {} of {}", after_words(names, steps), self.state, book.states())];
        lines.extend(self.counters(steps));
        let titles = [
            (Outcome::Accept, "accepted"),
            (Outcome::Reject, "rejected"),
            (Outcome::Both, "accepted or rejected (conflict)"),
            (Outcome::Unanswered, "unanswered"),
        ];
        let rows: Vec<(Outcome, [String; 3])> = titles.iter().flat_map(|(outcome, _)| self.rows(*outcome)).collect();
        let width = |column: usize| rows.iter().map(|(_, row)| row[column].chars().count()).max().unwrap_or(0);
        let widths = [width(0), width(1)];
        for (outcome, title) in titles {
            let mut own = rows.iter().filter(|(other, _)| *other == outcome).peekable();
            if own.peek().is_some() {
                lines.push(format!("  {title}:"));
            }
            lines.extend(own.map(|(_, [who, to, by])| {
                format!("    {who:<first$}  {to:<second$}  {by}", first = widths[0], second = widths[1])
                    .trim_end()
                    .to_string()
            }));
        }
        lines.extend(self.event_lines());
        lines.join("\n") + "\n"
    }

    /// What the variables have come to; several possibilities where it is open which
    /// rule was carried out.
    fn counters(&self, steps: &[u8]) -> Option<String> {
        let policy = self.subject.policy.as_ref().filter(|policy| !policy.starts.is_empty())?;
        let words = |valuation: &Vec<u8>| -> String {
            let values = self.subject.names.variables.iter().zip(valuation);
            values.map(|(name, value)| format!("{} {value}", quoted(name))).collect::<Vec<String>>().join(", ")
        };
        let valuations: Vec<String> = situation(policy, steps).iter().map(words).collect();
        Some(format!("  variables: {}", valuations.join("; or ")))
    }

    /// The requests with an outcome: alike ones together, where they lead, and the
    /// rules.
    fn rows(&self, outcome: Outcome) -> Vec<(Outcome, [String; 3])> {
        let kinds: BTreeSet<&Fate> = self.fates.iter().filter(|fate| fate.outcome == outcome).collect();
        let mut rows = Vec::new();
        for fate in kinds {
            let requests: Vec<usize> = (0..self.fates.len()).filter(|&request| self.fates[request] == *fate).collect();
            for product in cover::cover(self.subject.book.frame(), &requests) {
                let who = cover::words(&self.subject.names, &product);
                rows.push((outcome, [who, self.where_to(fate), self.by_rules(fate)]));
            }
        }
        rows
    }

    fn to_state(&self, to: usize) -> String {
        match to == self.state {
            true => "stays here".to_string(),
            false => format!("to state {to}"),
        }
    }

    fn where_to(&self, fate: &Fate) -> String {
        match (fate.accepted, fate.rejected) {
            (Some(accepted), Some(rejected)) => {
                format!("accepted {}, rejected {}", self.to_state(accepted), self.to_state(rejected))
            }
            (Some(to), None) | (None, Some(to)) => self.to_state(to),
            (None, None) => String::new(),
        }
    }

    fn by_rules(&self, fate: &Fate) -> String {
        let Some(rules) = &fate.rules else {
            return String::new();
        };
        let places = |rules: &BTreeSet<usize>| -> String {
            let lines = self.subject.document.rule_lines();
            rules.iter().map(|&rule| rule_place(rule, lines)).collect::<Vec<String>>().join(" or ")
        };
        let sides = [places(&rules.accepting), places(&rules.rejecting)];
        sides.into_iter().filter(|side| !side.is_empty()).collect::<Vec<String>>().join("; ")
    }

    fn event_lines(&self) -> Vec<String> {
        let (book, names) = (&self.subject.book, &self.subject.names);
        let events: Vec<String> = (0..book.frame().events).map(|event| names.event(event)).collect();
        let width = events.iter().map(|name| name.chars().count()).max().unwrap_or(0);
        let line = |(event, name): (usize, &String)| {
            let to = book.next(self.state, event).map_or(String::new(), |to| self.to_state(to));
            format!("    {name:<width$}  {to}")
        };
        let title = (!events.is_empty()).then(|| "  events:".to_string());
        title.into_iter().chain(events.iter().enumerate().map(line)).collect()
    }
}

fn json_of(subject: &Subject, steps: &[u8], states: &[usize], state: usize) -> Json {
    let (book, names) = (&subject.book, &subject.names);
    let step = |(&code, &to): (&u8, &usize)| {
        let code = usize::from(code);
        Json::Object(vec![("code", code.into()), ("name", names.step(code).into()), ("state", to.into())])
    };
    let to = |request, accepted| Json::from(book.next(state, book.frame().code(Step::Decided { request, accepted })));
    let request = |request: usize| {
        Json::Object(vec![
            ("request", request_json(names, request)),
            ("outcome", book.outcome(state, request).word().into()),
            ("accepted_to", to(request, true)),
            ("rejected_to", to(request, false)),
        ])
    };
    let event = |event: usize| {
        Json::Object(vec![
            ("event", event.into()),
            ("name", names.event(event).into()),
            ("state", book.next(state, event).into()),
        ])
    };
    Json::Object(vec![
        ("file", subject.document.name.as_str().into()),
        ("steps", steps.iter().zip(states).map(step).collect()),
        ("state", state.into()),
        ("states", book.states().into()),
        ("requests", (0..book.frame().requests()).map(request).collect()),
        ("events", (0..book.frame().events).map(event).collect()),
    ])
}
