//! The statements that declare events, fields and variables, say what events
//! change, and name the version; `rule` stands in `rules.rs`.

use super::hints::{closest, did_you_mean_word};
use super::parse::Parser;
use super::token::{list, quoted, Kind, Token};
use super::Mistake;
use crate::frame::{MOST_EVENTS, MOST_FIELDS, MOST_REQUESTS, MOST_VALUES};
use crate::names::Field;
use crate::policy::{Change, MOST_NUMBER, MOST_VARIABLES};

/// The words with which statements begin.
const STATEMENTS: [&str; 6] = ["events", "field", "variables", "rule", "on", "version"];

/// What a statement is about.
#[derive(Clone, Copy, Debug, PartialEq, Eq)]
pub enum Item {
    Version,
    Events,
    Field(usize),
    Variables,
    Rule(usize),
    Event(usize),
    End,
}

impl Parser {
    /// Reads one statement.
    pub fn statement(&mut self) -> Result<Item, Mistake> {
        let token = self.peek().clone();
        let Some(which) = STATEMENTS.iter().find(|word| token.is(word)) else {
            return Err(self.statement_expected());
        };
        self.take();
        match *which {
            "events" => self.events(),
            "field" => self.field(),
            "variables" => self.variables(),
            "rule" => self.rule(&token),
            "on" => self.on(),
            _ => self.file_version(&token),
        }
    }

    /// What was expected where no statement begins. On the line of the one before
    /// it, a comma may be missing, or a part stands too late.
    fn statement_expected(&self) -> Mistake {
        let found = self.peek();
        if !self.goes_on() {
            let why = match found.text.starts_with('/') {
                true => "`#` begins a comment".to_string(),
                false => did_you_mean_word(&found.text, &STATEMENTS),
            };
            return self.expected_since("`events`, `field`, `variables`, `rule` or `on`", &why);
        }
        let names = found.kind == Kind::Name && self.last().is_some_and(|last| last.kind == Kind::Name);
        let why = match found.text.as_str() {
            "when" | "if" => "`when` and its tests stand before the decision",
            "/" => "`#` begins a comment",
            "=" => "where a variable begins is said as `copies from 2`",
            _ if names => "a name of several words stands in quotes",
            _ => "",
        };
        self.expected_since("`,` or the next statement", why)
    }

    fn events(&mut self) -> Result<Item, Mistake> {
        loop {
            let name = self.name("an event's name")?;
            if self.names.events.len() == MOST_EVENTS {
                return Err(name.mistake(format!("expected at most {MOST_EVENTS} events; this is one more")));
            }
            self.not_among(&name, &self.names.events, "an event")?;
            for field in &self.names.fields {
                self.not_among(&name, &field.values, &format!("a value of the field {}", quoted(&field.name)))?;
            }
            self.names.events.push(name.text);
            if !self.take_if(",") {
                return Ok(Item::Events);
            }
        }
    }

    fn field(&mut self) -> Result<Item, Mistake> {
        let name = self.name("the field's name")?;
        let fields = self.names.fields.len();
        if !self.rules.is_empty() {
            return Err(
                name.mistake("expected no further field: fields are declared before the first rule".to_string())
            );
        }
        if fields == MOST_FIELDS {
            return Err(name.mistake(format!("expected at most {MOST_FIELDS} fields; this is one more")));
        }
        let declared: Vec<String> = self.names.fields.iter().map(|field| field.name.clone()).collect();
        self.not_among(&name, &declared, "a field")?;
        if !self.take_if("=") {
            return Err(self.expected("`=` and the names of the field's values"));
        }
        let values = self.values_of_field(&name)?;
        self.names.fields.push(Field { name: name.text.clone(), values });
        let counts = self.names.frame().counts;
        let requests: usize = counts.iter().product();
        if requests > MOST_REQUESTS {
            let factors: Vec<String> = counts.iter().map(usize::to_string).collect();
            let product = factors.join(" × ");
            return Err(name.mistake(format!(
                "expected at most {MOST_REQUESTS} requests; with this field there are {product} = {requests}"
            )));
        }
        Ok(Item::Field(fields))
    }

    fn values_of_field(&mut self, field: &Token) -> Result<Vec<String>, Mistake> {
        let mut values = Vec::new();
        loop {
            let name = self.name(&format!("a value of the field {}", quoted(&field.text)))?;
            if values.len() == MOST_VALUES {
                return Err(name.mistake(format!("expected at most {MOST_VALUES} values of a field; this is one more")));
            }
            self.not_among(&name, &values, "a value of this field")?;
            self.not_among(&name, &self.names.events, "an event")?;
            values.push(name.text);
            if !self.take_if(",") {
                return Ok(values);
            }
        }
    }

    fn variables(&mut self) -> Result<Item, Mistake> {
        loop {
            let name = self.name("a variable's name")?;
            if self.names.variables.len() == MOST_VARIABLES {
                return Err(name.mistake(format!("expected at most {MOST_VARIABLES} variables; this is one more")));
            }
            self.not_among(&name, &self.names.variables, "a variable")?;
            self.names.variables.push(name.text);
            let from = self.peek().clone();
            let start = match self.take_if("from") {
                true if self.version == Some(1) => {
                    return Err(from.mistake(
                        "expected no starting value, since the text says `version 1`; leave one of the two out"
                            .to_string(),
                    ));
                }
                true => Some(self.number(0, MOST_NUMBER)?),
                false => None,
            };
            self.starts.push(start);
            if !self.take_if(",") {
                return Ok(Item::Variables);
            }
        }
    }

    fn file_version(&mut self, keyword: &Token) -> Result<Item, Mistake> {
        let version = match self.peek().kind {
            Kind::Number(1 | 2) => self.number(1, 2)?,
            _ => return Err(self.expected("`1` or `2`")),
        };
        if self.version.is_some() {
            return Err(keyword.mistake("expected the version once; it has been said before".to_string()));
        }
        if version == 1 && self.starts.iter().any(Option::is_some) {
            return Err(keyword.mistake(
                "expected no `version 1`, since a variable above has a starting value, which version 1 has not"
                    .to_string(),
            ));
        }
        self.version = Some(version);
        Ok(Item::Version)
    }

    fn on(&mut self) -> Result<Item, Mistake> {
        let event = self.event()?;
        let mut changes = vec![Change::Nothing; self.names.variables.len()];
        let mut changed = Vec::new();
        loop {
            let found = self.peek();
            let why = match found.text.as_str() {
                "," => "each event has its own `on`",
                "when" => "an event always changes the same; tests stand in rules",
                "accept" | "reject" => "an event changes variables; decisions stand in rules",
                _ => "",
            };
            if found.kind != Kind::Name && !why.is_empty() {
                return Err(self.expected_since("a change", why));
            }
            let variable = self.change(&mut changes, "")?;
            changed.push((variable, changes[variable]));
            if !self.take_if(",") {
                self.changes.push((event, changed));
                return Ok(Item::Event(event));
            }
        }
    }

    /// The event of an `on` statement.
    fn event(&mut self) -> Result<usize, Mistake> {
        if self.names.events.is_empty() {
            return Err(self.expected_since("an event", "none is declared before this"));
        }
        let what = format!("an event ({})", list(&self.names.events));
        let name = self.name(&what)?;
        let Some(event) = self.names.events.iter().position(|event| *event == name.text) else {
            let why = closest(&name.text, &self.names.events);
            return Err(name.mistake(format!("expected {what}, found {}{why}", name.shown())));
        };
        match self.changes.iter().any(|(other, _)| *other == event) {
            true => Err(name.mistake(format!(
                "expected one `on` for an event; what {} changes has been said before",
                name.shown()
            ))),
            false => Ok(event),
        }
    }

    /// That a name is not yet taken.
    fn not_among(&self, name: &Token, taken: &[String], by: &str) -> Result<(), Mistake> {
        match taken.contains(&name.text) {
            true => Err(name.mistake(format!("expected another name: {} is {by} already", name.shown()))),
            false => Ok(()),
        }
    }
}
