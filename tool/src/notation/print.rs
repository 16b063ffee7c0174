//! Writing a policy as a text in its standard layout: declarations, rules, what
//! events change; one statement a line, in columns.

use super::parse::Notes;
use super::statements::Item;
use super::token::{list, quoted};
use crate::names::Names;
use crate::policy::{Change, Policy, Rule};

/// A longer part of a rule does not widen the column of the others.
const WIDEST_COLUMN: usize = 48;

/// The text of a policy under these names, with these comments.
pub fn print(policy: &Policy, names: &Names, notes: &[(Item, Notes)]) -> String {
    let mut page = Page { notes, text: String::new() };
    page.declarations(policy, names);
    page.rules(policy, names);
    page.events(policy, names);
    page.comments(Item::End);
    page.text.trim_end().to_string() + "\n"
}

struct Page<'a> {
    notes: &'a [(Item, Notes)],
    text: String,
}

impl Page<'_> {
    fn notes(&self, item: Item) -> Notes {
        let found = self.notes.iter().find(|(other, _)| *other == item);
        found.map(|(_, notes)| notes.clone()).unwrap_or_default()
    }

    /// The comments that stand before a statement.
    fn comments(&mut self, item: Item) {
        for line in self.notes(item).before {
            match line.is_empty() {
                true => self.blank_line(),
                false => self.text.push_str(&format!("{line}\n")),
            }
        }
    }

    /// A statement with its comments.
    fn statement(&mut self, item: Item, keyword: &str, rest: &str) {
        self.comments(item);
        self.text.push_str(&format!("{keyword:<9} {rest}"));
        if let Some(comment) = self.notes(item).behind {
            self.text.push_str(&format!("  # {comment}"));
        }
        self.text.push('\n');
    }

    /// A blank line, unless there is one or nothing stands before it.
    fn blank_line(&mut self) {
        if !self.text.is_empty() && !self.text.ends_with("\n\n") {
            self.text.push('\n');
        }
    }

    fn declarations(&mut self, policy: &Policy, names: &Names) {
        match policy.version == 2 && names.variables.is_empty() {
            true => self.statement(Item::Version, "version", "2"),
            false => self.version_comments(),
        }
        if !names.events.is_empty() {
            self.statement(Item::Events, "events", &list(&names.events));
        }
        let widest = names.fields.iter().map(|field| width(&quoted(&field.name))).max().unwrap_or(0);
        for (number, field) in names.fields.iter().enumerate() {
            let name = padded(&quoted(&field.name), widest);
            self.statement(Item::Field(number), "field", &format!("{name} = {}", list(&field.values)));
        }
        if !names.variables.is_empty() {
            let variables: Vec<String> = names
                .variables
                .iter()
                .zip(&policy.starts)
                .map(|(name, start)| match policy.version {
                    2 => format!("{} from {start}", quoted(name)),
                    _ => quoted(name),
                })
                .collect();
            self.statement(Item::Variables, "variables", &variables.join(", "));
        }
    }

    /// The comments of a statement that need not be written.
    fn version_comments(&mut self) {
        self.comments(Item::Version);
        if let Some(comment) = self.notes(Item::Version).behind {
            self.text.push_str(&format!("# {comment}\n"));
        }
    }

    fn rules(&mut self, policy: &Policy, names: &Names) {
        let parts: Vec<[String; 3]> = policy.rules.iter().map(|rule| rule_parts(rule, names)).collect();
        let column = |part: usize| {
            let widths = parts.iter().map(|parts| width(&parts[part]));
            widths.filter(|&width| width <= WIDEST_COLUMN).max().unwrap_or(0)
        };
        let (values, tests) = (column(0), column(1));
        for (number, [who, when, what]) in parts.iter().enumerate() {
            if number == 0 {
                self.blank_line();
            }
            let when = match tests == 0 && when.is_empty() {
                true => String::new(),
                false => padded(when, tests) + "  ",
            };
            self.statement(Item::Rule(number), "rule", &format!("{}  {when}{what}", padded(who, values)));
        }
    }

    fn events(&mut self, policy: &Policy, names: &Names) {
        let changing = |event: &usize| policy.events[*event].iter().any(|change| *change != Change::Nothing);
        let events: Vec<usize> = (0..policy.events.len()).filter(changing).collect();
        let widest = events.iter().map(|&event| width(&names.event(event))).max().unwrap_or(0);
        for (number, &event) in events.iter().enumerate() {
            if number == 0 {
                self.blank_line();
            }
            let changes = changes(&policy.events[event], names).join(", ");
            self.statement(Item::Event(event), "on", &format!("{}  {changes}", padded(&names.event(event), widest)));
        }
    }
}

/// A rule in one line, without the word `rule`.
pub fn rule_words(rule: &Rule, names: &Names) -> String {
    let [who, when, what] = rule_parts(rule, names);
    match when.is_empty() {
        true => format!("{who} {what}"),
        false => format!("{who} {when} {what}"),
    }
}

/// Whom a rule is for, when, and what it does.
fn rule_parts(rule: &Rule, names: &Names) -> [String; 3] {
    let who: Vec<String> =
        rule.masks.iter().zip(&names.fields).map(|(mask, field)| value_words(*mask, &field.values)).collect();
    let tests: Vec<String> = rule
        .tests
        .iter()
        .zip(&names.variables)
        .flat_map(|(test, name)| {
            let at_least = (test.at_least != 0).then(|| format!("{} >= {}", quoted(name), test.at_least));
            let below = (test.below != 0).then(|| format!("{} < {}", quoted(name), test.below));
            at_least.into_iter().chain(below)
        })
        .collect();
    let when = match tests.is_empty() {
        true => String::new(),
        false => format!("when {}", tests.join(" and ")),
    };
    let mut what = vec![if rule.accepts { "accept" } else { "reject" }.to_string()];
    if rule.level != 0 {
        what.push(format!("level {}", rule.level));
    }
    what.extend(changes(&rule.changes, names));
    [who.join(", "), when, what.join(", ")]
}

/// The values that a mask lets through.
pub fn value_words(mask: u16, names: &[String]) -> String {
    if u32::from(mask) == (1 << names.len()) - 1 {
        return "any".to_string();
    }
    let through = names.iter().enumerate().filter(|(value, _)| mask & 1 << value != 0);
    let through: Vec<String> = through.map(|(_, name)| quoted(name)).collect();
    through.join(" or ")
}

fn changes(changes: &[Change], names: &Names) -> Vec<String> {
    let pairs = changes.iter().zip(&names.variables);
    pairs
        .filter_map(|(change, name)| match change {
            Change::Nothing => None,
            Change::AddOne => Some(format!("{} + 1", quoted(name))),
            Change::SetToZero => Some(format!("{} to 0", quoted(name))),
        })
        .collect()
}

fn width(text: &str) -> usize {
    text.chars().count()
}

fn padded(text: &str, columns: usize) -> String {
    format!("{text:<columns$}")
}
