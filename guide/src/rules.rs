//! Policies written as tables of rules: making them, and printing them as Markdown.

use reference::frame::Frame;
use reference::policy::{Change, Policy, Rule, Test, Version};
use reference::words::Names;

/// A policy of one field, with names for its events, requests and variables.
#[derive(Clone)]
pub struct Table {
    /// The names of the events.
    pub events: Vec<&'static str>,
    /// The names of the requests, which are the values of the one field.
    pub requests: Vec<&'static str>,
    /// The names of the variables.
    pub variables: Vec<&'static str>,
    /// The policy.
    pub policy: Policy,
}

/// A rule for these requests, of level 0, without tests and changes.
pub fn rule(requests: &[usize], accepts: bool, variables: usize) -> Rule {
    Rule {
        masks: vec![requests.iter().map(|request| 1 << request).sum()],
        accepts,
        level: 0,
        tests: vec![Test::default(); variables],
        changes: vec![Change::Keep; variables],
    }
}

/// What a rule may ask and do besides, one after another.
pub trait Also {
    /// A test "variable ≥ number".
    fn from(self, variable: usize, number: u8) -> Self;
    /// A test "variable < number".
    fn below(self, variable: usize, number: u8) -> Self;
    /// Adds one to the variable.
    fn adding(self, variable: usize) -> Self;
    /// Another level.
    fn at_level(self, level: u8) -> Self;
}

impl Also for Rule {
    fn from(mut self, variable: usize, number: u8) -> Rule {
        self.tests[variable].at_least = Some(number);
        self
    }

    fn below(mut self, variable: usize, number: u8) -> Rule {
        self.tests[variable].below = Some(number);
        self
    }

    fn adding(mut self, variable: usize) -> Rule {
        self.changes[variable] = Change::AddOne;
        self
    }

    fn at_level(mut self, level: u8) -> Rule {
        self.level = level;
        self
    }
}

/// A table of these rules, in which every event makes the same change to every
/// variable.
pub fn table(
    events: &[&'static str],
    requests: &[&'static str],
    variables: &[&'static str],
    rules: Vec<Rule>,
    at_event: Change,
) -> Table {
    Table {
        events: events.to_vec(),
        requests: requests.to_vec(),
        variables: variables.to_vec(),
        policy: Policy {
            version: Version::One,
            frame: Frame {
                events: events.len(),
                counts: vec![requests.len()],
            },
            variables: variables.len(),
            starts: vec![0; variables.len()],
            rules,
            events: vec![vec![at_event; variables.len()]; events.len()],
        },
    }
}

impl Table {
    /// The same rules as a file of version 2, with a starting value for each variable.
    pub fn beginning_at(mut self, starts: &[u8]) -> Table {
        assert_eq!(starts.len(), self.variables.len());
        self.policy.version = Version::Two;
        self.policy.starts = starts.to_vec();
        self
    }

    /// The names of the events and requests.
    pub fn names(&self) -> Names {
        let names = [&self.events[..], &self.requests[..]].concat();
        Names::given(&self.policy.frame, &names).expect("a name for each event and request")
    }

    /// The rules as a Markdown table, a line for each event, and one for the
    /// starting values where the file carries them.
    pub fn markdown(&self) -> String {
        let mut text = match self.policy.rules.is_empty() {
            true => format!("No rules. The requests are {}.\n", self.requests.join(", ")),
            false => self.rules_in_rows(),
        };
        for (event, changes) in self.policy.events.iter().enumerate() {
            text.push_str(&format!(
                "\nAt {}: {}.\n",
                self.events[event],
                self.changed(changes)
            ));
        }
        if self.policy.version == Version::Two {
            text.push_str(&format!("\nAt the start: {}.\n", self.starts()));
        }
        text
    }

    fn rules_in_rows(&self) -> String {
        let mut text =
            "| rule | request | when | decision | level | change |\n|---|---|---|---|---|---|\n"
                .to_string();
        for (index, rule) in self.policy.rules.iter().enumerate() {
            text.push_str(&format!(
                "| {} | {} | {} | {} | {} | {} |\n",
                index + 1,
                self.requests_of(rule),
                self.when(rule),
                if rule.accepts { "accept" } else { "reject" },
                rule.level,
                self.changed(&rule.changes)
            ));
        }
        text
    }

    fn starts(&self) -> String {
        let starts = self.variables.iter().zip(&self.policy.starts);
        let parts: Vec<String> = starts
            .map(|(name, start)| format!("{name} = {start}"))
            .collect();
        parts.join(", ")
    }

    fn requests_of(&self, rule: &Rule) -> String {
        let let_through = |request: &usize| rule.masks[0] >> request & 1 == 1;
        let names: Vec<&str> = (0..self.requests.len())
            .filter(let_through)
            .map(|request| self.requests[request])
            .collect();
        names.join(", ")
    }

    fn when(&self, rule: &Rule) -> String {
        let mut tests = Vec::new();
        for (name, test) in self.variables.iter().zip(&rule.tests) {
            tests.extend(test.at_least.map(|number| format!("{name} ≥ {number}")));
            tests.extend(test.below.map(|number| format!("{name} < {number}")));
        }
        match tests.is_empty() {
            true => "always".to_string(),
            false => tests.join(" and "),
        }
    }

    fn changed(&self, changes: &[Change]) -> String {
        let parts: Vec<String> = self
            .variables
            .iter()
            .zip(changes)
            .filter_map(|(name, change)| match change {
                Change::Keep => None,
                Change::AddOne => Some(format!("{name} + 1")),
                Change::SetToZero => Some(format!("{name} to 0")),
            })
            .collect();
        match parts.is_empty() {
            true => "nothing changes".to_string(),
            false => parts.join(", "),
        }
    }
}
