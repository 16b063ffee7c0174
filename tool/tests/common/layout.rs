//! A policy as text in any layout and order that the notation allows. It is made
//! from what the reference reads, without the tool's own writer.

use super::named::is_plain;
use super::Random;
use policybook::names::Names;
use reference::policy::{Change, Policy, Rule, Version};

/// A text, the comments in it, and the line on which each rule begins.
pub struct Odd {
    pub text: String,
    pub comments: Vec<String>,
    pub rule_lines: Vec<usize>,
}

/// How many events, fields, variables and rules stand in a text.
type Counts = [usize; 4];
const EVENTS: usize = 0;
const FIELDS: usize = 1;
const VARIABLES: usize = 2;
const RULES: usize = 3;

/// The words of a statement, what must stand before it, and what it adds.
struct Statement {
    words: Vec<String>,
    needs: Counts,
    adds: Counts,
}

/// Writes the policy in some layout, its statements in some order.
pub fn odd_text(policy: &Policy, names: &Names, random: &mut Random) -> Odd {
    let mut left = Statements { policy, names, random }.all();
    let mut written: Counts = [0; 4];
    let mut odd = Odd { text: String::new(), comments: Vec::new(), rule_lines: Vec::new() };
    let mut gaps = Gaps::new(random);
    gaps.write(&mut odd, random);
    while !left.is_empty() {
        let is_ready = |place: &usize| {
            let needs: &Counts = &left[*place].needs;
            needs.iter().zip(&written).all(|(needs, written)| needs <= written)
        };
        let ready: Vec<usize> = (0..left.len()).filter(is_ready).collect();
        let next = left.remove(*random.pick(&ready));
        for (count, added) in written.iter_mut().zip(next.adds) {
            *count += added;
        }
        for (place, word) in next.words.iter().enumerate() {
            gaps.before(word, &mut odd, random);
            if place == 0 && word == "rule" {
                odd.rule_lines.push(odd.text.matches('\n').count() + 1);
            }
            odd.text.push_str(word);
        }
    }
    gaps.write(&mut odd, random);
    if random.chance(1, 2) {
        let ends = odd.text.trim_end_matches(['\r', '\n']).len();
        odd.text.truncate(ends);
    }
    odd
}

/// Makes the statements of a policy.
struct Statements<'a> {
    policy: &'a Policy,
    names: &'a Names,
    random: &'a mut Random,
}

impl Statements<'_> {
    fn all(&mut self) -> Vec<Statement> {
        let (policy, names) = (self.policy, self.names);
        let starts = policy.version == Version::Two;
        let says_starts = starts && (policy.starts.iter().any(|&start| start > 0) || self.random.chance(1, 2));
        let events: Vec<Vec<String>> = names.events.iter().map(|name| vec![self.name(name)]).collect();
        let variables: Vec<Vec<String>> = (names.variables.iter().zip(&policy.starts))
            .map(|(name, &start)| match says_starts && (start > 0 || self.random.chance(2, 3)) {
                true => vec![self.name(name), "from".into(), start.to_string()],
                false => vec![self.name(name)],
            })
            .collect();
        let needs_version = starts && !variables.iter().any(|words| words.len() > 1);
        let mut all = self.lists("events", EVENTS, &events);
        all.extend(self.lists("variables", VARIABLES, &variables));
        all.extend((0..names.fields.len()).map(|field| self.field(field)));
        all.extend(policy.rules.iter().enumerate().map(|(number, rule)| self.rule(number, rule)));
        all.extend((0..policy.events.len()).filter_map(|event| self.on(event)));
        if needs_version || self.random.chance(1, 4) {
            let number = if starts { "2" } else { "1" };
            all.push(Statement { words: vec!["version".into(), number.into()], needs: [0; 4], adds: [0; 4] });
        }
        all
    }

    /// A name, in quotes if it needs them, and now and then if it does not.
    fn name(&mut self, name: &str) -> String {
        match is_plain(name) && self.random.chance(7, 8) {
            true => name.to_string(),
            false => format!("\"{name}\""),
        }
    }

    /// A list of declarations, in one statement or several.
    fn lists(&mut self, keyword: &str, what: usize, parts: &[Vec<String>]) -> Vec<Statement> {
        let mut statements: Vec<Statement> = Vec::new();
        for (number, part) in parts.iter().enumerate() {
            match statements.last_mut() {
                Some(last) if self.random.chance(3, 4) => {
                    last.words.push(",".into());
                    last.words.extend(part.clone());
                    last.adds[what] += 1;
                }
                _ => {
                    let words = [&[keyword.to_string()][..], part].concat();
                    let (mut needs, mut adds) = ([0; 4], [0; 4]);
                    (needs[what], adds[what]) = (number, 1);
                    statements.push(Statement { words, needs, adds });
                }
            }
        }
        statements
    }

    fn field(&mut self, number: usize) -> Statement {
        let field = &self.names.fields[number];
        let values: Vec<Vec<String>> = field.values.iter().map(|name| vec![self.name(name)]).collect();
        let mut words = vec!["field".into(), self.name(&field.name), "=".into()];
        words.extend(values.join(&",".to_string()));
        Statement { words, needs: [0, number, 0, 0], adds: [0, 1, 0, 0] }
    }

    fn rule(&mut self, number: usize, rule: &Rule) -> Statement {
        let masks: Vec<Vec<String>> =
            (0..rule.masks.len()).map(|field| self.values(field, rule.masks[field])).collect();
        let mut words = vec!["rule".to_string()];
        words.extend(masks.join(&",".to_string()));
        let tests = self.tests(rule);
        if !tests.is_empty() {
            words.push("when".into());
            words.extend(tests.join(&"and".to_string()));
        }
        words.push(if rule.accepts { "accept" } else { "reject" }.into());
        let mut further = self.changes(&rule.changes);
        if rule.level > 0 || self.random.chance(1, 8) {
            further.push(vec!["level".into(), rule.level.to_string()]);
        }
        self.random.shuffle(&mut further);
        for part in further {
            words.push(",".into());
            words.extend(part);
        }
        let last =
            |variable: &usize| rule.changes[*variable] != Change::Keep || rule.tests[*variable] != Default::default();
        let variables = (0..rule.changes.len()).rev().find(last).map_or(0, |last| last + 1);
        let mut needs = [0; 4];
        (needs[FIELDS], needs[VARIABLES], needs[RULES]) = (rule.masks.len(), variables, number);
        Statement { words, needs, adds: [0, 0, 0, 1] }
    }

    /// The values of a mask in some order; all of them are often `any`.
    fn values(&mut self, field: usize, mask: u16) -> Vec<String> {
        let values = &self.names.fields[field].values;
        let mut through: Vec<usize> = (0..values.len()).filter(|value| mask >> value & 1 == 1).collect();
        if through.len() == values.len() && self.random.chance(3, 4) {
            return vec!["any".into()];
        }
        self.random.shuffle(&mut through);
        let through: Vec<Vec<String>> = through.iter().map(|&value| vec![self.name(&values[value])]).collect();
        through.join(&"or".to_string())
    }

    fn tests(&mut self, rule: &Rule) -> Vec<Vec<String>> {
        let mut tests = Vec::new();
        for (test, name) in rule.tests.iter().zip(&self.names.variables) {
            for (sign, number) in [(">=", test.at_least), ("<", test.below)] {
                if let Some(number) = number {
                    tests.push(vec![self.name(name), sign.into(), number.to_string()]);
                }
            }
        }
        self.random.shuffle(&mut tests);
        tests
    }

    fn changes(&mut self, changes: &[Change]) -> Vec<Vec<String>> {
        let mut words = Vec::new();
        for (change, name) in changes.iter().zip(&self.names.variables) {
            match change {
                Change::Keep => {}
                Change::AddOne => words.push(vec![self.name(name), "+".into(), "1".into()]),
                Change::SetToZero => words.push(vec![self.name(name), "to".into(), "0".into()]),
            }
        }
        words
    }

    fn on(&mut self, event: usize) -> Option<Statement> {
        let changes = &self.policy.events[event];
        let variables = changes.iter().rposition(|&change| change != Change::Keep)? + 1;
        let mut parts = self.changes(changes);
        self.random.shuffle(&mut parts);
        let mut words = vec!["on".into(), self.name(&self.names.events[event])];
        words.extend(parts.join(&",".to_string()));
        Some(Statement { words, needs: [event + 1, 0, variables, 0], adds: [0; 4] })
    }
}

/// What stands between words: blanks, line ends and comments.
struct Gaps {
    line_end: &'static str,
    /// How many gaps of 16 have a line end or a comment.
    broken: usize,
}

/// What a comment says after its number.
const COMMENTS: [&str; 7] = ["", ": \"quoted", " # twice", ", rule any accept", " é 館 🗝", " a  b", " \\ \t ' \u{301}"];

impl Gaps {
    fn new(random: &mut Random) -> Gaps {
        Gaps { line_end: if random.chance(1, 3) { "\r\n" } else { "\n" }, broken: random.between(1, 12) }
    }

    /// What stands before a word; between two words and numbers it is not empty.
    fn before(&mut self, word: &str, odd: &mut Odd, random: &mut Random) {
        let in_word = |letter: char| letter.is_alphanumeric() || "_-".contains(letter);
        let needed = odd.text.ends_with(in_word) && word.starts_with(in_word);
        if needed || random.chance(3, 4) {
            let before = odd.text.len();
            self.write(odd, random);
            if needed && odd.text.len() == before {
                odd.text.push(' ');
            }
        }
    }

    fn write(&mut self, odd: &mut Odd, random: &mut Random) {
        for _ in 0..random.below(3) {
            if !random.chance(self.broken, 16) {
                let blanks = *random.pick(&["", " ", " ", "   ", "\t"]);
                odd.text.push_str(blanks);
            } else if random.chance(1, 2) {
                odd.text.push_str(self.line_end);
            } else {
                self.comment(odd, random);
            }
        }
    }

    fn comment(&mut self, odd: &mut Odd, random: &mut Random) {
        let comment = match random.chance(1, 6) {
            true => String::new(),
            false => format!("note {}.{}", odd.comments.len(), random.pick(&COMMENTS)),
        };
        odd.text.push_str(&format!("{}{comment}{}", random.pick(&["#", "# ", "#\t"]), self.line_end));
        odd.comments.push(comment);
    }
}
