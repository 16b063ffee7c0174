//! Reading a text: its statements one after another, into a policy, its names and
//! its comments.

use super::statements::Item;
use super::token::{tokens, Comment, Kind, Token};
use super::Mistake;
use crate::names::Names;
use crate::policy::{Change, Policy, Rule};

/// The comments of a statement.
#[derive(Clone, Debug, Default)]
pub struct Notes {
    /// The lines before it, with their `#`; an empty one is a blank line.
    pub before: Vec<String>,
    /// The one behind it.
    pub behind: Option<String>,
}

/// What a text says.
#[derive(Clone, Debug)]
pub struct Text {
    pub policy: Policy,
    pub names: Names,
    /// The line on which each rule begins.
    pub rule_lines: Vec<usize>,
    /// The comments, with the statements that they belong to.
    pub notes: Vec<(Item, Notes)>,
}

/// What has been read so far.
pub struct Parser {
    tokens: Vec<Token>,
    at: usize,
    pub names: Names,
    /// Where each variable begins, if the text says so.
    pub starts: Vec<Option<u8>>,
    pub version: Option<u8>,
    pub rules: Vec<Rule>,
    pub rule_lines: Vec<usize>,
    /// For each event that has its statement, the changes.
    pub changes: Vec<(usize, Vec<(usize, Change)>)>,
}

/// Reads a text.
pub fn parse(text: &str) -> Result<Text, Mistake> {
    let (tokens, comments) = tokens(text);
    let mut parser = Parser {
        tokens,
        at: 0,
        names: Names::default(),
        starts: Vec::new(),
        version: None,
        rules: Vec::new(),
        rule_lines: Vec::new(),
        changes: Vec::new(),
    };
    let mut statements = Vec::new();
    while parser.peek().kind != Kind::End {
        let first = parser.peek().line;
        let item = parser.statement()?;
        statements.push((item, first, parser.last_line()));
    }
    let policy = parser.policy()?;
    Ok(Text {
        policy,
        names: parser.names,
        rule_lines: parser.rule_lines,
        notes: place_comments(&statements, comments),
    })
}

impl Parser {
    /// The next token. The last one, which is the end or no word at all, stays.
    pub fn peek(&self) -> &Token {
        &self.tokens[self.at.min(self.tokens.len() - 1)]
    }

    pub fn take(&mut self) -> Token {
        let token = self.peek().clone();
        self.at += 1;
        token
    }

    /// Goes back before the last token.
    pub fn put_back(&mut self) {
        self.at -= 1;
    }

    /// Takes the next token if it is this word or sign.
    pub fn take_if(&mut self, text: &str) -> bool {
        let found = self.peek().is(text);
        self.at += usize::from(found);
        found
    }

    fn last_line(&self) -> usize {
        self.tokens[self.at - 1].line
    }

    /// That something else was expected than the next token. Where a statement
    /// ends too soon, the mark stands behind it and not at the next statement.
    pub fn expected(&self, what: &str) -> Mistake {
        self.expected_since(what, "")
    }

    /// The same, with a word on why.
    pub fn expected_since(&self, what: &str, why: &str) -> Mistake {
        let found = self.peek();
        let why = match found.text.as_str() {
            "“" | "”" | "„" | "«" | "»" if found.kind == Kind::Sign => "names stand in straight quotes, \"\"",
            _ => why,
        };
        if let Kind::Bad(message) = &found.kind {
            return found.mistake(message.clone());
        }
        match self.last() {
            Some(before) if found.kind == Kind::End || is_statement(found) && found.line > before.line => Mistake {
                line: before.line,
                column: before.column + before.length,
                length: 1,
                message: with_reason(format!("expected {what}; the statement ends here"), why),
            },
            _ => found.mistake(with_reason(format!("expected {what}, found {}", found.shown()), why)),
        }
    }

    /// Whether the next token stands on the same line as the one before it.
    pub fn goes_on(&self) -> bool {
        self.at > 0 && self.peek().line == self.tokens[self.at - 1].line
    }

    /// The token behind the next one.
    pub fn after_next(&self) -> &Token {
        &self.tokens[(self.at + 1).min(self.tokens.len() - 1)]
    }

    /// The token before the next one.
    pub fn last(&self) -> Option<&Token> {
        self.at.checked_sub(1).map(|before| &self.tokens[before])
    }

    /// Takes a name.
    pub fn name(&mut self, what: &str) -> Result<Token, Mistake> {
        let token = self.peek();
        match token.kind {
            Kind::Name => Ok(self.take()),
            Kind::Reserved if !is_statement(token) || self.goes_on() => Err(token.mistake(format!(
                "expected {what}; `{0}` is a word of the notation, and as a name it is written \"{0}\"",
                token.text
            ))),
            Kind::Number(_) => Err(token
                .mistake(format!("expected {what}; a name of digits alone is written in quotes, \"{}\"", token.text))),
            _ => Err(self.expected(what)),
        }
    }

    /// Takes a number from `least` to `most`.
    pub fn number(&mut self, least: u8, most: u8) -> Result<u8, Mistake> {
        match self.peek().kind {
            Kind::Number(number) if number >= u32::from(least) && number <= u32::from(most) => {
                self.take();
                Ok(number as u8)
            }
            _ => Err(self.expected(&format!("a number from {least} to {most}"))),
        }
    }

    /// The policy that has been read, whole.
    fn policy(&mut self) -> Result<Policy, Mistake> {
        if self.names.fields.is_empty() {
            return Err(self.peek().mistake(
                "expected a field: a policy has at least one, as in `field action = open, copy`".to_string(),
            ));
        }
        let variables = self.names.variables.len();
        let says_starts = self.starts.iter().any(Option::is_some);
        for rule in &mut self.rules {
            rule.tests.resize(variables, Default::default());
            rule.changes.resize(variables, Change::Nothing);
        }
        let mut events = vec![vec![Change::Nothing; variables]; self.names.events.len()];
        for (event, changes) in &self.changes {
            for &(variable, change) in changes {
                events[*event][variable] = change;
            }
        }
        Ok(Policy {
            version: self.version.unwrap_or(if says_starts { 2 } else { 1 }),
            frame: self.names.frame(),
            starts: self.starts.iter().map(|start| start.unwrap_or(0)).collect(),
            rules: std::mem::take(&mut self.rules),
            events,
        })
    }
}

fn with_reason(message: String, why: &str) -> String {
    match why.is_empty() {
        true => message,
        false => format!("{message}: {why}"),
    }
}

/// Whether a token begins a statement.
pub fn is_statement(token: &Token) -> bool {
    token.kind == Kind::Reserved
        && ["events", "field", "on", "rule", "variables", "version"].contains(&token.text.as_str())
}

/// Gives each comment to the statement on whose last line it stands, or else to
/// the next one; those after the last statement to the end.
fn place_comments(statements: &[(Item, usize, usize)], comments: Vec<Comment>) -> Vec<(Item, Notes)> {
    let mut placed: Vec<(Item, Notes)> = Vec::new();
    for comment in comments {
        let statement = statements.iter().find(|(_, _, last)| comment.line <= *last);
        let (item, behind) = match statement {
            Some((item, _, last)) => (*item, comment.line == *last),
            None => (Item::End, false),
        };
        let place = match placed.iter().position(|(other, _)| *other == item) {
            Some(place) => place,
            None => {
                placed.push((item, Notes::default()));
                placed.len() - 1
            }
        };
        let notes = &mut placed[place].1;
        if behind && comment.text.is_empty() {
            continue;
        }
        if behind && notes.behind.is_none() {
            notes.behind = Some(comment.text);
            continue;
        }
        if comment.blank_before {
            notes.before.push(String::new());
        }
        notes.before.push(format!("# {}", comment.text).trim_end().to_string());
        if comment.blank_after {
            notes.before.push(String::new());
        }
    }
    placed
}
