//! The statement `rule`: for whom and what, when, the decision, and what changes.

use super::hints::{closest, did_you_mean_word, of_other_field};
use super::parse::Parser;
use super::statements::Item;
use super::token::{list, quoted, Kind, Token};
use super::Mistake;
use crate::policy::{Change, Rule, Test, MOST_NUMBER, MOST_RULES};

impl Parser {
    pub fn rule(&mut self, keyword: &Token) -> Result<Item, Mistake> {
        let number = self.rules.len();
        if self.names.fields.is_empty() {
            let message = "expected a field before the first rule, as in `field action = open, copy`";
            return Err(keyword.mistake(message.to_string()));
        }
        if number == MOST_RULES {
            return Err(keyword.mistake(format!("expected at most {MOST_RULES} rules; this is one more")));
        }
        let masks = self.masks()?;
        let mut tests = vec![Test::default(); self.names.variables.len()];
        if self.take_if("when") {
            loop {
                self.test(&mut tests)?;
                if !self.take_if("and") {
                    break;
                }
            }
        }
        let accepts = self.decision(&tests)?;
        let (level, changes) = self.level_and_changes()?;
        self.rules.push(Rule { masks, accepts, level, tests, changes });
        self.rule_lines.push(keyword.line);
        Ok(Item::Rule(number))
    }

    /// For each field, the values that a rule is for.
    fn masks(&mut self) -> Result<Vec<u16>, Mistake> {
        let mut masks = Vec::new();
        for field in 0..self.names.fields.len() {
            if field > 0 && !self.take_if(",") {
                return Err(self.next_field_expected(field));
            }
            masks.push(self.mask(field)?);
        }
        if self.peek().is(",") {
            let names: Vec<String> = self.names.fields.iter().map(|field| quoted(&field.name)).collect();
            let fields = match names.len() {
                1 => "the policy has one field".to_string(),
                number => format!("the policy has {number} fields"),
            };
            return Err(self.expected_since("`when`, `accept` or `reject`", &format!("{fields}, {}", names.join(", "))));
        }
        Ok(masks)
    }

    /// That the part of a field does not begin where it should.
    fn next_field_expected(&self, field: usize) -> Mistake {
        let found = self.peek();
        let is_value = found.kind == Kind::Name && self.names.fields[field].values.contains(&found.text);
        if is_value || found.is("any") {
            let [before, after] = [field - 1, field].map(|field| quoted(&self.names.fields[field].name));
            return self.expected(&format!("`,` between {before} and {after}"));
        }
        let or = if self.last().is_some_and(|last| last.is("any")) { "" } else { "`or`, or " };
        let what = format!("{or}`,` and {}", self.values_expected(field));
        self.expected_since(&what, self.and_for_or())
    }

    fn mask(&mut self, field: usize) -> Result<u16, Mistake> {
        if self.take_if("any") {
            return match self.peek().is("or") {
                true => Err(self.expected_since("no further value", "`any` is all of them")),
                false => Ok(((1u32 << self.names.fields[field].values.len()) - 1) as u16),
            };
        }
        let mut mask = 0;
        loop {
            if mask != 0 && self.peek().is("any") {
                return Err(self.expected_since("a single value", "`any` is all of them, and stands alone"));
            }
            let found = self.peek();
            if ["accept", "and", "reject", "when"].iter().any(|word| found.is(word)) {
                return Err(self.expected(&self.values_expected(field)));
            }
            let name = self.name(&self.values_expected(field))?;
            let values = &self.names.fields[field].values;
            let Some(value) = values.iter().position(|value| *value == name.text) else {
                self.put_back();
                let why = of_other_field(&self.names, field, &name.text);
                return Err(self.expected_since(&self.values_expected(field), &why));
            };
            if mask & 1 << value != 0 {
                return Err(name.mistake(format!("expected another value; {} is there twice", name.shown())));
            }
            mask |= 1 << value;
            if !self.take_if("or") {
                return Ok(mask);
            }
        }
    }

    fn values_expected(&self, field: usize) -> String {
        let field = &self.names.fields[field];
        format!("a value of the field {} ({}, or any)", quoted(&field.name), list(&field.values))
    }

    /// A variable; `or` says what else could stand there.
    fn variable(&mut self, or: &str) -> Result<(usize, Token), Mistake> {
        let token = self.peek().clone();
        let is_it = |variable: &String| token.kind == Kind::Name && *variable == token.text;
        if let Some(variable) = self.names.variables.iter().position(is_it) {
            return Ok((variable, self.take()));
        }
        let what = match self.names.variables.is_empty() {
            true => format!("{or}a variable"),
            false => format!("{or}a variable ({})", list(&self.names.variables)),
        };
        let is_event = token.kind == Kind::Name && self.names.events.contains(&token.text);
        let why = match token.kind {
            Kind::Number(_) => "the variable comes first, as in `copies < 2`".to_string(),
            _ if token.text == "not" => "that something is not so is tested as `vouched < 1`".to_string(),
            _ if is_event => format!("{} is an event, which a variable can count", token.shown()),
            _ if self.names.variables.is_empty() => "none is declared before this".to_string(),
            // a word of the notation, which as a name has quotes
            Kind::Reserved => return Err(self.name(&what).err().unwrap_or_else(|| self.expected(&what))),
            _ => closest(&token.text, &self.names.variables).trim_start_matches(": ").to_string(),
        };
        Err(self.expected_since(&what, &why))
    }

    fn test(&mut self, tests: &mut [Test]) -> Result<(), Mistake> {
        let (variable, name) = self.variable("")?;
        let sign = self.peek().clone();
        let (below, word) = match sign.text.as_str() {
            "<" if sign.kind == Kind::Sign => (true, "<"),
            ">=" if sign.kind == Kind::Sign => (false, ">="),
            _ => return Err(self.comparison_expected(&name)),
        };
        self.take();
        if self.peek().kind == Kind::Number(0) {
            let always = if below { "never true" } else { "always true" };
            let why = format!("`{} {word} 0` is {always}", quoted(&name.text));
            return Err(self.expected_since(&format!("a number from 1 to {MOST_NUMBER}"), &why));
        }
        let number = self.number(1, MOST_NUMBER)?;
        let place = if below { &mut tests[variable].below } else { &mut tests[variable].at_least };
        if *place != 0 {
            return Err(sign.mistake(format!(
                "expected another test; {} is compared by `{word}` before in this rule",
                name.shown()
            )));
        }
        *place = number;
        Ok(())
    }

    /// What to write for a comparison that the notation has not.
    fn comparison_expected(&mut self, name: &Token) -> Mistake {
        let variable = quoted(&name.text);
        if self.peek().kind != Kind::Sign {
            return self.expected_since("`<` or `>=`", &format!("a test is written as `{variable} >= 1`"));
        }
        let mistake = self.expected("`<` or `>=`");
        let sign = self.take();
        let Kind::Number(number) = self.peek().kind else {
            return mistake;
        };
        let next = number.saturating_add(1);
        let (at_least, below) = match sign.text.as_str() {
            ">" => (Some(next), None),
            "≥" => (Some(number), None),
            "<=" | "≤" => (None, Some(next)),
            "=" | "==" => (Some(number).filter(|&number| number > 0), Some(next)),
            _ => return mistake,
        };
        let allowed = |number: u32| number >= 1 && number <= u32::from(MOST_NUMBER);
        let why = match [at_least, below].into_iter().flatten().all(allowed) {
            false => format!("the number of a test is 1 to {MOST_NUMBER}"),
            true => {
                let tests = [(">=", at_least), ("<", below)];
                let tests = tests
                    .iter()
                    .filter_map(|(sign, number)| number.map(|number| format!("{variable} {sign} {number}")));
                format!("write `{}`", tests.collect::<Vec<String>>().join(" and "))
            }
        };
        Mistake { message: format!("{}: {why}", mistake.message), ..mistake }
    }

    fn decision(&mut self, tests: &[Test]) -> Result<bool, Mistake> {
        if self.take_if("accept") {
            return Ok(true);
        }
        if self.take_if("reject") {
            return Ok(false);
        }
        let tested = tests.iter().any(|test| *test != Test::default());
        let after_any = self.last().is_some_and(|last| last.is("any"));
        let what = match (tested, after_any) {
            (true, _) => "`and`, `accept` or `reject`",
            (false, true) => "`when`, `accept` or `reject`",
            (false, false) => "`or`, `when`, `accept` or `reject`",
        };
        Err(self.expected_since(what, &self.instead_of_decision(tested)))
    }

    /// What may have been meant by a word that stands where the decision is expected.
    fn instead_of_decision(&self, tested: bool) -> String {
        let found = self.peek();
        let names = found.kind == Kind::Name && self.last().is_some_and(|last| last.kind == Kind::Name);
        let goes_on = ["when", "accept", "reject", "or"].iter().any(|word| self.after_next().is(word));
        let why = match found.text.as_str() {
            "or" if tested => "for `or` write two rules",
            "if" => "write `when`",
            "accepted" | "accepts" | "allow" | "allowed" | "grant" | "permit" | "permitted" => "write `accept`",
            "denied" | "deny" | "forbid" | "refuse" | "refused" | "rejected" | "rejects" => "write `reject`",
            "after" | "before" | "unless" | "until" => {
                "what has happened is kept in a variable, as in `when vouched >= 1`"
            }
            _ if names && goes_on => "a name of several words stands in quotes",
            _ if found.kind == Kind::Name => return did_you_mean_word(&found.text, &["accept", "reject", "when"]),
            _ => self.and_for_or(),
        };
        why.to_string()
    }

    /// A word on `and` where values are listed.
    fn and_for_or(&self) -> &'static str {
        match self.peek().is("and") {
            true => "values are joined by `or`",
            false => "",
        }
    }

    fn level_and_changes(&mut self) -> Result<(u8, Vec<Change>), Mistake> {
        let mut level = None;
        let mut changes = vec![Change::Nothing; self.names.variables.len()];
        while self.take_if(",") {
            let token = self.peek().clone();
            if self.take_if("level") {
                let number = self.number(0, 255)?;
                if level.replace(number).is_some() {
                    return Err(token.mistake("expected one level; it has been said before in this rule".to_string()));
                }
            } else {
                self.change(&mut changes, "`level` or ")?;
            }
        }
        Ok((level.unwrap_or(0), changes))
    }

    /// A change; which variable it is for.
    pub fn change(&mut self, changes: &mut [Change], or: &str) -> Result<usize, Mistake> {
        let (variable, name) = self.variable(or)?;
        let variable_name = quoted(&name.text);
        let (change, wanted) = if self.take_if("+") {
            (Change::AddOne, 1)
        } else if self.take_if("to") {
            (Change::SetToZero, 0)
        } else {
            return Err(self.expected(&format!("`{variable_name} + 1` or `{variable_name} to 0`")));
        };
        if self.peek().kind != Kind::Number(wanted) {
            let (what, why) =
                if wanted == 1 { ("+ 1", "a change adds one") } else { ("to 0", "a change sets to zero") };
            return Err(self.expected_since(&format!("`{variable_name} {what}`"), why));
        }
        self.take();
        if changes[variable] != Change::Nothing {
            return Err(name
                .mistake(format!("expected another variable; {} is changed before in this statement", name.shown())));
        }
        changes[variable] = change;
        Ok(variable)
    }
}
