//! `check`: the findings on policies and books in words, the rules that can be
//! left out without changing the book, and what may have been forgotten.

use std::collections::BTreeSet;

use super::{count, given, history_json, one_standard_input, request_json, Answer, Command};
use crate::arguments::{wrong, Arguments};
use crate::book::Outcome;
use crate::draw::cover;
use crate::explain::{deciding_rules, first_fork, idle, remarks, situation, Deciding, Idle};
use crate::input::{read, Failure, Given, Subject};
use crate::json::Json;
use crate::library::{self, Finding, Findings};
use crate::names::Names;
use crate::notation::{quoted, rule_words};
use crate::policy::Policy;
use crate::refusal::rule_place;

pub fn check(arguments: &Arguments) -> Result<Answer, Failure> {
    if arguments.words.is_empty() {
        return Err(wrong("no file is named", Some(Command::Check)));
    }
    one_standard_input(arguments, Command::Check)?;
    let given = given(arguments)?;
    let mut answer = Answer::default();
    let (mut words, mut values) = (String::new(), Vec::new());
    for file in &arguments.words {
        match check_file(file, given.as_ref()) {
            Ok(checked) => {
                answer.status = answer.status.max(u8::from(checked.has_findings()));
                words.push_str(&checked.words());
                values.push(checked.json());
            }
            Err(failure) => {
                answer.status = 2;
                answer.notes.push(failure.message);
                values.push(failure.json);
            }
        }
    }
    answer.output = match arguments.json {
        true => format!("{}\n", Json::Object(vec![("files", Json::List(values))])).into_bytes(),
        false => words.into_bytes(),
    };
    Ok(answer)
}

/// A file with what was found.
struct Checked {
    subject: Subject,
    findings: Findings,
    /// The rules behind the conflict, if there is one and the file has rules.
    deciding: Option<Deciding>,
    /// The rules that can be left out, each by itself, from 0; and why.
    superfluous: Vec<(usize, Idle)>,
    /// Whether all of them can be left out together.
    together: bool,
    remarks: Vec<String>,
}

fn check_file(file: &str, given: Option<&Given>) -> Result<Checked, Failure> {
    let subject = read(file)?.subject(given)?;
    let findings = subject.findings()?;
    let mut checked =
        Checked { subject, findings, deciding: None, superfluous: Vec::new(), together: false, remarks: Vec::new() };
    let Some(policy) = &checked.subject.policy else {
        return Ok(checked);
    };
    if let Some(conflict) = &checked.findings.conflict {
        checked.deciding = Some(rules_of(&checked.subject, policy, conflict)?);
    }
    (checked.superfluous, checked.together) = superfluous_rules(policy, checked.subject.book.bytes());
    if !policy.rules.is_empty() {
        let names = &checked.subject.names;
        checked.remarks = remarks(policy, |event| names.event(event), |variable| quoted(&names.variables[variable]));
    }
    Ok(checked)
}

/// The rules that accept and reject the request of a conflict. Some of each must
/// be found, or the tool is wrong.
fn rules_of(subject: &Subject, policy: &Policy, conflict: &Finding) -> Result<Deciding, Failure> {
    let deciding = deciding_rules(policy, &situation(policy, &conflict.history), conflict.request);
    match deciding.accepting.is_empty() || deciding.rejecting.is_empty() {
        true => Err(Failure::of_use(format!(
            "{}: an error of this tool: the library finds a conflict, and the tool not its rules; please report it with the file",
            subject.document.name
        ))),
        false => Ok(deciding),
    }
}

/// The rules without which the book is the same byte for byte.
fn superfluous_rules(policy: &Policy, book: &[u8]) -> (Vec<(usize, Idle)>, bool) {
    let same_without = |rules: &[usize]| {
        library::build(&policy.without(rules).encode()).is_ok_and(|other| library::same_bytes(&other, book))
    };
    let alone: Vec<usize> = (0..policy.rules.len()).filter(|&rule| same_without(&[rule])).collect();
    let together = alone.len() > 1 && same_without(&alone);
    (alone.into_iter().map(|rule| (rule, idle(policy, rule))).collect(), together)
}

impl Checked {
    fn has_findings(&self) -> bool {
        let Findings { conflict, missing, blocked } = &self.findings;
        conflict.is_some() || missing.is_some() || blocked.is_some()
    }

    fn words(&self) -> String {
        let names = &self.subject.names;
        let mut lines = vec![self.headline()];
        if let Some(finding) = &self.findings.conflict {
            lines.push(format!("  conflict: {}", of_request(names, finding, Outcome::Both)));
            if let Some(deciding) = &self.deciding {
                lines.push(format!("            {}", self.deciding_words(deciding)));
                lines.extend(self.fork_words(finding, deciding));
            }
            lines.extend(self.further(finding.request, Outcome::Both));
        }
        if let Some(finding) = &self.findings.missing {
            lines.push(format!("  missing:  {}", of_request(names, finding, Outcome::Unanswered)));
            lines.extend(self.further(finding.request, Outcome::Unanswered));
        }
        if let Some(finding) = &self.findings.blocked {
            lines.push(format!("  blocked:  {}", blocked_words(names, finding)));
        }
        if !self.has_findings() {
            lines.push("  no findings: after every history each request is either accepted or rejected".to_string());
        }
        lines.extend(self.superfluous_words());
        lines.extend(self.remarks.iter().map(|remark| format!("  note: {remark}")));
        lines.join("\n") + "\n"
    }

    fn headline(&self) -> String {
        let states = count(self.subject.book.states(), "state");
        match &self.subject.policy {
            Some(policy) => {
                format!("{}: {}, a book of {states}", self.subject.document.name, count(policy.rules.len(), "rule"))
            }
            None => format!("{}: a book of {states}", self.subject.document.name),
        }
    }

    /// The other requests that have an outcome after some history.
    fn further(&self, but: usize, outcome: Outcome) -> Option<String> {
        let book = &self.subject.book;
        let states = book.reached();
        let somewhere =
            |&request: &usize| request != but && states.iter().any(|&state| book.outcome(state, request) == outcome);
        let requests: Vec<usize> = (0..book.frame().requests()).filter(somewhere).collect();
        let products = cover::cover(book.frame(), &requests);
        let words: Vec<String> = products.iter().map(|product| cover::words(&self.subject.names, product)).collect();
        (!words.is_empty()).then(|| format!("            and after some history: {}", words.join("; ")))
    }

    /// Which rules accept, and which reject.
    fn deciding_words(&self, deciding: &Deciding) -> String {
        let side = |rules: &BTreeSet<usize>, verb: &str| {
            let places: Vec<String> =
                rules.iter().map(|&rule| rule_place(rule, self.subject.document.rule_lines())).collect();
            let ending = if places.len() == 1 { "s" } else { "" };
            format!("{} {verb}{ending}", places.join(" and "))
        };
        format!("{}; {}", side(&deciding.accepting, "accept"), side(&deciding.rejecting, "reject"))
    }

    /// Where no single valuation has both answers: at which step it became open which
    /// rule was carried out.
    fn fork_words(&self, finding: &Finding, deciding: &Deciding) -> Option<String> {
        let policy = self.subject.policy.as_ref().filter(|_| !deciding.at_once)?;
        let (number, rules) = first_fork(policy, &finding.history)?;
        let lines = self.subject.document.rule_lines();
        let places: Vec<String> = rules.iter().map(|&rule| rule_place(rule, lines)).collect();
        let step = self.subject.names.step(usize::from(finding.history[number]));
        let how = "fit and change differently, so that it is open which was carried out";
        Some(format!("            depending on step {}, {step}: {} {how}", number + 1, places.join(" and ")))
    }

    fn superfluous_words(&self) -> Vec<String> {
        let Some(policy) = &self.subject.policy else {
            return Vec::new();
        };
        let mut lines: Vec<String> = self
            .superfluous
            .iter()
            .map(|&(rule, why)| {
                let why = match why {
                    Idle::Tests => "never applies, since its tests are never true",
                    Idle::Level => "never applies, since a rule of a greater level always goes before it",
                    Idle::Others => "can be left out without changing the book",
                };
                let place = rule_place(rule, self.subject.document.rule_lines());
                format!("  {place} {why}: {}", rule_words(&policy.rules[rule], &self.subject.names))
            })
            .collect();
        if lines.len() > 1 {
            let how = if self.together { "also all together" } else { "each by itself, but not all together" };
            lines.push(format!("  these can be left out {how}"));
        }
        lines
    }

    fn json(&self) -> Json {
        let names = &self.subject.names;
        let lines = self.subject.document.rule_lines();
        let members = |rule: usize| vec![("rule", (rule + 1).into()), ("line", lines.map(|lines| lines[rule]).into())];
        let rule = |&rule: &usize| Json::Object(members(rule));
        let idle_rule = |&(rule, why): &(usize, Idle)| {
            let mut members: Vec<(&str, Json)> = members(rule);
            members.push(("why", idle_word(why).into()));
            Json::Object(members)
        };
        let finding = |finding: &Option<Finding>, with_request: bool, rules: Option<&Deciding>| {
            finding.as_ref().map_or(Json::Null, |finding| {
                let request = with_request.then(|| ("request", request_json(names, finding.request)));
                let mut members: Vec<(&str, Json)> = request.into_iter().collect();
                members.push(("history", history_json(names, &finding.history)));
                if let Some(rules) = rules {
                    members.push(("accepting", rules.accepting.iter().map(rule).collect()));
                    members.push(("rejecting", rules.rejecting.iter().map(rule).collect()));
                }
                Json::Object(members)
            })
        };
        Json::Object(vec![
            ("file", self.subject.document.name.as_str().into()),
            ("kind", self.subject.document.kind.word().into()),
            ("rules", self.subject.policy.as_ref().map(|policy| policy.rules.len()).into()),
            ("states", self.subject.book.states().into()),
            ("conflict", finding(&self.findings.conflict, true, self.deciding.as_ref())),
            ("missing", finding(&self.findings.missing, true, None)),
            ("blocked", finding(&self.findings.blocked, false, None)),
            ("superfluous", self.superfluous.iter().map(idle_rule).collect()),
            ("superfluous_together", self.together.into()),
            ("notes", self.remarks.iter().cloned().collect()),
        ])
    }
}

fn idle_word(why: Idle) -> &'static str {
    match why {
        Idle::Tests => "tests",
        Idle::Level => "level",
        Idle::Others => "others",
    }
}

fn of_request(names: &Names, finding: &Finding, outcome: Outcome) -> String {
    format!("{}: {} {}", first_after(names, &finding.history), names.request(finding.request), outcome.words())
}

/// When a finding holds for the first time.
fn first_after(names: &Names, history: &[u8]) -> String {
    match history {
        [] => "already at the start".to_string(),
        _ => format!("first after {}", names.history(history)),
    }
}

fn blocked_words(names: &Names, finding: &Finding) -> String {
    match finding.history.is_empty() {
        true => "from the start: no request is ever answered".to_string(),
        false => {
            format!("{}: no request is answered any more, whatever events follow", first_after(names, &finding.history))
        }
    }
}
