//! Which rules are behind what the library says of a policy: the policy's own
//! steps, as docs/MEANING.md defines them.

use std::collections::BTreeSet;

use crate::frame::Step;
use crate::policy::{Change, Policy, Rule};

/// The value of each variable.
type Valuation = Vec<u8>;

/// The rules that accept a request after a history, and those that reject it;
/// counted from 0.
#[derive(Clone, Debug, Default, PartialEq, Eq, PartialOrd, Ord)]
pub struct Deciding {
    pub accepting: BTreeSet<usize>,
    pub rejecting: BTreeSet<usize>,
    /// Whether in one and the same valuation some accept and some reject.
    pub at_once: bool,
}

/// Why a rule can be left out.
#[derive(Clone, Copy, Debug, PartialEq, Eq)]
pub enum Idle {
    /// Its tests are never true.
    Tests,
    /// Where it fits, a rule of a greater level does too.
    Level,
    /// It applies, but the others say the same without it.
    Others,
}

/// The situation that a history leads to.
pub fn situation(policy: &Policy, history: &[u8]) -> BTreeSet<Valuation> {
    let bounds = policy.bounds();
    let mut situation = BTreeSet::from([start(policy)]);
    for &code in history {
        let step = policy.frame.step(usize::from(code));
        situation = situation.iter().flat_map(|valuation| images(policy, &bounds, valuation, step)).collect();
    }
    situation
}

/// The first step of a history at which rules with the same decision applied that
/// change differently, so that it is open which was carried out: its number from 0,
/// and these rules.
pub fn first_fork(policy: &Policy, history: &[u8]) -> Option<(usize, BTreeSet<usize>)> {
    let bounds = policy.bounds();
    (0..history.len()).find_map(|number| {
        let Step::Decided { request, accepted } = policy.frame.step(usize::from(history[number])) else {
            return None;
        };
        let before = situation(policy, &history[..number]);
        let forks = before.iter().find_map(|valuation| {
            let decided = |&rule: &usize| policy.rules[rule].accepts == accepted;
            let rules: BTreeSet<usize> = applying(policy, valuation, request).into_iter().filter(decided).collect();
            let image = |&rule: &usize| changed(&bounds, valuation, &policy.rules[rule].changes);
            let images: BTreeSet<Valuation> = rules.iter().map(image).collect();
            (images.len() > 1).then_some(rules)
        });
        forks.map(|rules| (number, rules))
    })
}

/// The rules that apply to a request in some valuation of a situation.
pub fn deciding_rules(policy: &Policy, situation: &BTreeSet<Valuation>, request: usize) -> Deciding {
    let mut deciding = Deciding::default();
    for valuation in situation {
        let (accepting, rejecting): (BTreeSet<usize>, BTreeSet<usize>) =
            applying(policy, valuation, request).into_iter().partition(|&rule| policy.rules[rule].accepts);
        deciding.at_once |= !accepting.is_empty() && !rejecting.is_empty();
        deciding.accepting.extend(accepting);
        deciding.rejecting.extend(rejecting);
    }
    deciding
}

/// Why a rule without which the book is the same can be left out.
pub fn idle(policy: &Policy, rule: usize) -> Idle {
    let reached = reached(policy);
    let requests: Vec<usize> = (0..policy.frame.requests()).collect();
    let anywhere = |holds: &dyn Fn(&Valuation, usize) -> bool| {
        reached.iter().any(|valuation| requests.iter().any(|&request| holds(valuation, request)))
    };
    if !anywhere(&|valuation, request| fits(policy, &policy.rules[rule], valuation, request)) {
        return Idle::Tests;
    }
    match anywhere(&|valuation, request| applying(policy, valuation, request).contains(&rule)) {
        false => Idle::Level,
        true => Idle::Others,
    }
}

/// The valuations that are possible after some history.
fn reached(policy: &Policy) -> BTreeSet<Valuation> {
    let bounds = policy.bounds();
    let mut reached = BTreeSet::from([start(policy)]);
    let mut next = vec![start(policy)];
    while let Some(valuation) = next.pop() {
        for code in 0..policy.frame.width() {
            for image in images(policy, &bounds, &valuation, policy.frame.step(code)) {
                if reached.insert(image.clone()) {
                    next.push(image);
                }
            }
        }
    }
    reached
}

/// The valuation before the first step.
fn start(policy: &Policy) -> Valuation {
    policy.starts.iter().zip(policy.bounds()).map(|(&start, bound)| start.min(bound)).collect()
}

/// The valuations to which a step leads from one.
fn images(policy: &Policy, bounds: &[u8], valuation: &Valuation, step: Step) -> Vec<Valuation> {
    match step {
        Step::Event(event) => vec![changed(bounds, valuation, &policy.events[event])],
        Step::Decided { request, accepted } => {
            let rules = applying(policy, valuation, request).into_iter().map(|rule| &policy.rules[rule]);
            rules
                .filter(|rule| rule.accepts == accepted)
                .map(|rule| changed(bounds, valuation, &rule.changes))
                .collect()
        }
    }
}

fn changed(bounds: &[u8], valuation: &Valuation, changes: &[Change]) -> Valuation {
    let variables = valuation.iter().zip(changes).zip(bounds);
    variables
        .map(|((&value, change), &bound)| match change {
            Change::Nothing => value,
            Change::AddOne => (value + 1).min(bound),
            Change::SetToZero => 0,
        })
        .collect()
}

/// Whether a rule lets a request through and its tests are true.
fn fits(policy: &Policy, rule: &Rule, valuation: &[u8], request: usize) -> bool {
    let values = policy.frame.values(request);
    let through = rule.masks.iter().zip(&values).all(|(mask, value)| mask >> value & 1 == 1);
    let is_true =
        |(test, &value): (&crate::policy::Test, &u8)| value >= test.at_least && (test.below == 0 || value < test.below);
    through && rule.tests.iter().zip(valuation).all(is_true)
}

/// The rules that apply to a request in a valuation: those of the greatest level
/// among the ones that fit.
fn applying(policy: &Policy, valuation: &[u8], request: usize) -> Vec<usize> {
    let fitting: Vec<usize> =
        (0..policy.rules.len()).filter(|&rule| fits(policy, &policy.rules[rule], valuation, request)).collect();
    let greatest = fitting.iter().map(|&rule| policy.rules[rule].level).max();
    fitting.into_iter().filter(|&rule| Some(policy.rules[rule].level) == greatest).collect()
}

/// What may have been forgotten, in words: events that change nothing, and
/// variables that are not tested, not counted or never set to zero.
pub fn remarks(policy: &Policy, event: impl Fn(usize) -> String, variable: impl Fn(usize) -> String) -> Vec<String> {
    let bounds = policy.bounds();
    let mut remarks = Vec::new();
    for (number, changes) in policy.events.iter().enumerate() {
        let changes_something =
            changes.iter().zip(&bounds).any(|(change, &bound)| *change != Change::Nothing && bound > 0);
        if !changes_something {
            remarks.push(format!("the event {} changes nothing that is tested", event(number)));
        }
    }
    let has = |number: usize, wanted: Change| {
        let of_rules = policy.rules.iter().map(|rule| &rule.changes);
        of_rules.chain(&policy.events).any(|changes| changes[number] == wanted)
    };
    for (number, &bound) in bounds.iter().enumerate() {
        let name = variable(number);
        if bound == 0 {
            remarks.push(format!("the variable {name} is not tested"));
        } else if !has(number, Change::AddOne) {
            remarks.push(format!("nothing adds to the variable {name}"));
        } else if !has(number, Change::SetToZero) {
            remarks.push(format!("nothing sets the variable {name} to 0"));
        }
    }
    remarks
}
