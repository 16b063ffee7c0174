//! The rules behind an answer: which ones decide a request after a history, and
//! why one can be left out, against the reference's situations.

mod common;

use std::collections::BTreeSet;

use common::run::{run, Folder};
use common::{policy_file, Met, Random};
use policybook::explain::{self, Deciding, Idle};
use policybook::policy::Policy;
use reference::policy::{self, Rule};
use reference::situation::{fits, start, Situation, Steps, Valuation};

/// How many policy files are generated.
const FILES: u64 = 3_000;

/// The number of a rule of the policy, from 0.
fn number(policy: &policy::Policy, rule: &Rule) -> usize {
    let is_same = |other: &Rule| std::ptr::eq(other, rule);
    policy.rules.iter().position(is_same).expect("a rule of the policy")
}

/// A possible history, and the situation after it.
fn walk(policy: &policy::Policy, random: &mut Random) -> (Vec<u8>, Situation) {
    let (steps, width) = (Steps::new(policy), policy.frame.width());
    let (mut history, mut situation) = (Vec::new(), start(policy));
    for _ in 0..random.below(30) {
        let code = random.below(width);
        if let Some(next) = steps.after(&situation, code) {
            history.push(code as u8);
            situation = next;
        }
    }
    (history, situation)
}

/// The rules that decide a request in a situation.
fn deciding(policy: &policy::Policy, situation: &Situation, request: usize) -> Deciding {
    let steps = Steps::new(policy);
    let mut deciding = Deciding::default();
    for valuation in situation {
        let applying = steps.applying(request, valuation);
        deciding.at_once |= applying.iter().any(|rule| rule.accepts != applying[0].accepts);
        for rule in applying {
            let rules = if rule.accepts { &mut deciding.accepting } else { &mut deciding.rejecting };
            rules.insert(number(policy, rule));
        }
    }
    deciding
}

#[test]
fn deciding_rules_are_those_that_apply() {
    let mut met = Met::default();
    for seed in 0..FILES {
        let (bytes, input) = policy_file(seed);
        let Ok(read) = policy::read(&bytes) else {
            continue;
        };
        let own = Policy::decode(&bytes).expect(&input);
        let (history, situation) = walk(&read, &mut Random::new(seed, "walk"));
        let found = explain::situation(&own, &history);
        let cut = |valuation: &Valuation| valuation[..read.variables].to_vec();
        let expected: BTreeSet<Vec<u8>> = situation.iter().map(cut).collect();
        assert_eq!(found, expected, "{input}: {history:?}");
        for request in 0..read.frame.requests() {
            let expected = deciding(&read, &situation, request);
            let found = explain::deciding_rules(&own, &found, request);
            met.note("several rules", expected.accepting.len() > 1);
            met.note("rules that differ", expected.at_once);
            let conflict = !expected.accepting.is_empty() && !expected.rejecting.is_empty();
            met.note("rules that differ, but not at once", conflict && !expected.at_once);
            assert_eq!(found, expected, "{input}: {history:?}, request {request}");
        }
        met.note("several valuations", situation.len() > 1);
        met.note("over ten steps", history.len() > 10);
    }
    met.each_at_least(40);
}

/// The valuations that some history leads to.
fn reached(policy: &policy::Policy) -> Vec<Valuation> {
    let steps = Steps::new(policy);
    let mut reached: Vec<Valuation> = start(policy).into_iter().collect();
    let mut next = 0;
    while next < reached.len() {
        let one = Situation::from([reached[next]]);
        for code in 0..policy.frame.width() {
            for valuation in steps.after(&one, code).into_iter().flatten() {
                if !reached.contains(&valuation) {
                    reached.push(valuation);
                }
            }
        }
        next += 1;
    }
    reached
}

#[test]
fn idle_rules_never_fit_or_never_apply() {
    let mut met = Met::default();
    for seed in 0..FILES / 10 {
        let (bytes, input) = policy_file(seed);
        let Ok(read) = policy::read(&bytes) else {
            continue;
        };
        let own = Policy::decode(&bytes).expect(&input);
        let (reached, steps) = (reached(&read), Steps::new(&read));
        let pairs = || {
            let requests = 0..read.frame.requests();
            requests.flat_map(|request| reached.iter().map(move |valuation| (request, valuation)))
        };
        for (place, rule) in read.rules.iter().enumerate() {
            let fit = |(request, valuation)| fits(rule, &read.frame.values_of(request), valuation);
            let applies = |(request, valuation)| {
                let applying = steps.applying(request, valuation);
                applying.iter().any(|other| std::ptr::eq(*other, rule))
            };
            let expected = match (pairs().any(fit), pairs().any(applies)) {
                (false, _) => Idle::Tests,
                (true, false) => Idle::Level,
                (true, true) => Idle::Others,
            };
            met.note(&format!("{expected:?}"), true);
            assert_eq!(explain::idle(&own, place), expected, "{input}: rule {}", place + 1);
        }
    }
    met.each_at_least(20);
}

/// The line of `after` that says what the variables have come to.
fn variables_line(situation: &Situation, variables: usize) -> String {
    let words = |valuation: &Valuation| -> String {
        let values = valuation[..variables].iter().enumerate();
        values.map(|(number, value)| format!("v{number} {value}")).collect::<Vec<String>>().join(", ")
    };
    format!("  variables: {}", situation.iter().map(words).collect::<Vec<String>>().join("; or "))
}

#[test]
fn it_is_open_which_rule_was_carried_out() {
    let folder = Folder::new("open");
    let mut met = Met::default();
    for seed in 0..FILES / 4 {
        let (bytes, input) = policy_file(seed);
        let (Ok(read), Ok(_)) = (policy::read(&bytes), reference::book::build(&bytes)) else {
            continue;
        };
        let own = Policy::decode(&bytes).expect(&input);
        let (history, after) = walk(&read, &mut Random::new(seed, "open"));
        let steps = Steps::new(&read);
        let mut situation = start(&read);
        let forks = history.iter().position(|&code| {
            situation = steps.after(&situation, code.into()).expect("a possible step");
            situation.len() > 1
        });
        let found = explain::first_fork(&own, &history);
        assert_eq!(found.as_ref().map(|(number, _)| *number), forks, "{input}");
        if let Some((number, rules)) = found {
            let changes: BTreeSet<String> =
                rules.iter().map(|&rule| format!("{:?}", own.rules[rule].changes)).collect();
            assert!(changes.len() > 1, "{input}: step {number}");
        }
        met.note("open", forks.is_some());
        met.note("not open", forks.is_none());
        if seed % 4 == 0 && read.variables > 0 {
            let file = folder.file(&seed.to_string(), &bytes);
            let words: Vec<String> = history.iter().map(|code| format!("code {code}")).collect();
            let ran = run(&["after", &file, &words.join(", ")], b"");
            let line = ran.text().lines().nth(1).expect("a second line").to_string();
            assert_eq!(line, variables_line(&after, read.variables), "{input}");
        }
    }
    met.each_at_least(30);
}
