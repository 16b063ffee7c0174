//! Valuations, situations as sets of valuations, and the steps between them.

use std::collections::BTreeSet;

use crate::policy::{Change, Policy, Rule, MOST_VARIABLES};

/// A value for each variable. Places without a variable hold 0.
pub type Valuation = [u8; MOST_VARIABLES];

/// A set of valuations; the sets that occur are never empty.
pub type Situation = BTreeSet<Valuation>;

/// What a code stands for.
#[derive(Clone, Copy, Debug, PartialEq, Eq)]
pub enum Step {
    /// An event happens.
    Event(usize),
    /// A request is answered.
    Answer {
        /// The number of the request.
        request: usize,
        /// Whether it is accepted; otherwise it is rejected.
        accepted: bool,
    },
}

/// The situation before any step: each variable has its starting value. A start
/// above the variable's bound counts as the bound.
pub fn start(policy: &Policy) -> Situation {
    let bounds = bounds(policy);
    let mut valuation = [0; MOST_VARIABLES];
    for (variable, &start) in policy.starts.iter().enumerate() {
        valuation[variable] = start.min(bounds[variable]);
    }
    Situation::from([valuation])
}

/// For each variable the greatest number any rule tests it with, 0 if none.
pub fn bounds(policy: &Policy) -> Valuation {
    let mut bounds = [0; MOST_VARIABLES];
    for rule in &policy.rules {
        for (bound, test) in bounds.iter_mut().zip(&rule.tests) {
            let tested = test.at_least.unwrap_or(0).max(test.below.unwrap_or(0));
            *bound = tested.max(*bound);
        }
    }
    bounds
}

/// Every valuation: each variable takes each value from 0 to its bound.
pub fn all_valuations(policy: &Policy) -> Vec<Valuation> {
    let mut valuations = vec![[0; MOST_VARIABLES]];
    for (variable, &bound) in bounds(policy).iter().enumerate() {
        let mut longer = Vec::new();
        for valuation in valuations {
            for value in 0..=bound {
                let mut with_value = valuation;
                with_value[variable] = value;
                longer.push(with_value);
            }
        }
        valuations = longer;
    }
    valuations
}

/// The number of valuations.
pub fn count_valuations(policy: &Policy) -> usize {
    bounds(policy)
        .iter()
        .map(|&bound| bound as usize + 1)
        .product()
}

/// Whether the rule's masks let the request's values through and its tests are
/// true in the valuation.
pub fn fits(rule: &Rule, values: &[usize], valuation: &Valuation) -> bool {
    let masks_let_through = rule
        .masks
        .iter()
        .zip(values)
        .all(|(mask, value)| mask >> value & 1 == 1);
    let tests_are_true = rule.tests.iter().zip(valuation).all(|(test, &value)| {
        test.at_least.is_none_or(|number| value >= number)
            && test.below.is_none_or(|number| value < number)
    });
    masks_let_through && tests_are_true
}

/// The valuation after the changes; adding one at the bound changes nothing.
pub fn carry_out(changes: &[Change], bounds: &Valuation, valuation: &Valuation) -> Valuation {
    let mut changed = *valuation;
    for (variable, change) in changes.iter().enumerate() {
        changed[variable] = match change {
            Change::Keep => valuation[variable],
            Change::AddOne => (valuation[variable] + 1).min(bounds[variable]),
            Change::SetToZero => 0,
        };
    }
    changed
}

/// The steps of a policy, with its bounds and requests worked out once.
pub struct Steps<'a> {
    policy: &'a Policy,
    bounds: Valuation,
    requests: Vec<Vec<usize>>,
}

impl<'a> Steps<'a> {
    /// Prepares the steps of a policy.
    pub fn new(policy: &'a Policy) -> Steps<'a> {
        let frame = &policy.frame;
        Steps {
            policy,
            bounds: bounds(policy),
            requests: (0..frame.requests())
                .map(|request| frame.values_of(request))
                .collect(),
        }
    }

    /// What a code stands for.
    pub fn meaning(&self, code: usize) -> Step {
        let events = self.policy.frame.events;
        if code < events {
            Step::Event(code)
        } else {
            Step::Answer {
                request: (code - events) / 2,
                accepted: (code - events).is_multiple_of(2),
            }
        }
    }

    /// The rules that apply to a request in a valuation: those that fit both
    /// while no rule of a greater level fits both.
    pub fn applying(&self, request: usize, valuation: &Valuation) -> Vec<&'a Rule> {
        let values = &self.requests[request];
        let mut fitting: Vec<&Rule> = self
            .policy
            .rules
            .iter()
            .filter(|rule| fits(rule, values, valuation))
            .collect();
        let greatest = fitting.iter().map(|rule| rule.level).max();
        fitting.retain(|rule| Some(rule.level) == greatest);
        fitting
    }

    /// The situation after an event.
    pub fn after_event(&self, situation: &Situation, event: usize) -> Situation {
        let changes = &self.policy.events[event];
        situation
            .iter()
            .map(|valuation| carry_out(changes, &self.bounds, valuation))
            .collect()
    }

    /// The valuations after a request is answered in this way, maybe none.
    pub fn after_answer(
        &self,
        situation: &Situation,
        request: usize,
        accepted: bool,
    ) -> BTreeSet<Valuation> {
        let mut reached = BTreeSet::new();
        for valuation in situation {
            for rule in self.applying(request, valuation) {
                if rule.accepts == accepted {
                    reached.insert(carry_out(&rule.changes, &self.bounds, valuation));
                }
            }
        }
        reached
    }

    /// The situation after the step with this code, if the step is possible.
    pub fn after(&self, situation: &Situation, code: usize) -> Option<Situation> {
        match self.meaning(code) {
            Step::Event(event) => Some(self.after_event(situation, event)),
            Step::Answer { request, accepted } => {
                Some(self.after_answer(situation, request, accepted)).filter(|set| !set.is_empty())
            }
        }
    }
}
