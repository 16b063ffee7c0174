//! The methods of trainees: each builds a book with one error of document 01's
//! list and is right in everything else.

use std::collections::{BTreeMap, BTreeSet};

use reference::book::Book;
use reference::explore::Table;
use reference::join::join;
use reference::policy::{Change, Policy, Rule};
use reference::situation::{bounds, carry_out, fits, start, Situation, Valuation};

/// An error in the method.
#[derive(Clone, Copy, Debug, PartialEq, Eq)]
pub enum Mistake {
    /// A rule is outranked only by a greater level that decides otherwise.
    LowerLevelApplies,
    /// A step is possible only if every valuation has a rule for it.
    SituationDropped,
    /// Situations are joined if the same codes are possible at present.
    JoinedByPresentDecisions,
    /// A bound is the value up to which a rule adds one.
    BoundFromValuesReached,
    /// Both decisions of a request lead to the valuations of either.
    OneSetForBothDecisions,
}

/// The book that the method with this error gives, the right one for no error.
pub fn book_with(policy: &Policy, mistake: Option<Mistake>) -> Book {
    let table = explore(&Method {
        policy,
        bounds: match mistake {
            Some(Mistake::BoundFromValuesReached) => bounds_reached(policy),
            _ => bounds(policy),
        },
        mistake,
    });
    let table = match mistake {
        Some(Mistake::JoinedByPresentDecisions) => joined_by_present_decisions(&table),
        _ => table,
    };
    Book {
        frame: policy.frame.clone(),
        rows: join(&table),
    }
}

/// A policy and how its steps are worked out.
struct Method<'a> {
    policy: &'a Policy,
    bounds: Valuation,
    mistake: Option<Mistake>,
}

/// All situations reached, breadth first with the codes ascending.
fn explore(method: &Method) -> Table {
    let mut situations = vec![start(method.policy)];
    let mut places = BTreeMap::from([(situations[0].clone(), 0)]);
    let mut table = Table::new();
    while table.len() < situations.len() {
        let here = situations[table.len()].clone();
        let mut row = Vec::new();
        for code in 0..method.policy.frame.width() {
            let reached = method.after(&here, code);
            if reached.is_empty() {
                row.push(None);
                continue;
            }
            let place = *places.entry(reached.clone()).or_insert(situations.len());
            if place == situations.len() {
                situations.push(reached);
            }
            row.push(Some(place));
        }
        table.push(row);
    }
    table
}

impl Method<'_> {
    /// The valuations after a step; none if it is not possible.
    fn after(&self, situation: &Situation, code: usize) -> BTreeSet<Valuation> {
        let events = self.policy.frame.events;
        match code.checked_sub(events) {
            None => self.carried_out(situation, |_| vec![&self.policy.events[code]]),
            Some(rest) => self.after_answer(situation, rest / 2, rest % 2 == 0),
        }
    }

    fn after_answer(
        &self,
        situation: &Situation,
        request: usize,
        accepted: bool,
    ) -> BTreeSet<Valuation> {
        let values = self.policy.frame.values_of(request);
        let decides = |valuation: &Valuation| {
            self.applying(&values, valuation)
                .iter()
                .any(|rule| rule.accepts == accepted)
        };
        let possible = match self.mistake {
            Some(Mistake::SituationDropped) => situation.iter().all(decides),
            _ => situation.iter().any(decides),
        };
        if !possible {
            return BTreeSet::new();
        }
        let one_set = self.mistake == Some(Mistake::OneSetForBothDecisions);
        self.carried_out(situation, |valuation| {
            self.applying(&values, valuation)
                .into_iter()
                .filter(|rule| one_set || rule.accepts == accepted)
                .map(|rule| &rule.changes)
                .collect()
        })
    }

    /// The valuations got by carrying out, in each valuation, each of its lists of
    /// changes.
    fn carried_out<'a>(
        &self,
        situation: &Situation,
        changes: impl Fn(&Valuation) -> Vec<&'a Vec<Change>>,
    ) -> BTreeSet<Valuation> {
        situation
            .iter()
            .flat_map(|valuation| {
                changes(valuation)
                    .into_iter()
                    .map(|changes| carry_out(changes, &self.bounds, valuation))
            })
            .collect()
    }

    /// The rules that fit and that no rule of a greater level outranks.
    fn applying(&self, values: &[usize], valuation: &Valuation) -> Vec<&Rule> {
        let fitting: Vec<&Rule> = self
            .policy
            .rules
            .iter()
            .filter(|rule| fits(rule, values, valuation))
            .collect();
        let lower = self.mistake == Some(Mistake::LowerLevelApplies);
        let outranks = |greater: &Rule, rule: &Rule| {
            greater.level > rule.level && !(lower && greater.accepts == rule.accepts)
        };
        fitting
            .iter()
            .filter(|rule| !fitting.iter().any(|greater| outranks(greater, rule)))
            .copied()
            .collect()
    }
}

/// For each variable the greatest lt up to which a rule adds one.
fn bounds_reached(policy: &Policy) -> Valuation {
    let mut reached = Valuation::default();
    for rule in &policy.rules {
        for (variable, change) in rule.changes.iter().enumerate() {
            if *change == Change::AddOne {
                let below = rule.tests[variable].below.unwrap_or(0);
                reached[variable] = reached[variable].max(below);
            }
        }
    }
    reached
}

/// The table in which each situation stands for all with the same codes possible,
/// the first one leading on.
fn joined_by_present_decisions(table: &Table) -> Table {
    let possible = |place: usize| -> Vec<bool> {
        table[place].iter().map(|target| target.is_some()).collect()
    };
    let first = |place: usize| {
        (0..=place)
            .find(|&other| possible(other) == possible(place))
            .expect("a situation decides as itself")
    };
    (0..table.len())
        .map(|place| {
            table[first(place)]
                .iter()
                .map(|target| target.map(first))
                .collect()
        })
        .collect()
}
