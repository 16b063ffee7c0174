//! All situations that histories lead to, in the order of their earliest
//! history, with refusal 11.

use std::collections::{BTreeMap, BTreeSet};

use crate::policy::Policy;
use crate::refusal::Refusal;
use crate::situation::{all_valuations, start, Situation, Steps, Valuation};

/// The greatest number of situations.
pub const MOST_SITUATIONS: usize = 127;

/// For each situation and each code, the place of the situation after it.
pub type Table = Vec<Vec<Option<usize>>>;

/// The reached situations and the steps between them.
#[derive(Clone, Debug)]
pub struct Exploration {
    /// The situations, the start first.
    pub situations: Vec<Situation>,
    /// The steps, one row for each situation and one entry for each code.
    pub table: Table,
}

/// What a code leads to from each valuation taken alone.
type Effect = BTreeMap<Valuation, Situation>;

/// Finds all situations, breadth first with the codes ascending; stops with
/// refusal 11 as soon as there are too many.
pub fn explore(policy: &Policy) -> Result<Exploration, Refusal> {
    let effects = effects(policy);
    let twins = twins(&effects);
    let mut search = Search::default();
    let mut table = Table::new();
    search.place_of(start(policy))?;
    while table.len() < search.situations.len() {
        let here = search.situations[table.len()].clone();
        let mut row: Vec<Option<usize>> = Vec::new();
        for (code, effect) in effects.iter().enumerate() {
            if twins[code] < code {
                row.push(row[twins[code]]);
                continue;
            }
            let reached = union(&here, effect);
            row.push(match reached.is_empty() {
                true => None,
                false => Some(search.place_of(reached)?),
            });
        }
        table.push(row);
    }
    Ok(Exploration {
        situations: search.situations,
        table,
    })
}

/// The situations found so far.
#[derive(Default)]
struct Search {
    situations: Vec<Situation>,
    places: BTreeMap<Situation, usize>,
}

impl Search {
    /// The place of a situation, which is added at the end if it is new.
    fn place_of(&mut self, situation: Situation) -> Result<usize, Refusal> {
        if let Some(&place) = self.places.get(&situation) {
            return Ok(place);
        }
        let place = self.situations.len();
        if place == MOST_SITUATIONS {
            return Err(Refusal::Situations);
        }
        self.situations.push(situation.clone());
        self.places.insert(situation, place);
        Ok(place)
    }
}

/// The effect of every code.
fn effects(policy: &Policy) -> Vec<Effect> {
    let steps = Steps::new(policy);
    let valuations = all_valuations(policy);
    let alone = |&valuation: &Valuation| Situation::from([valuation]);
    (0..policy.frame.width())
        .map(|code| {
            valuations
                .iter()
                .filter_map(|valuation| Some((*valuation, steps.after(&alone(valuation), code)?)))
                .collect()
        })
        .collect()
}

/// For each code the lowest code with the same effect. It leads to the same
/// situations, so one of them is enough to follow.
fn twins(effects: &[Effect]) -> Vec<usize> {
    let mut lowest: BTreeMap<&Effect, usize> = BTreeMap::new();
    effects
        .iter()
        .enumerate()
        .map(|(code, effect)| *lowest.entry(effect).or_insert(code))
        .collect()
}

/// The valuations that an effect leads to from a situation, maybe none.
fn union(situation: &Situation, effect: &Effect) -> BTreeSet<Valuation> {
    situation
        .iter()
        .filter_map(|valuation| effect.get(valuation))
        .flatten()
        .copied()
        .collect()
}
