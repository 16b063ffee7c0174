//! A policy with its events, fields and values in the order of another text, so
//! that two texts are compared by their names.

use std::collections::BTreeSet;

use crate::names::Names;
use crate::policy::{Policy, Rule};

/// Whether two texts declare the same events and values in the same order.
pub fn same_order(one: &Names, other: &Names) -> bool {
    let values =
        |names: &Names| -> Vec<Vec<String>> { names.fields.iter().map(|field| field.values.clone()).collect() };
    one.events == other.events && values(one) == values(other)
}

/// The names in the order of the alphabet, the same for texts that name the same.
pub fn sorted(names: &Names) -> Names {
    let mut sorted = names.clone();
    sorted.events.sort();
    sorted.fields.iter_mut().for_each(|field| field.values.sort());
    sorted.fields.sort_by(|one, other| one.name.cmp(&other.name));
    sorted
}

/// Where each thing of the other order stands in this one.
struct Order {
    events: Vec<usize>,
    /// For each field its place, and those of its values.
    fields: Vec<(usize, Vec<usize>)>,
}

/// The policy of a text in the order of other names; nothing if the two do not
/// name the same events, and the same values in the same fields.
pub fn in_order_of(policy: &Policy, names: &Names, other: &Names) -> Option<Policy> {
    let order = order(names, other)?;
    let mut ordered = policy.clone();
    ordered.events = order.events.iter().map(|&event| policy.events[event].clone()).collect();
    ordered.frame = other.frame();
    for (rule, original) in ordered.rules.iter_mut().zip(&policy.rules) {
        rule.masks = masks_in(original, &order);
    }
    Some(ordered)
}

fn order(names: &Names, other: &Names) -> Option<Order> {
    let events = places(&names.events, &other.events)?;
    let field_names = |names: &Names| -> Vec<String> { names.fields.iter().map(|field| field.name.clone()).collect() };
    let by_name = places(&field_names(names), &field_names(other));
    // Fields that are called otherwise stand in the same order.
    let fields =
        by_name.or_else(|| (names.fields.len() == other.fields.len()).then(|| (0..names.fields.len()).collect()))?;
    let fields: Option<Vec<(usize, Vec<usize>)>> = fields
        .into_iter()
        .zip(&other.fields)
        .map(|(field, wanted)| places(&names.fields[field].values, &wanted.values).map(|values| (field, values)))
        .collect();
    Some(Order { events, fields: fields? })
}

/// Where each name of a list stands in another list of the same names.
fn places(names: &[String], other: &[String]) -> Option<Vec<usize>> {
    let places: Option<Vec<usize>> = other.iter().map(|wanted| names.iter().position(|name| name == wanted)).collect();
    places.filter(|places| places.len() == names.len())
}

fn masks_in(rule: &Rule, order: &Order) -> Vec<u16> {
    let mask = |(field, values): &(usize, Vec<usize>)| {
        let bits = values.iter().enumerate().map(|(place, value)| (rule.masks[*field] >> value & 1) << place);
        bits.sum()
    };
    order.fields.iter().map(mask).collect()
}

/// What only one of two texts names.
pub fn difference(first: (&str, &Names), second: (&str, &Names)) -> String {
    let all = |names: &Names| -> BTreeSet<String> {
        let values = names.fields.iter().flat_map(|field| field.values.clone());
        names.events.iter().cloned().chain(values).collect()
    };
    let only = |(file, names): (&str, &Names), other: &Names| {
        let other = all(other);
        let own: Vec<String> = all(names).into_iter().filter(|name| !other.contains(name)).collect();
        match own.is_empty() {
            true => None,
            false => Some(format!("only {file} has {}", own.join(", "))),
        }
    };
    let parts: Vec<String> = [only(first, second.1), only(second, first.1)].into_iter().flatten().collect();
    match parts.is_empty() {
        true => "they declare the same names in another order".to_string(),
        false => parts.join("; "),
    }
}
