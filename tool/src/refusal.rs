//! Refusals: their numbers and meanings, and where in a policy file or book the
//! cause stands. The library judges; what is found here names the place only,
//! and must come to the library's number.

use crate::frame::{MOST_EVENTS, MOST_FIELDS, MOST_REQUESTS, MOST_VALUES};
use crate::names::Names;
use crate::notation::quoted;
use crate::policy::{Layout, Policy, Rule, HEADER, MOST_NUMBER, MOST_RULES, MOST_VALUATIONS, MOST_VARIABLES};

/// Why an input is turned down, and the place.
#[derive(Clone, Debug, PartialEq, Eq)]
pub struct Refusal {
    pub number: u8,
    /// Where, what stands there, and what may stand there.
    pub place: String,
}

/// The meaning of a refusal's number.
pub fn meaning(number: u8) -> &'static str {
    match number {
        1 => "a lent buffer is too small",
        2 => "a policy file has at least 9 bytes",
        3 => "a policy file begins with the mark POL",
        4 => "the version of a policy file is 1 or 2",
        5 => "the number of events, fields, variables or rules is outside its range",
        6 => "the length of a policy file follows from its header",
        7 => "a field has 1 to 16 values, and there are at most 64 requests",
        8 => "a mask lets at least one value through, and only values that the field has",
        9 => "a decision, test or change is outside its values",
        10 => "there are at most 64 valuations of the variables",
        11 => "at most 127 situations are reached",
        12 => "a book has at least 12 bytes and begins with the mark BOK and version 1",
        13 => "a number in the book's header is outside its range, or the length does not follow from the header",
        14 => "an entry of a book is at most its number of states, and not 0 for an event",
        15 => "two books are compared only if they have the same events and values",
        16 => "the request or step is not in the book, or is not possible there",
        17 => "a starting value is at most 63",
        18 => "an outcome is none, accept, reject or both",
        _ => "no such refusal",
    }
}

fn refusal(number: u8, place: String) -> Option<Refusal> {
    Some(Refusal { number, place })
}

/// The row 2 to 10 or 17 that refuses a policy file, the first in the order of
/// judging, and its place.
pub fn judge_policy(bytes: &[u8]) -> Option<Refusal> {
    if bytes.len() < HEADER {
        return refusal(2, format!("it has {}", count(bytes.len(), "byte")));
    }
    judge_header(bytes)
        .or_else(|| judge_counts(bytes))
        .or_else(|| judge_starts(bytes))
        .or_else(|| judge_masks(bytes))
        .or_else(|| judge_values(bytes))
        .or_else(|| judge_valuations(bytes))
}

fn judge_header(bytes: &[u8]) -> Option<Refusal> {
    if !bytes.starts_with(b"POL") {
        return refusal(3, format!("bytes 0 to 2 are {}", hex(&bytes[..3])));
    }
    if bytes[3] != 0 || !(1..=2).contains(&bytes[4]) {
        return refusal(
            4,
            format!(
                "bytes 3 and 4 are {}, which is version {}",
                hex(&bytes[3..5]),
                u16::from_be_bytes([bytes[3], bytes[4]])
            ),
        );
    }
    let ranges = [
        ("events", 0, MOST_EVENTS),
        ("fields", 1, MOST_FIELDS),
        ("variables", 0, MOST_VARIABLES),
        ("rules", 0, MOST_RULES),
    ];
    for (at, (what, least, most)) in (5..).zip(ranges) {
        let number = usize::from(bytes[at]);
        if number < least || number > most {
            return refusal(5, format!("byte {at}, the number of {what}, is {number}; it may be {least} to {most}"));
        }
    }
    let (has, needs) = (bytes.len(), Layout::of(bytes).length());
    if has != needs {
        return refusal(6, format!("it has {}, and its header calls for {needs}", count(has, "byte")));
    }
    None
}

fn judge_counts(bytes: &[u8]) -> Option<Refusal> {
    let counts = &bytes[HEADER..Layout::of(bytes).starts_at()];
    for (field, &count) in counts.iter().enumerate() {
        if count == 0 || usize::from(count) > MOST_VALUES {
            return refusal(
                7,
                format!(
                    "byte {}, the number of values of field {field}, is {count}; it may be 1 to {MOST_VALUES}",
                    HEADER + field
                ),
            );
        }
    }
    let requests: usize = counts.iter().map(|&count| usize::from(count)).product();
    if requests > MOST_REQUESTS {
        let factors: Vec<String> = counts.iter().map(u8::to_string).collect();
        let (last, product) = (HEADER + counts.len() - 1, factors.join(" × "));
        let what = format!("bytes {HEADER} to {last}, the numbers of values, make {product} = {requests} requests");
        return refusal(7, format!("{what}; there may be at most {MOST_REQUESTS}"));
    }
    None
}

fn judge_starts(bytes: &[u8]) -> Option<Refusal> {
    let layout = Layout::of(bytes);
    let starts = &bytes[layout.starts_at()..layout.rule_at(0)];
    let variable = starts.iter().position(|&start| start > MOST_NUMBER)?;
    let (at, start) = (layout.starts_at() + variable, starts[variable]);
    let what = format!("byte {at}, the starting value of variable {variable}, is {start}");
    refusal(17, format!("{what}; it may be 0 to {MOST_NUMBER}"))
}

fn judge_masks(bytes: &[u8]) -> Option<Refusal> {
    let layout = Layout::of(bytes);
    for rule in 0..layout.rules {
        for field in 0..layout.fields {
            let at = layout.rule_at(rule) + 2 * field;
            let mask = u16::from_be_bytes([bytes[at], bytes[at + 1]]);
            let values = u32::from(bytes[HEADER + field]);
            let place = format!(
                "rule {}, field {field}: bytes {at} and {}, the mask, are {}",
                rule + 1,
                at + 1,
                hex(&bytes[at..at + 2])
            );
            if mask == 0 {
                return refusal(8, format!("{place}, which lets no value through"));
            }
            if u32::from(mask) >> values != 0 {
                return refusal(
                    8,
                    format!(
                        "{place}, which lets value {} through; the field's values are 0 to {}",
                        mask.ilog2(),
                        values - 1
                    ),
                );
            }
        }
    }
    None
}

fn judge_values(bytes: &[u8]) -> Option<Refusal> {
    let layout = Layout::of(bytes);
    for rule in 0..layout.rules {
        let decision = layout.rule_at(rule) + 2 * layout.fields;
        if bytes[decision] > 1 {
            return refusal(
                9,
                format!(
                    "rule {}: byte {decision}, the decision, is {}; it may be 0 (reject) or 1 (accept)",
                    rule + 1,
                    bytes[decision]
                ),
            );
        }
        for variable in 0..layout.variables {
            let part = decision + 2 + 3 * variable;
            let limits = [("test ≥", MOST_NUMBER), ("test <", MOST_NUMBER), ("change", 2)];
            for (at, (what, most)) in (part..).zip(limits) {
                if bytes[at] > most {
                    return refusal(
                        9,
                        format!(
                            "rule {}, variable {variable}: byte {at}, the {what}, is {}; it may be 0 to {most}",
                            rule + 1,
                            bytes[at]
                        ),
                    );
                }
            }
        }
    }
    judge_changes(bytes, &layout)
}

/// What the events change.
fn judge_changes(bytes: &[u8], layout: &Layout) -> Option<Refusal> {
    let first = layout.event_at(0);
    let place = bytes[first..layout.length()].iter().position(|&change| change > 2)?;
    let (event, variable) = (place / layout.variables, place % layout.variables);
    let at = first + place;
    let what = format!("event {event}, variable {variable}: byte {at}, the change, is {}", bytes[at]);
    refusal(9, format!("{what}; it may be 0 to 2"))
}

fn judge_valuations(bytes: &[u8]) -> Option<Refusal> {
    let bounds = Policy::of(bytes).bounds();
    let valuations: usize = bounds.iter().map(|&bound| usize::from(bound) + 1).product();
    (valuations > MOST_VALUATIONS).then(|| Refusal { number: 10, place: String::new() })
}

/// What to say of a policy that is refused by 10 or 11, which have no single place.
pub fn counting_place(number: u8, policy: &Policy, names: &Names, lines: Option<&[usize]>) -> String {
    if number == 11 {
        return forking_place(policy, lines);
    }
    let bounds = policy.bounds();
    let tested: Vec<(usize, &String)> =
        bounds.iter().map(|&bound| usize::from(bound)).zip(&names.variables).filter(|(bound, _)| *bound > 0).collect();
    let counts: Vec<String> =
        tested.iter().map(|(bound, name)| format!("{} counts to {bound}", quoted(name))).collect();
    let factors: Vec<String> = tested.iter().map(|(bound, _)| (bound + 1).to_string()).collect();
    let valuations: usize = tested.iter().map(|(bound, _)| bound + 1).product();
    format!(
        "{}, the greatest numbers of their tests, which makes {} = {valuations} valuations",
        counts.join(", "),
        factors.join(" × ")
    )
}

/// Over 127 situations are reached only where two rules may fit together that
/// decide the same and change differently: then it is not known which was carried
/// out. The first such pair.
fn forking_place(policy: &Policy, lines: Option<&[usize]>) -> String {
    let rules = &policy.rules;
    let pairs = (0..rules.len()).flat_map(|one| (one + 1..rules.len()).map(move |other| (one, other)));
    let found = pairs.into_iter().find(|&(one, other)| fork(&rules[one], &rules[other]));
    let which = match found {
        Some((one, other)) => format!("{} and {}", rule_place(one, lines), rule_place(other, lines)),
        None => "some rules".to_string(),
    };
    format!(
        "{which} may fit the same request at one level and decide the same, but change differently, so that it is not \
         known which was carried out; put both changes into one rule, or give one rule a greater level, or count less far"
    )
}

/// A rule, counted from 0, by its number from 1 and its line.
pub fn rule_place(rule: usize, lines: Option<&[usize]>) -> String {
    match lines {
        Some(lines) => format!("rule {} (line {})", rule + 1, lines[rule]),
        None => format!("rule {}", rule + 1),
    }
}

/// Whether two rules may fit together, decide the same, and change differently.
fn fork(one: &Rule, other: &Rule) -> bool {
    let share = one.masks.iter().zip(&other.masks).all(|(one, other)| one & other != 0);
    let together = one.tests.iter().zip(&other.tests).all(|(one, other)| {
        let below = [one.below, other.below].into_iter().filter(|&below| below != 0).min();
        below.is_none_or(|below| one.at_least.max(other.at_least) < below)
    });
    share && together && one.level == other.level && one.accepts == other.accepts && one.changes != other.changes
}

/// The row 12 to 14 that refuses a book, and its place.
pub fn judge_book(bytes: &[u8]) -> Option<Refusal> {
    judge_book_mark(bytes).or_else(|| judge_book_header(bytes)).or_else(|| judge_entries(bytes))
}

fn judge_book_mark(bytes: &[u8]) -> Option<Refusal> {
    if bytes.len() < 12 {
        return refusal(12, format!("it has {}", count(bytes.len(), "byte")));
    }
    if !bytes.starts_with(b"BOK") {
        return refusal(12, format!("bytes 0 to 2 are {}", hex(&bytes[..3])));
    }
    if bytes[3..5] != [0, 1] {
        return refusal(
            12,
            format!(
                "bytes 3 and 4 are {}, which is version {}",
                hex(&bytes[3..5]),
                u16::from_be_bytes([bytes[3], bytes[4]])
            ),
        );
    }
    None
}

fn judge_book_header(bytes: &[u8]) -> Option<Refusal> {
    let ranges = [(5, "events", 0, MOST_EVENTS), (6, "fields", 1, MOST_FIELDS), (11, "states", 1, 127)];
    for (at, what, least, most) in ranges {
        let number = usize::from(bytes[at]);
        if number < least || number > most {
            return refusal(13, format!("byte {at}, the number of {what}, is {number}; it may be {least} to {most}"));
        }
    }
    judge_book_counts(bytes).or_else(|| judge_book_length(bytes))
}

fn judge_book_counts(bytes: &[u8]) -> Option<Refusal> {
    let (present, absent) = bytes[7..11].split_at(usize::from(bytes[6]));
    for (field, &count) in present.iter().enumerate() {
        if count == 0 || usize::from(count) > MOST_VALUES {
            let what = format!("byte {}, the number of values of field {field}, is {count}", 7 + field);
            return refusal(13, format!("{what}; it may be 1 to {MOST_VALUES}"));
        }
    }
    let field = present.len() + absent.iter().position(|&count| count != 0)?;
    let (at, count) = (7 + field, bytes[7 + field]);
    let what = format!("byte {at}, the number of values of field {field}, which the book has not, is {count}");
    refusal(13, format!("{what}; it may be 0"))
}

fn judge_book_length(bytes: &[u8]) -> Option<Refusal> {
    let present = &bytes[7..7 + usize::from(bytes[6])];
    let requests: usize = present.iter().map(|&count| usize::from(count)).product();
    if requests > MOST_REQUESTS {
        let what = format!("the numbers of values make {requests} requests");
        return refusal(13, format!("{what}; there may be at most {MOST_REQUESTS}"));
    }
    let needs = 12 + usize::from(bytes[11]) * (usize::from(bytes[5]) + 2 * requests);
    if bytes.len() != needs {
        return refusal(13, format!("it has {}, and its header calls for {needs}", count(bytes.len(), "byte")));
    }
    None
}

fn judge_entries(bytes: &[u8]) -> Option<Refusal> {
    let (events, states) = (usize::from(bytes[5]), bytes[11]);
    let width = (bytes.len() - 12) / usize::from(states);
    for (at, &entry) in bytes.iter().enumerate().skip(12) {
        let (state, code) = ((at - 12) / width + 1, (at - 12) % width);
        if entry > states {
            return refusal(
                14,
                format!(
                    "byte {at}, where code {code} leads from state {state}, is {entry}; there are {}",
                    count(usize::from(states), "state")
                ),
            );
        }
        if entry == 0 && code < events {
            return refusal(
                14,
                format!("byte {at}, where event {code} leads from state {state}, is 0; an event is always possible"),
            );
        }
    }
    None
}

/// A number of things.
pub fn count(number: usize, what: &str) -> String {
    match number {
        1 => format!("1 {what}"),
        _ => format!("{number} {what}s"),
    }
}

fn hex(bytes: &[u8]) -> String {
    let digits: Vec<String> = bytes.iter().map(|byte| format!("{byte:02X}")).collect();
    digits.join(" ")
}
