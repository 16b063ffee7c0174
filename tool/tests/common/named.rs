//! Names for a policy: plain words, and names that need quotes in a text.

use super::Random;
use policybook::frame::Frame;
use policybook::names::{Field, Names};

/// Words that are written as they are.
pub const PLAIN: [&str; 20] = [
    "reader",
    "copy",
    "x",
    "_",
    "_9",
    "a-b",
    "b-",
    "room-7",
    "7th",
    "9-9",
    "naïve",
    "Éditeur",
    "читатель",
    "読者",
    "٣",
    "accepted",
    "Rule",
    "anyone",
    "twice",
    "times",
];

/// The words of the notation.
pub const RESERVED: [&str; 15] = [
    "accept",
    "and",
    "any",
    "events",
    "field",
    "from",
    "level",
    "on",
    "or",
    "reject",
    "rule",
    "to",
    "variables",
    "version",
    "when",
];

/// Other names that stand in quotes.
pub const QUOTED: [&str; 24] = [
    "0",
    "7",
    "007",
    "4294967296",
    "late reader",
    "a  b",
    "-",
    "-x",
    "a,b",
    "#",
    "a # b",
    "=",
    "x = y",
    "<",
    ">=",
    "+ 1",
    "e\u{301}",
    "🗝",
    "\\",
    "\\n",
    "it's",
    "{}",
    "a or b",
    "%s",
];

/// A name of any sort.
pub fn draw_name(random: &mut Random) -> String {
    match random.below(8) {
        0 | 1 => random.pick(&PLAIN).to_string(),
        2 => random.pick(&RESERVED).to_string(),
        3 | 4 => random.pick(&QUOTED).to_string(),
        5 => letters(random, &['a', 'b', 'é', '0', '-', '_'], 64),
        6 => letters(random, &['a', '館', '#', '=', ',', '0', '\''], 64),
        _ => (0..random.between(1, 3)).map(|_| (b'a' + random.below(26) as u8) as char).collect(),
    }
}

/// A name of these letters, one in four as long as a name can be.
fn letters(random: &mut Random, from: &[char], longest: usize) -> String {
    let length = match random.chance(1, 4) {
        true => longest,
        false => random.between(1, 20),
    };
    (0..length).map(|_| *random.pick(from)).collect()
}

/// Names for a policy of this frame. As the notation demands, no two events, no
/// two values of a field and no event and value have one name; others may.
pub fn draw_names(frame: &Frame, variables: usize, random: &mut Random) -> Names {
    let events = several(frame.events, &[], random);
    let names = several(frame.counts.len(), &[], random);
    let fields = names.into_iter().zip(&frame.counts).map(|(name, &count)| {
        let values = several(count, &events, random);
        Field { name, values }
    });
    Names { fields: fields.collect(), variables: several(variables, &[], random), events }
}

/// So many names, no two alike and none of those taken.
fn several(count: usize, taken: &[String], random: &mut Random) -> Vec<String> {
    let mut names: Vec<String> = Vec::new();
    while names.len() < count {
        let name = draw_name(random);
        if !names.contains(&name) && !taken.contains(&name) {
            names.push(name);
        }
    }
    names
}

/// Whether a name is written without quotes, by the words of docs/NOTATION.md:
/// letters, digits, `_` and `-`, the first no `-`, not digits alone, no word of
/// the notation.
pub fn is_plain(name: &str) -> bool {
    let in_word = |letter: char| letter.is_alphanumeric() || "_-".contains(letter);
    name.chars().all(in_word)
        && !name.starts_with('-')
        && name.chars().any(|letter| !letter.is_ascii_digit())
        && !RESERVED.contains(&name)
}
