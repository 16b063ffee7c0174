//! What a writer may have meant: names that are nearly those that are there, and
//! words that stand in the wrong place.

use super::token::quoted;
use crate::names::Names;

/// `did you mean ..?` for a word that is nearly one of these names, else nothing.
pub fn did_you_mean<'a>(word: &str, names: impl IntoIterator<Item = &'a str>) -> String {
    nearest(word, names).map_or(String::new(), |name| format!("did you mean {}?", quoted(name)))
}

/// The same for words of the notation.
pub fn did_you_mean_word(word: &str, words: &[&'static str]) -> String {
    nearest(word, words.iter().copied()).map_or(String::new(), |word| format!("did you mean `{word}`?"))
}

fn nearest<'a>(word: &str, candidates: impl IntoIterator<Item = &'a str>) -> Option<&'a str> {
    let near = candidates.into_iter().map(|candidate| (distance(word, candidate), candidate));
    let allowed = if word.chars().count() < 7 { 1 } else { 2 };
    let nearest = near.filter(|&(distance, _)| distance <= allowed).min_by_key(|&(distance, _)| distance);
    nearest.map(|(_, candidate)| candidate)
}

/// The same as the end of a message.
pub fn closest(word: &str, candidates: &[String]) -> String {
    match did_you_mean(word, candidates.iter().map(String::as_str)) {
        hint if hint.is_empty() => hint,
        hint => format!(": {hint}"),
    }
}

/// Why a value cannot stand for a field: it is one of another field.
pub fn of_other_field(names: &Names, field: usize, word: &str) -> String {
    let other = names.fields.iter().position(|other| other.values.iter().any(|value| value == word));
    match other {
        Some(other) if other != field => {
            let how = match other < field {
                true => "values of one field are joined by `or`".to_string(),
                false => {
                    let order: Vec<String> = names.fields.iter().map(|field| quoted(&field.name)).collect();
                    format!("the order of the fields is {}", order.join(", "))
                }
            };
            format!("{} is a value of the field {}; {how}", quoted(word), quoted(&names.fields[other].name))
        }
        _ if names.events.iter().any(|event| event == word) => format!("{} is an event", quoted(word)),
        _ => match word {
            "all" | "anybody" | "anyone" | "every" | "everybody" | "everyone" | "everything" => {
                "write `any`".to_string()
            }
            "nobody" | "none" | "nothing" => "write `any`, and `reject`".to_string(),
            "not" | "except" | "but" => "the values that are meant are named, joined by `or`".to_string(),
            _ => did_you_mean(word, names.fields[field].values.iter().map(String::as_str)),
        },
    }
}

/// How many letters must be put in, left out, changed or exchanged with the next to
/// come from one word to the other; capital and small letters count as the same.
fn distance(one: &str, other: &str) -> usize {
    let letters = |word: &str| word.to_lowercase().chars().collect::<Vec<char>>();
    let (one, other) = (letters(one), letters(other));
    let mut rows: Vec<Vec<usize>> = vec![(0..=other.len()).collect()];
    for i in 1..=one.len() {
        let mut row = vec![i];
        for j in 1..=other.len() {
            let changed = rows[i - 1][j - 1] + usize::from(one[i - 1] != other[j - 1]);
            let mut least = changed.min(rows[i - 1][j] + 1).min(row[j - 1] + 1);
            if i > 1 && j > 1 && one[i - 1] == other[j - 2] && one[i - 2] == other[j - 1] {
                least = least.min(rows[i - 2][j - 2] + 1);
            }
            row.push(least);
        }
        rows.push(row);
    }
    rows[one.len()][other.len()]
}

#[cfg(test)]
mod tests {
    use super::*;

    #[test]
    fn distances() {
        for (one, other, number) in
            [("", "", 0), ("a", "", 1), ("reader", "Reader", 0), ("reader", "raeder", 1), ("copy", "copies", 3)]
        {
            assert_eq!(distance(one, other), number, "{one} {other}");
            assert_eq!(distance(other, one), number, "{other} {one}");
        }
    }

    #[test]
    fn near_names_only() {
        assert_eq!(did_you_mean("Scholar", ["visitor", "scholar"]), "did you mean scholar?");
        assert_eq!(did_you_mean("scholars", ["visitor", "scholar"]), "did you mean scholar?");
        assert_eq!(did_you_mean("guest", ["visitor", "scholar"]), "");
        assert_eq!(did_you_mean("sunday", ["monday"]), "");
        assert_eq!(did_you_mean("a1", ["b2", "c3"]), "");
    }
}
