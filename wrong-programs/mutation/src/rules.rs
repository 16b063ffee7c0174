//! The rules by which a definition is changed. Each makes small changes of one place; what does not type-check afterwards is no program and not counted.
//!
//! - a numeral is one more, one less;
//! - a variable is another one in scope, and a defined name its neighbours among those in scope of the same type;
//! - an argument of a call is a neighbouring argument, and two neighbours are swapped;
//! - an operator, a test or a constructor is one of its siblings; operands are swapped where that matters; an operand, `suc`, `not` or `some` is left out;
//! - a right side is that of a neighbouring equation, and a field's value that of a neighbouring field.

use std::collections::{BTreeMap, HashSet};
use std::ops::Range;

use crate::antt::{binders, closing, File, Part, Token};

/// One change: the bytes `at` of a file become `new`, and where a name is not imported yet, `import` is.
#[derive(Clone)]
pub struct Mutant {
    pub definition: String,
    /// The bytes of the right side that the change is in.
    pub part: Range<usize>,
    pub at: Range<usize>,
    pub new: String,
    pub import: Option<String>,
}

/// What every file of definitions declares: its path in `crates/`, and the type of each name.
pub type Declared = BTreeMap<String, Vec<(String, String)>>;

struct Rules<'a> {
    file: &'a File,
    declared: &'a Declared,
    imports: HashSet<String>,
    found: Vec<Mutant>,
}

pub fn mutants(file: &File, declared: &Declared) -> Vec<Mutant> {
    let imports = file
        .text
        .lines()
        .filter(|l| l.starts_with("use "))
        .flat_map(|l| l.split([' ', ',', '{', '}']).map(str::to_string))
        .collect();
    let mut rules = Rules {
        file,
        declared,
        imports,
        found: Vec::new(),
    };
    for (i, part) in file.parts.iter().enumerate() {
        rules.single_tokens(part);
        rules.region(part, 0..part.tokens.len());
        for near in [i.checked_sub(1), Some(i + 1)].into_iter().flatten() {
            if let Some(other) = file.parts.get(near) {
                if !part.kind.is_empty() && other.kind == part.kind {
                    rules.replace(
                        part,
                        0..part.tokens.len(),
                        text_of(file, other, 0..other.tokens.len()),
                    );
                }
            }
        }
    }
    let mut seen = HashSet::new();
    rules
        .found
        .retain(|m| file.text[m.at.clone()] != m.new && seen.insert((m.at.clone(), m.new.clone())));
    rules.found.sort_by_key(|m| m.at.start);
    rules.found
}

fn text_of<'a>(file: &'a File, part: &Part, tokens: Range<usize>) -> &'a str {
    &file.text[part.tokens[tokens.start].at.start..part.tokens[tokens.end - 1].at.end]
}

/// What an operator, a test or a constructor may become, with the module of the name.
fn siblings(word: &str) -> &'static [&'static str] {
    match word {
        "ltb" => &["leb", "eqb"],
        "leb" => &["ltb", "eqb"],
        "eqb" => &["leb", "ltb"],
        "<" => &["≤"],
        "≤" => &["<"],
        "+" => &["-", "*"],
        "-" => &["+"],
        "*" => &["+"],
        "/" => &["%", "*"],
        "%" => &["/"],
        "^" => &["*"],
        "&&" => &["||"],
        "||" => &["&&"],
        "×" => &["⊎"],
        "⊎" => &["×"],
        "true" => &["false"],
        "false" => &["true"],
        "take" => &["drop"],
        "drop" => &["take"],
        "accept" => &["reject", "both", "none"],
        "reject" => &["accept", "both", "none"],
        "both" => &["accept", "reject", "none"],
        "none" => &["accept", "reject", "both"],
        _ => &[],
    }
}

fn module_of(word: &str) -> Option<&'static str> {
    match word {
        "ltb" | "leb" | "eqb" | "<" | "≤" | "+" | "-" | "*" | "/" | "%" | "&&" | "||" | "true"
        | "false" | "⊎" | "take" | "drop" => Some("Rattle.std.specs.Prelude"),
        _ => None,
    }
}

impl Rules<'_> {
    fn replace(&mut self, part: &Part, tokens: Range<usize>, new: &str) {
        self.change(part, tokens, new.to_string(), None);
    }

    fn change(&mut self, part: &Part, tokens: Range<usize>, new: String, import: Option<String>) {
        let bytes = |tokens: Range<usize>| {
            part.tokens[tokens.start].at.start..part.tokens[tokens.end - 1].at.end
        };
        self.found.push(Mutant {
            definition: part.definition.clone(),
            part: bytes(0..part.tokens.len()),
            at: bytes(tokens),
            new,
            import,
        });
    }

    /// The import that makes a name known, if it is not.
    fn import_of(&self, word: &str) -> Option<String> {
        let infix = format!("◌{word}◌");
        let name = if word.chars().all(|c| c.is_alphanumeric()) {
            word
        } else {
            &infix
        };
        let module = module_of(word)?;
        (!self.imports.contains(name)).then(|| format!("use {module}.{{{name}}}"))
    }

    // ---- one token

    fn single_tokens(&mut self, part: &Part) {
        let words = &part.tokens;
        let binding = binding_tokens(words);
        for (i, word) in words.iter().enumerate() {
            if binding.contains(&i) {
                continue;
            }
            if let Some(value) = numeral(&word.text) {
                self.change(part, i..i + 1, (value + 1).to_string(), None);
                if value > 0 {
                    self.change(part, i..i + 1, (value - 1).to_string(), None);
                }
            }
            for other in siblings(&word.text) {
                // no number is below 0
                if (word.text.as_str(), *other) == ("eqb", "leb") && tests_zero(words, i) {
                    continue;
                }
                self.change(part, i..i + 1, other.to_string(), self.import_of(other));
            }
            self.names(part, i);
        }
    }

    /// A variable becomes another one, a defined name another of its type.
    fn names(&mut self, part: &Part, i: usize) {
        let word = &part.tokens[i].text;
        let scope = self.scope(part, i);
        if let Some((_, kind)) = scope.iter().rev().find(|(name, _)| name == word) {
            let others: Vec<String> = scope
                .iter()
                .filter(|(name, other)| {
                    name != word
                        && (kind.is_none() || other.is_none() || plain(kind) == plain(other))
                })
                .map(|(name, _)| name.clone())
                .collect();
            for other in others {
                self.change(part, i..i + 1, other, None);
            }
            return;
        }
        // of the names of its type, in the order of their declarations, the one before and the one after
        let names = self.defined(part);
        let Some((_, kind)) = names.iter().find(|(name, _)| name == word) else {
            return;
        };
        let alike: Vec<&String> = names
            .iter()
            .filter(|(name, other)| other == kind && name.contains('.') == word.contains('.'))
            .map(|(name, _)| name)
            .collect();
        let place = alike
            .iter()
            .position(|name| *name == word)
            .unwrap_or_default();
        for near in [place.wrapping_sub(1), place + 1] {
            if let Some(other) = alike.get(near) {
                self.change(part, i..i + 1, other.to_string(), None);
            }
        }
    }

    /// The variables that are bound before a token.
    fn scope(&self, part: &Part, i: usize) -> Vec<(String, Option<String>)> {
        let words = &part.tokens;
        let mut scope = part.bound.clone();
        binders(&words[..i], &mut scope);
        let mut k = 0;
        while k < i {
            if words[k].text == "let" && k + 1 < i {
                scope.push((words[k + 1].text.clone(), None));
            }
            if words[k].text == "λ" {
                while k + 1 < i && !words[k].text.ends_with('.') {
                    k += 1;
                    if words[k].text.chars().all(|c| in_name(c) || c == '.') {
                        scope.push((words[k].text.trim_end_matches('.').to_string(), None));
                    }
                }
            }
            k += 1;
        }
        scope
    }

    /// The names of definitions that are known where a part stands, with their types, in the order of their files and declarations.
    fn defined(&self, part: &Part) -> Vec<(String, String)> {
        let mut names = Vec::new();
        for (here, path, there) in &self.file.imported {
            let found = self.declared.get(path).and_then(|d| {
                d.iter()
                    .position(|(name, _)| name == there)
                    .map(|at| (path, at, here, &d[at].1))
            });
            names.extend(found);
        }
        names.sort();
        let mut names: Vec<(String, String)> = names
            .into_iter()
            .map(|(_, _, here, kind)| (here.clone(), kind.clone()))
            .collect();
        for (here, path) in &self.file.modules {
            let all = self.declared.get(path).into_iter().flatten();
            names.extend(all.map(|(there, kind)| (format!("{here}.{there}"), kind.clone())));
        }
        let own = self
            .file
            .declared
            .iter()
            .filter(|(at, name, _)| *at < part.tokens[0].at.start && *name != part.definition);
        names.extend(own.map(|(_, name, kind)| (name.clone(), kind.clone())));
        names
    }
}

/// The second argument of the call whose head stands at `i` is 0.
fn tests_zero(words: &[Token], i: usize) -> bool {
    let end = if words[i + 1].text == "(" {
        closing(words, i + 1) + 1
    } else {
        i + 2
    };
    words.get(end).is_some_and(|t| t.text == "0")
}

/// The tokens that bind a name or name a field.
fn binding_tokens(words: &[Token]) -> HashSet<usize> {
    let mut found = HashSet::new();
    for (i, word) in words.iter().enumerate() {
        match word.text.as_str() {
            "let" => {
                found.insert(i + 1);
            }
            "λ" => {
                let mut k = i + 1;
                while k < words.len() && !words[k].text.ends_with('.') {
                    found.insert(k);
                    k += 1;
                }
                found.insert(k);
            }
            "=" if i >= 2 && matches!(words[i - 2].text.as_str(), "{" | ";") => {
                found.insert(i - 1);
            }
            "(" => {
                let end = closing(words, i);
                if let Some(colon) = (i + 1..end).find(|&k| words[k].text == ":") {
                    let names = i + 1..colon;
                    if words[names.clone()]
                        .iter()
                        .all(|t| t.text.chars().all(in_name))
                    {
                        found.extend(names);
                    }
                }
            }
            text if text.starts_with('.') => {
                found.insert(i);
            }
            _ => {}
        }
    }
    found
}

fn in_name(c: char) -> bool {
    c.is_alphanumeric() || c == '_'
}

fn numeral(word: &str) -> Option<u64> {
    match word.strip_prefix("0x") {
        Some(digits) => u64::from_str_radix(digits, 16).ok(),
        None => word.parse().ok(),
    }
}

/// A type by its plain name: a history is a list of numbers.
fn plain(kind: &Option<String>) -> Option<String> {
    kind.as_ref().map(|k| k.replace("History", "List ℕ"))
}

/// A line that shows a change.
pub fn shown(file: &File, mutant: &Mutant) -> String {
    let flat = |text: &str| text.split_whitespace().collect::<Vec<_>>().join(" ");
    let (from, to) = surroundings(&file.text, &mutant.at);
    let before = &file.text[from..mutant.at.start];
    let after = &file.text[mutant.at.end..to];
    let old = format!("{before}⟦{}⟧{after}", &file.text[mutant.at.clone()]);
    format!("{} becomes {}", flat(&old), flat(&mutant.new))
}

/// The lines around a change.
fn surroundings(text: &str, at: &Range<usize>) -> (usize, usize) {
    let from = text[..at.start].rfind('\n').map_or(0, |n| n + 1);
    let to = text[at.end..].find('\n').map_or(text.len(), |n| at.end + n);
    (from, to)
}

mod calls;
#[cfg(test)]
mod tests;
