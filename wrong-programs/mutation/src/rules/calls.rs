//! The rules on calls, operators and records: arguments, operands and fields.

use std::ops::Range;

use super::{text_of, Rules};
use crate::antt::{closing, Part, Token};

/// How loosely an operator binds, from 0 on.
fn level(word: &str) -> Option<usize> {
    let levels: [&[&str]; 10] = [
        &["→"],
        &["↔"],
        &["⊎"],
        &["×"],
        &["≡", "<", "≤"],
        &["||"],
        &["&&"],
        &["++", "∷"],
        &["+", "-"],
        &["*", "/", "%"],
    ];
    levels
        .iter()
        .position(|ops| ops.contains(&word))
        .or((word == "^").then_some(10))
}

/// Functions of two arguments whose order says nothing.
const COMMUTATIVE: [&str; 6] = ["eqb", "max", "bit_or", "union", "same_list", "in_one"];

fn is_separator(word: &str) -> bool {
    matches!(word, "let" | "in" | "=" | ";" | "," | ":" | "λ")
}

impl Rules<'_> {
    /// A stretch of tokens, cut at what is no expression.
    pub(super) fn region(&mut self, part: &Part, at: Range<usize>) {
        let words = &part.tokens;
        let mut from = at.start;
        let mut i = at.start;
        let mut values: Vec<Range<usize>> = Vec::new();
        while i < at.end {
            let word = words[i].text.as_str();
            if word == "(" || word == "{" {
                i = closing(words, i) + 1;
                continue;
            }
            if is_separator(word) {
                if from < i {
                    values.push(from..i);
                }
                if word == "λ" {
                    while !words[i].text.ends_with('.') {
                        i += 1;
                    }
                }
                from = i + 1;
            }
            i += 1;
        }
        if from < at.end {
            values.push(from..at.end);
        }
        for value in &values {
            self.expression(part, value.clone());
        }
    }

    fn expression(&mut self, part: &Part, at: Range<usize>) {
        let words = &part.tokens;
        let mut ops = Vec::new();
        let mut i = at.start;
        while i < at.end {
            if matches!(words[i].text.as_str(), "(" | "{") {
                i = closing(words, i);
            } else if let Some(level) = level(&words[i].text) {
                ops.push((level, i));
            }
            i += 1;
        }
        let Some(loosest) = ops.iter().map(|o| o.0).min() else {
            return self.call(part, at);
        };
        let cuts: Vec<usize> = ops.iter().filter(|o| o.0 == loosest).map(|o| o.1).collect();
        let mut operands = Vec::new();
        let mut from = at.start;
        for &cut in &cuts {
            operands.push(from..cut);
            from = cut + 1;
        }
        operands.push(from..at.end);
        operands.retain(|o| !o.is_empty());
        if operands.len() == cuts.len() + 1 {
            self.operands(part, &at, &cuts, &operands);
        }
        for operand in operands {
            self.expression(part, operand);
        }
    }

    /// An operand is left out, or two are swapped.
    fn operands(
        &mut self,
        part: &Part,
        at: &Range<usize>,
        cuts: &[usize],
        operands: &[Range<usize>],
    ) {
        let words = &part.tokens;
        let op = words[cuts[0]].text.as_str();
        let one_kind = cuts.iter().all(|&c| words[c].text == op);
        if !one_kind {
            return;
        }
        let texts: Vec<String> = operands
            .iter()
            .map(|o| text_of(self.file, part, o.clone()).to_string())
            .collect();
        let glue = format!(" {op} ");
        if matches!(op, "&&" | "||" | "+" | "*" | "++" | "×" | "⊎" | "∷") {
            for out in 0..texts.len() {
                let left: Vec<&str> = texts
                    .iter()
                    .enumerate()
                    .filter(|(k, _)| *k != out)
                    .map(|(_, t)| t.as_str())
                    .collect();
                self.replace(part, at.clone(), &left.join(&glue));
            }
        }
        if matches!(op, "-" | "/" | "%" | "^" | "++" | "<" | "≤") && texts.len() == 2 {
            self.replace(part, at.clone(), &format!("{}{glue}{}", texts[1], texts[0]));
        }
    }

    /// A call: a head and its arguments.
    fn call(&mut self, part: &Part, at: Range<usize>) {
        let atoms = atoms(&part.tokens, at.clone());
        let texts: Vec<String> = atoms
            .iter()
            .map(|a| text_of(self.file, part, a.clone()).to_string())
            .collect();
        let head = texts[0].as_str();
        if texts.len() == 2 && matches!(head, "suc" | "not") {
            self.replace(part, at.clone(), &texts[1]);
        }
        if texts.len() == 2 && head == "some" {
            let known = self.imports.contains("none");
            self.change(
                part,
                at.clone(),
                "none".to_string(),
                (!known).then(|| "use Rattle.std.proofs.Math.Option.{none}".to_string()),
            );
        }
        // an argument in brackets, or with a field
        let compound = |i: usize| {
            let after = part.tokens.get(atoms[i].start + 1);
            texts[i].starts_with('(')
                || (atoms[i].len() > 1 && after.is_some_and(|t| t.text.starts_with('.')))
        };
        for i in 1..atoms.len() {
            if i + 1 < atoms.len() && !COMMUTATIVE.contains(&head) {
                let both = atoms[i].start..atoms[i + 1].end;
                self.replace(part, both, &format!("{} {}", texts[i + 1], texts[i]));
            }
            for j in [i - 1, i + 1]
                .into_iter()
                .filter(|&j| j > 0 && j < atoms.len())
            {
                if compound(i) || compound(j) {
                    self.replace(part, atoms[i].clone(), &texts[j]);
                }
            }
        }
        for atom in atoms {
            let words = &part.tokens;
            match words[atom.start].text.as_str() {
                "(" => self.region(part, atom.start + 1..closing(words, atom.start)),
                "record" => {
                    let end = closing(words, atom.start + 1);
                    self.fields(part, atom.start + 2..end);
                    self.region(part, atom.start + 2..end);
                }
                _ => {}
            }
        }
    }

    /// A field's value becomes that of a neighbouring field.
    fn fields(&mut self, part: &Part, at: Range<usize>) {
        let words = &part.tokens;
        let mut values: Vec<Range<usize>> = Vec::new();
        let mut i = at.start;
        let mut from = None;
        while i < at.end {
            match words[i].text.as_str() {
                "(" | "{" => i = closing(words, i),
                "=" if from.is_none() => from = Some(i + 1),
                ";" => values.extend(from.take().map(|f| f..i)),
                _ => {}
            }
            i += 1;
        }
        values.extend(from.map(|f| f..at.end));
        for i in 0..values.len() {
            for near in [i.wrapping_sub(1), i + 1] {
                if let Some(other) = values.get(near) {
                    let new = text_of(self.file, part, other.clone()).to_string();
                    self.replace(part, values[i].clone(), &new);
                }
            }
        }
    }
}

/// Heads and arguments: a word or a bracket, with the fields that are taken of it.
fn atoms(words: &[Token], at: Range<usize>) -> Vec<Range<usize>> {
    let mut found: Vec<Range<usize>> = Vec::new();
    let mut i = at.start;
    while i < at.end {
        let from = i;
        match words[i].text.as_str() {
            "(" | "{" => i = closing(words, i),
            "record" if words.get(i + 1).is_some_and(|t| t.text == "{") => {
                i = closing(words, i + 1)
            }
            _ => {}
        }
        i += 1;
        let field = words[from].text.starts_with('.');
        match found.last_mut() {
            Some(last) if field => last.end = i,
            _ => found.push(from..i),
        }
    }
    found
}
