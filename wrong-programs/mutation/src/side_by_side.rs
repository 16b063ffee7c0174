//! All changes of a file in one: which of them type-check is found out in one run of the prover.

use std::collections::{BTreeSet, HashMap};
use std::ops::Range;

use crate::antt::File;
use crate::rules::Mutant;
use crate::trial::Trial;

/// The file with each definition once more and each change as a definition of its own after it, and the lines of each: a change that does not type-check is
/// found at its lines. The fields of records are left out.
pub struct SideBySide<'a> {
    pub text: String,
    /// The lines of a definition as it stands.
    unchanged: HashMap<&'a str, Range<usize>>,
    /// The lines of each change.
    changed: Vec<Option<Range<usize>>>,
}

impl<'a> SideBySide<'a> {
    pub fn of(file: &'a File, trials: &[&'a Trial]) -> SideBySide<'a> {
        let imports: BTreeSet<&String> = trials
            .iter()
            .filter_map(|t| t.mutant.import.as_ref())
            .collect();
        let first = if file.text.starts_with("use ") {
            0
        } else {
            file.text.find("\nuse ").map_or(0, |n| n + 1)
        };
        let mut text = file.text.clone();
        for import in imports {
            text.insert_str(first, &format!("{import}\n"));
        }
        let mut all = SideBySide {
            text,
            unchanged: HashMap::new(),
            changed: Vec::new(),
        };
        for (i, trial) in trials.iter().enumerate() {
            let name = trial.mutant.definition.as_str();
            if !all.unchanged.contains_key(name) {
                let lines = all.add(file, name, &format!("unchanged{i}"), None);
                all.unchanged.extend(lines.map(|lines| (name, lines)));
            }
            let lines = all.add(file, name, &format!("changed{i}"), Some(trial.mutant));
            all.changed.push(lines);
        }
        all
    }

    /// A definition under another name, with a change if there is one. Gives its lines.
    fn add(
        &mut self,
        file: &File,
        definition: &str,
        name: &str,
        mutant: Option<&Mutant>,
    ) -> Option<Range<usize>> {
        let signature = file.signatures.get(definition)?;
        let from = self.text.lines().count();
        self.text += &format!("\nabbrev {name}{signature}\n");
        for equation in file.equations(definition) {
            let bytes = equation.bytes();
            let patterns = equation.patterns.clone().map_or("", |p| &file.text[p]);
            let right = match mutant {
                Some(m) if m.part == bytes => format!(
                    "{}{}{}",
                    &file.text[bytes.start..m.at.start],
                    m.new,
                    &file.text[m.at.end..bytes.end]
                ),
                _ => file.text[bytes].to_string(),
            };
            self.text += &format!("{name}{patterns}= {right}\n");
        }
        Some(from + 1..self.text.lines().count() + 1)
    }

    /// The change does not type-check, and its definition as it stands does.
    pub fn untyped(&self, i: usize, definition: &str, wrong: &[usize]) -> bool {
        let hit = |lines: &Range<usize>| wrong.iter().any(|line| lines.contains(line));
        self.changed[i].as_ref().is_some_and(hit)
            && !self.unchanged.get(definition).is_some_and(hit)
    }
}
