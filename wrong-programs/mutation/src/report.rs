//! The table of what was refused and what survives, with the reasons why a survivor changes nothing.

use std::collections::{BTreeMap, BTreeSet};
use std::fs;
use std::path::Path;

use crate::rules::shown;
use crate::trial::{Log, Outcome, Trial};

/// The survivors that change nothing: file, definition and change, and the reason. In the file an entry is four lines: `FILE DEFINITION`, and indented the
/// change as the program shows it and the reason; lines that begin with `#` are comments.
pub struct Reasons {
    known: BTreeMap<(String, String), String>,
}

impl Reasons {
    pub fn read(path: &Path) -> Reasons {
        let text = fs::read_to_string(path).unwrap_or_default();
        let mut known = BTreeMap::new();
        let mut place = String::new();
        let mut changes: Vec<String> = Vec::new();
        for line in text
            .lines()
            .filter(|l| !l.starts_with('#') && !l.trim().is_empty())
        {
            if !line.starts_with(' ') {
                place = line.trim().to_string();
                changes.clear();
            } else if let Some(reason) = line.trim().strip_prefix("because ") {
                for change in changes.drain(..) {
                    known.insert((place.clone(), change), reason.to_string());
                }
            } else {
                changes.push(line.trim().to_string());
            }
        }
        Reasons { known }
    }
}

#[derive(Default)]
struct Count {
    by_case: usize,
    by_law: usize,
    survive: usize,
}

impl Count {
    fn row(&self, name: &str) -> String {
        let Count {
            by_case,
            by_law,
            survive,
        } = self;
        format!(
            "| {name} | {} | {by_case} | {by_law} | {survive} |\n",
            by_case + by_law + survive
        )
    }
}

pub struct Report {
    counts: BTreeMap<String, Count>,
    /// Place, change and reason.
    survivors: Vec<(String, String, Option<String>)>,
    stale: Vec<String>,
}

impl Report {
    pub fn of(trials: &[Trial], log: &Log, reasons: &Reasons) -> Report {
        let mut report = Report {
            counts: BTreeMap::new(),
            survivors: Vec::new(),
            stale: Vec::new(),
        };
        let mut met = BTreeSet::new();
        let paths: BTreeSet<&str> = trials.iter().map(|t| t.path).collect();
        for trial in trials {
            let count = report.counts.entry(trial.path.to_string()).or_default();
            match log.get(&trial.key()) {
                Some(Outcome::ByCase) => count.by_case += 1,
                Some(Outcome::ByLaw) => count.by_law += 1,
                Some(Outcome::Survives) => {
                    count.survive += 1;
                    let key = (
                        format!("{} {}", trial.path, trial.mutant.definition),
                        shown(trial.file, trial.mutant),
                    );
                    let reason = reasons.known.get(&key).cloned();
                    met.insert(key.clone());
                    report.survivors.push((key.0, key.1, reason));
                }
                Some(Outcome::Untyped) | None => {}
            }
        }
        for key in reasons.known.keys().filter(|k| !met.contains(*k)) {
            if paths.contains(key.0.split(' ').next().unwrap_or_default()) {
                report.stale.push(format!(
                    "a reason for what does not survive: {}: {}",
                    key.0, key.1
                ));
            }
        }
        report
    }

    pub fn table(&self) -> String {
        let mut text = String::from("| file | changes | refused by a case | refused by a law or a proof | survive |\n|---|---:|---:|---:|---:|\n");
        let mut total = Count::default();
        for (path, count) in &self.counts {
            text += &count.row(&format!("`crates/{path}`"));
            total.by_case += count.by_case;
            total.by_law += count.by_law;
            total.survive += count.survive;
        }
        text += &total.row("together");
        let mut by_reason: BTreeMap<(&str, &str), Vec<&str>> = BTreeMap::new();
        for (place, change, reason) in &self.survivors {
            by_reason
                .entry((place, reason.as_deref().unwrap_or("no reason")))
                .or_default()
                .push(change);
        }
        if !by_reason.is_empty() {
            text += "\n| definition | what survives | why it changes nothing |\n|---|---|---|\n";
        }
        for ((place, reason), changes) in by_reason {
            let shown: Vec<String> = changes
                .iter()
                .map(|c| format!("`{}`", c.replace('|', "\\|")))
                .collect();
            text += &format!(
                "| {} | {} | {reason} |\n",
                place.replace(' ', ": "),
                shown.join("<br>")
            );
        }
        text
    }

    /// The table, between its two marks in a document.
    pub fn write(&self, document: &Path) {
        let text = fs::read_to_string(document).expect("the document");
        let (head, rest) = text
            .split_once("<!-- mutation -->\n")
            .expect("the mark of the table");
        let (_, tail) = rest
            .split_once("<!-- end of mutation -->")
            .expect("the mark after the table");
        fs::write(
            document,
            format!(
                "{head}<!-- mutation -->\n{}<!-- end of mutation -->{tail}",
                self.table()
            ),
        )
        .expect("the document can be written");
    }

    /// Survivors without a reason, and reasons for what does not survive.
    pub fn complaints(&self) -> Vec<String> {
        let open = self
            .survivors
            .iter()
            .filter(|s| s.2.is_none())
            .map(|s| format!("survives without a reason: {}: {}", s.0, s.1));
        open.chain(self.stale.iter().cloned()).collect()
    }
}
