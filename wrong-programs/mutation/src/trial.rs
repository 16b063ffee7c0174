//! Tries changes: each is written into a copy of the repository, and the prover checks the crate alone.

use std::collections::{BTreeMap, HashMap, HashSet};
use std::fs;
use std::io::Write;
use std::path::{Path, PathBuf};
use std::process::Command;
use std::sync::atomic::{AtomicUsize, Ordering};
use std::sync::Mutex;

use crate::antt::File;
use crate::rules::{shown, Mutant};
use crate::side_by_side::SideBySide;

#[derive(Clone, Copy, PartialEq, Eq, Debug)]
pub enum Outcome {
    /// The change does not type-check: it is no definition.
    Untyped,
    /// A case of the crate's table no longer holds.
    ByCase,
    /// The proof of a law, a theorem or a function no longer holds.
    ByLaw,
    Survives,
}

const OUTCOMES: [Outcome; 4] = [
    Outcome::Untyped,
    Outcome::ByCase,
    Outcome::ByLaw,
    Outcome::Survives,
];

impl Outcome {
    fn word(self) -> &'static str {
        match self {
            Outcome::Untyped => "untyped",
            Outcome::ByCase => "case",
            Outcome::ByLaw => "law",
            Outcome::Survives => "survives",
        }
    }

    fn of(word: &str) -> Option<Outcome> {
        OUTCOMES.into_iter().find(|o| o.word() == word)
    }
}

/// A change to be tried: of the file `path` in `crates/`.
pub struct Trial<'a> {
    pub path: &'a str,
    pub file: &'a File,
    pub mutant: &'a Mutant,
}

impl Trial<'_> {
    /// What names the change in the log: it stays the same while the definition does.
    pub fn key(&self) -> String {
        let Mutant {
            definition,
            at,
            new,
            part,
            ..
        } = self.mutant;
        let mut sum = 0xcbf29ce484222325u64;
        let place = format!("{} {}", at.start - part.start, at.end - part.start);
        let parts = [
            self.path,
            definition,
            &self.file.text[part.clone()],
            &place,
            new,
        ];
        for byte in parts.join("\n").bytes() {
            sum = (sum ^ u64::from(byte)).wrapping_mul(0x100000001b3);
        }
        format!("{sum:016x}")
    }

    fn crate_name(&self) -> &str {
        self.path.split('/').next().unwrap()
    }

    /// The file with the change.
    fn text(&self) -> String {
        let at = &self.mutant.at;
        let mut text = format!(
            "{}{}{}",
            &self.file.text[..at.start],
            self.mutant.new,
            &self.file.text[at.end..]
        );
        if let Some(import) = &self.mutant.import {
            let first = if text.starts_with("use ") {
                0
            } else {
                text.find("\nuse ").map_or(0, |n| n + 1)
            };
            text.insert_str(first, &format!("{import}\n"));
        }
        text
    }
}

/// The outcomes that are known: a line for each, the key and a word.
pub struct Log {
    path: PathBuf,
    known: Mutex<HashMap<String, Outcome>>,
}

impl Log {
    pub fn open(path: PathBuf) -> Log {
        let text = fs::read_to_string(&path).unwrap_or_default();
        let known = text
            .lines()
            .filter_map(|l| l.split_once('\t'))
            .filter_map(|(k, w)| Some((k.to_string(), Outcome::of(w)?)))
            .collect();
        Log {
            path,
            known: Mutex::new(known),
        }
    }

    pub fn get(&self, key: &str) -> Option<Outcome> {
        self.known.lock().unwrap().get(key).copied()
    }

    fn put(&self, key: String, outcome: Outcome) {
        let mut known = self.known.lock().unwrap();
        let mut file = fs::OpenOptions::new()
            .create(true)
            .append(true)
            .open(&self.path)
            .expect("the log can be written");
        writeln!(file, "{key}\t{}", outcome.word()).expect("the log can be written");
        known.insert(key, outcome);
    }
}

/// Copies of the repository for one worker. Of a crate with a table of cases one copy has no other proofs, so that a change which a case refuses is refused in
/// a second, and another one all but the cases, which were passed already. One more copy serves the crates without such a table.
struct Copy {
    folder: PathBuf,
}

impl Copy {
    fn at(number: usize) -> Copy {
        Copy {
            folder: std::env::temp_dir().join(format!("mutation-{}-{number}", std::process::id())),
        }
    }

    /// Copies in which each of the crates has been checked as it stands.
    fn made(root: &Path, number: usize, crates: &HashSet<&str>) -> Copy {
        let copies = Copy::at(number);
        for name in crates {
            let proofs = Path::new("crates").join(name).join("proofs");
            if root.join(&proofs).join("Cases.antt").exists() {
                copy(root, &copies.cases(name));
                only_cases(&copies.cases(name).join(&proofs));
                let (proved, said) = prover(&copies.cases(name), name);
                assert!(proved, "the cases of {name} hold as they stand:\n{said}");
                copy(root, &copies.folder.join(format!("laws-{name}")));
                without_cases(&copies.laws(name).join(&proofs));
            } else if !copies.folder.join("laws").exists() {
                copy(root, &copies.folder.join("laws"));
            }
            let (proved, said) = prover(&copies.laws(name), name);
            assert!(proved, "{name} is proved as it stands:\n{said}");
        }
        copies
    }

    /// The same, taken over.
    fn again(&self, number: usize) -> Copy {
        let copies = Copy::at(number);
        let done = Command::new("cp")
            .arg("-r")
            .arg(&self.folder)
            .arg(&copies.folder)
            .status()
            .expect("cp");
        assert!(done.success(), "the copies are copied");
        copies
    }

    fn laws(&self, name: &str) -> PathBuf {
        let own = self.folder.join(format!("laws-{name}"));
        if own.exists() {
            own
        } else {
            self.folder.join("laws")
        }
    }

    fn cases(&self, name: &str) -> PathBuf {
        self.folder.join(format!("cases-{name}"))
    }

    /// None, if the cases alone are asked and let the change pass.
    fn outcome(&self, trial: &Trial, cases_alone: bool) -> Option<Outcome> {
        let name = trial.crate_name();
        if self.cases(name).exists() {
            match tried(&self.cases(name), trial) {
                None => {}
                Some(Outcome::ByLaw) => return Some(Outcome::ByCase),
                outcome => return outcome,
            }
        }
        if cases_alone {
            return None;
        }
        Some(tried(&self.laws(name), trial).unwrap_or(Outcome::Survives))
    }
}

/// What is wrong with the change in one of the copies, if the prover does not let it pass.
fn tried(folder: &Path, trial: &Trial) -> Option<Outcome> {
    let place = folder.join("crates").join(trial.path);
    fs::write(&place, trial.text()).expect("the change is written");
    let (proved, said) = prover(folder, trial.crate_name());
    fs::write(&place, &trial.file.text).expect("the change is taken back");
    let untyped = errors(&said).any(|place| place.starts_with("specs/"));
    match (proved, untyped) {
        (true, _) => None,
        (false, true) => Some(Outcome::Untyped),
        (false, false) => Some(Outcome::ByLaw),
    }
}

/// The places of the errors that the prover tells, as `specs/Bytes.antt:7:13`, by the path in the crate.
fn errors(said: &str) -> impl Iterator<Item = &str> {
    said.lines()
        .filter_map(|line| line.split_once(": error: "))
        .map(|(place, _)| place.strip_prefix("./").unwrap_or(place))
}

/// Finds the changes that do not type-check, those of one file in one run.
fn sort_out(copy: &Copy, trials: &[&Trial], log: &Log) {
    let mut files: BTreeMap<&str, Vec<&Trial>> = BTreeMap::new();
    for trial in trials.iter().filter(|t| log.get(&t.key()).is_none()) {
        files.entry(trial.path).or_default().push(trial);
    }
    for (path, trials) in files {
        let all = SideBySide::of(trials[0].file, &trials);
        let folder = copy.laws(trials[0].crate_name());
        let place = folder.join("crates").join(path);
        fs::write(&place, &all.text).expect("the changes are written");
        let (_, said) = prover(&folder, trials[0].crate_name());
        fs::write(&place, &trials[0].file.text).expect("the changes are taken back");
        let inner = path.split_once('/').map_or(path, |(_, inner)| inner);
        let wrong: Vec<usize> = errors(&said)
            .filter_map(|place| {
                let rest = place.strip_prefix(inner)?.strip_prefix(':')?;
                rest.split(':').next()?.parse().ok()
            })
            .collect();
        let mut untyped = 0;
        for (i, trial) in trials.iter().enumerate() {
            if all.untyped(i, &trial.mutant.definition, &wrong) {
                log.put(trial.key(), Outcome::Untyped);
                untyped += 1;
            }
        }
        eprintln!(
            "{path}: {untyped} of {} changes do not type-check",
            trials.len()
        );
    }
}

fn only_cases(proofs: &Path) {
    let table = fs::read(proofs.join("Cases.antt")).expect("the table of cases");
    fs::remove_dir_all(proofs).expect("the proofs are removed");
    fs::create_dir(proofs).expect("a folder for the cases");
    fs::write(proofs.join("Cases.antt"), table).expect("the table of cases");
    fs::write(proofs.join("Lib.antt"), "pub mod Cases\n").expect("the root of the proofs");
}

fn without_cases(proofs: &Path) {
    let root = fs::read_to_string(proofs.join("Lib.antt")).expect("the root of the proofs");
    fs::write(proofs.join("Lib.antt"), root.replace("pub mod Cases\n", ""))
        .expect("the root of the proofs");
    fs::remove_file(proofs.join("Cases.antt")).expect("the table of cases is removed");
}

/// Copies the crates without what rt keeps of them: it takes over by itself what a check in another folder has kept.
fn copy(root: &Path, folder: &Path) {
    fs::create_dir_all(folder).expect("a folder for a copy");
    let done = Command::new("sh")
        .args([
            "-c",
            "tar -c --exclude='crates/*/out' crates crates.txt | tar -x -C \"$0\"",
        ])
        .arg(folder)
        .current_dir(root)
        .status()
        .expect("sh");
    assert!(done.success(), "the repository is copied");
}

/// Whether the prover lets a crate pass, and its words. It takes what an earlier run has checked and the change does not touch.
fn prover(folder: &Path, name: &str) -> (bool, String) {
    let done = Command::new("rt")
        .args(["check", "--jobs", "1"])
        .current_dir(folder.join("crates").join(name))
        .output()
        .expect("rt");
    (
        done.status.success(),
        String::from_utf8_lossy(&done.stdout).into_owned() + &String::from_utf8_lossy(&done.stderr),
    )
}

impl Drop for Copy {
    fn drop(&mut self) {
        let _ = fs::remove_dir_all(&self.folder);
    }
}

/// Tries every change whose outcome is not known, `jobs` at a time. A change that survived is tried again: what refuses it may have been added.
pub fn run(root: &Path, trials: &[Trial], log: &Log, jobs: usize, cases_alone: bool) {
    let open: Vec<&Trial> = trials
        .iter()
        .filter(|t| matches!(log.get(&t.key()), None | Some(Outcome::Survives)))
        .collect();
    let crates: HashSet<&str> = open.iter().map(|t| t.crate_name()).collect();
    if open.is_empty() {
        return;
    }
    let made = Copy::made(root, jobs, &crates);
    sort_out(&made, &open, log);
    let open: Vec<&Trial> = open
        .into_iter()
        .filter(|t| log.get(&t.key()) != Some(Outcome::Untyped))
        .collect();
    let next = AtomicUsize::new(0);
    std::thread::scope(|scope| {
        for number in 0..jobs {
            let (open, made, next) = (&open, &made, &next);
            scope.spawn(move || {
                let copy = made.again(number);
                loop {
                    let i = next.fetch_add(1, Ordering::Relaxed);
                    let Some(trial) = open.get(i) else { break };
                    let outcome = copy.outcome(trial, cases_alone);
                    if matches!(outcome, None | Some(Outcome::Survives)) {
                        println!(
                            "survives: {} {}: {}",
                            trial.path,
                            trial.mutant.definition,
                            shown(trial.file, trial.mutant)
                        );
                    }
                    if i % 100 == 99 {
                        eprintln!("{} of {} tried", i + 1, open.len());
                    }
                    if let Some(outcome) = outcome {
                        log.put(trial.key(), outcome);
                    }
                }
            });
        }
    });
}
