//! Changes the believed definitions by rule, one place at a time (mutation testing), and tries whether the crate refuses each change.
//!
//!     mutation [--list | --cases | --known] [--jobs N] [--fresh] [--write] [--since COMMIT] [FILE..]
//!
//! FILE is a path below `crates/`, as `definitions/specs/Policy.antt`; without one, every file of definitions that a promise rests on is
//! taken, as `tools/believe --files` lists them. Outcomes are kept in `results.tsv` beside this program, so that a run goes on where the
//! last one broke off: a change that was refused is tried again only if its definition is another one. `--fresh` forgets everything.
//! `--list` shows the changes and tries none, `--cases` tries them against the tables of cases alone and shows what these let pass,
//! `--known` tries none and tells what is known. `--since` takes those changes only that could not be made at a commit of the repository:
//! those of definitions that were added or are other ones now.
//! `--write` puts the tables into docs/WRONG-PROGRAMS.md. Survivors that change nothing stand in `equivalent.txt` with the reason. Exit
//! status 1 if another one survives.

mod antt;
mod report;
mod rules;
mod side_by_side;
mod trial;

use std::collections::{BTreeMap, BTreeSet};
use std::fs;
use std::path::{Path, PathBuf};
use std::process::{Command, ExitCode};

use antt::File;
use rules::{Declared, Mutant};
use trial::{Log, Trial};

struct Options {
    list: bool,
    cases: bool,
    known: bool,
    fresh: bool,
    write: bool,
    since: Option<String>,
    jobs: usize,
    files: Vec<String>,
}

fn options() -> Option<Options> {
    let mut chosen = Options {
        list: false,
        cases: false,
        known: false,
        fresh: false,
        write: false,
        since: None,
        jobs: 2,
        files: Vec::new(),
    };
    let mut words = std::env::args().skip(1);
    while let Some(word) = words.next() {
        match word.as_str() {
            "--list" => chosen.list = true,
            "--cases" => chosen.cases = true,
            "--known" => chosen.known = true,
            "--fresh" => chosen.fresh = true,
            "--write" => chosen.write = true,
            "--since" => chosen.since = Some(words.next()?),
            "--jobs" => chosen.jobs = words.next()?.parse().ok().filter(|&n| n > 0)?,
            _ if word.starts_with('-') => return None,
            _ => chosen
                .files
                .push(word.strip_prefix("crates/").unwrap_or(&word).to_string()),
        }
    }
    Some(chosen)
}

/// The repository: the folder above this one that has `crates.txt`.
fn root() -> PathBuf {
    let here = Path::new(env!("CARGO_MANIFEST_DIR"));
    here.ancestors()
        .find(|f| f.join("crates.txt").exists())
        .expect("a folder with crates.txt")
        .to_path_buf()
}

fn believed(root: &Path) -> Vec<String> {
    let listed = Command::new(root.join("tools/believe"))
        .arg("--files")
        .output()
        .expect("tools/believe");
    let text = String::from_utf8(listed.stdout).expect("paths");
    let paths = text
        .split_whitespace()
        .filter_map(|word| word.strip_prefix("crates/"));
    paths
        .filter(|path| path.contains("/specs/") && path.ends_with(".antt"))
        .map(str::to_string)
        .collect()
}

/// The changes of a file as it stood at a commit; none where it was not there.
fn changes_at(root: &Path, commit: &str, path: &str, names: &Declared) -> BTreeSet<String> {
    let shown = Command::new("git")
        .arg("-C")
        .arg(root)
        .args(["show", &format!("{commit}:crates/{path}")])
        .output()
        .expect("git");
    let file = File::read(String::from_utf8(shown.stdout).expect("text"));
    let mutants = rules::mutants(&file, names);
    mutants.iter().map(|mutant| named(&file, mutant)).collect()
}

/// A change with the name of its definition.
fn named(file: &File, mutant: &Mutant) -> String {
    format!("{}: {}", mutant.definition, rules::shown(file, mutant))
}

/// Every name that a file of definitions declares, with its type.
fn declared(root: &Path) -> Declared {
    let mut found = Vec::new();
    antt_files(&root.join("crates"), &mut found);
    let mut names = Declared::new();
    for path in found
        .iter()
        .filter(|p| p.components().any(|c| c.as_os_str() == "specs"))
    {
        let file = File::read(fs::read_to_string(path).expect("a file of definitions"));
        let short = path
            .strip_prefix(root.join("crates"))
            .expect("a path below crates")
            .to_string_lossy()
            .into_owned();
        names.insert(
            short,
            file.declared
                .into_iter()
                .map(|(_, name, kind)| (name, kind))
                .collect(),
        );
    }
    names
}

fn antt_files(folder: &Path, found: &mut Vec<PathBuf>) {
    for entry in fs::read_dir(folder).expect("a folder") {
        let path = entry.expect("an entry").path();
        if path.is_dir() {
            antt_files(&path, found);
        } else if path.extension().is_some_and(|e| e == "antt") {
            found.push(path);
        }
    }
}

fn main() -> ExitCode {
    let Some(chosen) = options() else {
        eprintln!(
            "usage: mutation [--list | --cases | --known] [--jobs N] [--fresh] [--write] [--since COMMIT] [FILE..]"
        );
        return ExitCode::from(2);
    };
    let root = root();
    let names = declared(&root);
    let paths = if chosen.files.is_empty() {
        believed(&root)
    } else {
        chosen.files.clone()
    };
    let mut files: BTreeMap<String, (File, Vec<Mutant>)> = BTreeMap::new();
    for path in &paths {
        let file = File::read(
            fs::read_to_string(root.join("crates").join(path))
                .unwrap_or_else(|e| panic!("{path}: {e}")),
        );
        let mut mutants = rules::mutants(&file, &names);
        if let Some(commit) = &chosen.since {
            let before = changes_at(&root, commit, path, &names);
            mutants.retain(|mutant| !before.contains(&named(&file, mutant)));
        }
        files.insert(path.clone(), (file, mutants));
    }
    let trials: Vec<Trial> = files
        .iter()
        .flat_map(|(path, (file, mutants))| {
            mutants
                .iter()
                .map(move |mutant| Trial { path, file, mutant })
        })
        .collect();
    if chosen.list {
        for t in &trials {
            println!("{} {}", t.path, named(t.file, t.mutant));
        }
        println!("{} changes", trials.len());
        return ExitCode::SUCCESS;
    }
    let here = root.join("wrong-programs/mutation");
    let results = here.join("results.tsv");
    if chosen.fresh {
        let _ = fs::remove_file(&results);
    }
    let log = Log::open(results);
    if !chosen.known {
        trial::run(&root, &trials, &log, chosen.jobs, chosen.cases);
    }
    if chosen.cases {
        return ExitCode::SUCCESS;
    }
    let reasons = report::Reasons::read(&here.join("equivalent.txt"));
    let report = report::Report::of(&trials, &log, &reasons);
    print!("{}", report.table());
    if chosen.write {
        report.write(&root.join("docs/WRONG-PROGRAMS.md"));
    }
    for line in report.complaints() {
        eprintln!("{line}");
    }
    if report.complaints().is_empty() {
        ExitCode::SUCCESS
    } else {
        ExitCode::FAILURE
    }
}
