//! Writes the guide and its files.
//!
//!     guide TEMPLATE FOLDER
//!
//! FOLDER gets GUIDE.md, and in FOLDER/guide the policies, books, pictures as text
//! for Graphviz, and answers.txt.

use std::path::Path;
use std::process::ExitCode;
use std::{env, fs};

use guide::exercises::{exercise_answers, exercise_files, exercises};
use guide::files::{answers, files_of, File};
use guide::inventory::{inventory_answers, inventory_files};
use guide::lessons::lessons;
use guide::pages::{examples, Example};
use guide::text::filled;

fn main() -> ExitCode {
    let arguments: Vec<String> = env::args().skip(1).collect();
    let result = match &arguments[..] {
        [template, folder] => write_all(template, Path::new(folder)),
        _ => Err("usage: guide TEMPLATE FOLDER".to_string()),
    };
    match result {
        Ok(()) => ExitCode::SUCCESS,
        Err(message) => {
            eprintln!("{message}");
            ExitCode::from(2)
        }
    }
}

fn write_all(template: &str, folder: &Path) -> Result<(), String> {
    let (lessons, examples, exercises) = (lessons(), examples(), exercises());
    let template =
        fs::read_to_string(template).map_err(|error| format!("cannot read {template}: {error}"))?;
    let files: Vec<File> = lessons
        .iter()
        .flat_map(files_of)
        .chain(examples.iter().flat_map(Example::files))
        .chain(exercise_files())
        .chain(inventory_files())
        .collect();
    let inner = folder.join("guide");
    fs::create_dir_all(&inner)
        .map_err(|error| format!("cannot make {}: {error}", inner.display()))?;
    write(
        &folder.join("GUIDE.md"),
        filled(&template, &lessons, &examples, &exercises, &files)?.as_bytes(),
    )?;
    let of_pages: String = examples.iter().map(Example::answers).collect();
    let of_exercises = exercise_answers(&exercises);
    let answers = answers(&lessons) + &of_pages + &of_exercises + &inventory_answers();
    write(&inner.join("answers.txt"), answers.as_bytes())?;
    for (name, bytes) in &files {
        write(&inner.join(name), bytes)?;
    }
    Ok(())
}

fn write(path: &Path, bytes: &[u8]) -> Result<(), String> {
    fs::write(path, bytes).map_err(|error| format!("cannot write {}: {error}", path.display()))
}
