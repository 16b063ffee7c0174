//! The commands: each turns its arguments into an answer.

mod after;
mod build;
mod check;
mod compare;
mod draw;
mod inventory;
mod page;
mod print;
mod way;

use std::fs;

use crate::arguments::{wrong, Arguments};
use crate::input::{read, Failure, Given, Subject};
use crate::json::Json;
use crate::names::Names;
use crate::refusal::count;

/// What a command has to say.
#[derive(Debug, Default)]
pub struct Answer {
    /// 0 nothing found or same, 1 findings or a difference, 2 refused.
    pub status: u8,
    /// For standard output, or the file that is named.
    pub output: Vec<u8>,
    /// For standard error.
    pub notes: Vec<String>,
    /// Whether the output is no text.
    pub binary: bool,
}

#[derive(Clone, Copy, Debug, PartialEq, Eq)]
pub enum Command {
    Check,
    Build,
    Compile,
    Print,
    Compare,
    After,
    Way,
    Page,
    Draw,
    Inventory,
}

impl Command {
    pub const ALL: [Command; 10] = [
        Command::Check,
        Command::Build,
        Command::Compile,
        Command::Print,
        Command::Compare,
        Command::After,
        Command::Way,
        Command::Page,
        Command::Draw,
        Command::Inventory,
    ];

    pub fn named(word: &str) -> Option<Command> {
        Command::ALL.into_iter().find(|command| command.word() == word)
    }

    pub fn word(self) -> &'static str {
        self.usage().split(' ').next().unwrap_or_default()
    }

    /// The command with its arguments.
    pub fn usage(self) -> &'static str {
        match self {
            Command::Check => "check [--names FILE] [--json] [-o FILE] FILE..",
            Command::Build => "build [-o BOOK] FILE",
            Command::Compile => "compile [-o POLICY] FILE",
            Command::Print => "print [--names FILE] [-o TEXT] FILE",
            Command::Compare => "compare [--by-order] [--names FILE] [--json] [-o FILE] FILE FILE",
            Command::After => "after [--names FILE] [--json] [-o FILE] FILE [STEP.. | state NUMBER]",
            Command::Way => "way [--names FILE] [--json] [-o FILE] FILE REQUEST OUTCOME",
            Command::Page => "page [--key] [--names FILE] [--json] [-o FILE] FILE",
            Command::Draw => "draw [--names FILE] [-o SVG] [OPTION..] FILE",
            Command::Inventory => "inventory [--json] [-o FILE] FILE..",
        }
    }

    pub fn options(self) -> &'static [&'static str] {
        match self {
            Command::Build | Command::Compile => &["--output"],
            Command::Print => &["--names", "--output"],
            Command::Draw => &["--names", "--output", "--no-events", "--whole", "--finding", "--after"],
            Command::Page => &["--names", "--json", "--output", "--key"],
            Command::Inventory => &["--json", "--output"],
            Command::Compare => &["--names", "--json", "--output", "--by-order"],
            Command::Check | Command::After | Command::Way => &["--names", "--json", "--output"],
        }
    }

    pub fn run(self, arguments: &Arguments) -> Result<Answer, Failure> {
        self.keeps_input(arguments)?;
        match self {
            Command::Check => check::check(arguments),
            Command::Build => build::build(arguments),
            Command::Compile => build::compile(arguments),
            Command::Print => print::print(arguments),
            Command::Compare => compare::compare(arguments),
            Command::After => after::after(arguments),
            Command::Way => way::way(arguments),
            Command::Page => page::page(arguments),
            Command::Draw => draw::draw(arguments),
            Command::Inventory => inventory::inventory(arguments),
        }
    }

    /// That no file is written over one that is read, but a text by `print`, which
    /// writes the same rules.
    fn keeps_input(self, arguments: &Arguments) -> Result<(), Failure> {
        let output = arguments.output.as_deref().and_then(|output| fs::canonicalize(output).ok());
        let Some(output) = output.filter(|output| output.is_file()) else {
            return Ok(());
        };
        let is_output = |word: &&String| fs::canonicalize(word).is_ok_and(|path| path == output);
        let printed = self == Command::Print && !arguments.names.iter().any(|names| is_output(&names));
        match arguments.words.iter().chain(&arguments.names).find(is_output) {
            Some(word) if !(printed && is_text(word)) => {
                let message = format!("{word} is read, and would be written over; name another file after -o");
                Err(wrong(&message, Some(self)))
            }
            _ => Ok(()),
        }
    }
}

/// Whether a file has neither the mark of a policy file nor that of a book.
fn is_text(file: &str) -> bool {
    fs::read(file).is_ok_and(|bytes| !bytes.starts_with(b"POL") && !bytes.starts_with(b"BOK"))
}

/// The names given by `--names`.
fn given(arguments: &Arguments) -> Result<Option<Given>, Failure> {
    arguments.names.as_deref().map(Given::read).transpose()
}

/// The one file that a command takes.
fn one_file(arguments: &Arguments, command: Command) -> Result<&str, Failure> {
    match &arguments.words[..] {
        [file] => Ok(file),
        [] => Err(wrong("no file is named", Some(command))),
        [_, more, ..] => {
            let hint = match command {
                Command::Draw => {
                    "the picture is written to the file after -o, and the steps of --after stand in quotes"
                }
                _ => "the file to write stands after -o",
            };
            Err(wrong(&format!("one file is expected, and `{more}` is one more; {hint}"), Some(command)))
        }
    }
}

/// Only one of several files can be standard input.
fn one_standard_input(arguments: &Arguments, command: Command) -> Result<(), Failure> {
    let named = arguments.words.iter().chain(&arguments.names);
    match named.filter(|&word| word == "-").count() > 1 {
        true => Err(wrong("only one file can be standard input, `-`", Some(command))),
        false => Ok(()),
    }
}

/// The book of a file, with its names.
fn subject(file: &str, arguments: &Arguments) -> Result<Subject, Failure> {
    let given = given(arguments)?;
    read(file)?.subject(given.as_ref())
}

/// An answer of lines, or for machines.
fn answer(arguments: &Arguments, status: u8, words: String, json: Json) -> Answer {
    let output = if arguments.json { format!("{json}\n") } else { words };
    Answer { status, output: output.into_bytes(), ..Answer::default() }
}

/// "after" a history, or "at the start".
fn after_words(names: &Names, history: &[u8]) -> String {
    match history {
        [] => "at the start".to_string(),
        _ => format!("after {}", names.history(history)),
    }
}

fn request_json(names: &Names, request: usize) -> Json {
    Json::Object(vec![("number", request.into()), ("name", names.request(request).into())])
}

fn history_json(names: &Names, history: &[u8]) -> Json {
    let step = |&code: &u8| {
        let code = usize::from(code);
        Json::Object(vec![("code", code.into()), ("name", names.step(code).into())])
    };
    history.iter().map(step).collect()
}
