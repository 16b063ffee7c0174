//! The words of the command line: a command, options, files and further words.

use crate::commands::Command;
use crate::input::Failure;
use crate::notation::did_you_mean_word;

/// What the tool is asked to do.
#[derive(Debug, Default)]
pub struct Arguments {
    /// What stands after the command and is no option.
    pub words: Vec<String>,
    /// The text that has the names.
    pub names: Option<String>,
    /// The file to write.
    pub output: Option<String>,
    pub json: bool,
    /// `draw`: without events.
    pub no_events: bool,
    /// `draw`: the path of this finding.
    pub finding: Option<String>,
    /// `draw`: the path of these steps.
    pub after: Option<String>,
    /// `draw`: also where there are many states.
    pub whole: bool,
    /// `page`: what the columns stand for.
    pub key: bool,
    /// `compare`: by the order of events and values, whatever their names are.
    pub by_order: bool,
}

/// What the command line says.
#[derive(Debug)]
pub enum Call {
    Run(Command, Arguments),
    Help(Option<Command>),
    Version,
}

/// Reads the command line, without the program's name.
pub fn read(words: Vec<String>) -> Result<Call, Failure> {
    let mut words = words.into_iter();
    let command = match words.next().as_deref() {
        None => return Err(wrong("no command is given", None)),
        Some("help" | "--help" | "-h") => return help_on(words.next()),
        Some("--version" | "-V") => return Ok(Call::Version),
        Some(word) => command_named(word)?,
    };
    let mut arguments = Arguments::default();
    let mut only_words = false;
    while let Some(word) = words.next() {
        if only_words || word == "-" || !word.starts_with('-') {
            arguments.words.push(word);
            continue;
        }
        if word == "--" {
            only_words = true;
            continue;
        }
        if word == "--help" || word == "-h" {
            return Ok(Call::Help(Some(command)));
        }
        option(command, &mut arguments, &word, &mut words)?;
    }
    Ok(Call::Run(command, arguments))
}

fn help_on(word: Option<String>) -> Result<Call, Failure> {
    match word.as_deref() {
        None | Some("help" | "--help" | "-h") => Ok(Call::Help(None)),
        Some(word) => Ok(Call::Help(Some(command_named(word)?))),
    }
}

fn command_named(word: &str) -> Result<Command, Failure> {
    Command::named(word).ok_or_else(|| {
        let words = Command::ALL.map(Command::word);
        match did_you_mean_word(word, &words) {
            hint if hint.is_empty() => wrong(&format!("`{word}` is no command; there are {}", words.join(", ")), None),
            hint => wrong(&format!("`{word}` is no command; {hint}"), None),
        }
    })
}

/// Takes an option; its value is behind `=` or the next word.
fn option(
    command: Command,
    arguments: &mut Arguments,
    word: &str,
    words: &mut impl Iterator<Item = String>,
) -> Result<(), Failure> {
    let (name, value) = match word.split_once('=') {
        Some((name, value)) if name.starts_with("--") => (name, Some(value.to_string())),
        _ => (word, None),
    };
    let name = if name == "-o" { "--output" } else { name };
    if !command.options().contains(&name) {
        return Err(wrong(&format!("`{}` has no option `{name}`", command.word()), Some(command)));
    }
    let takes_value = ["--names", "--output", "--finding", "--after"].contains(&name);
    let value = match (takes_value, value) {
        (false, Some(_)) => return Err(wrong(&format!("`{name}` takes no value"), Some(command))),
        (false, None) => String::new(),
        (true, Some(value)) => value,
        (true, None) => words.next().ok_or_else(|| wrong(&format!("`{name}` takes a value"), Some(command)))?,
    };
    match name {
        "--names" => arguments.names = Some(value),
        "--output" => arguments.output = Some(value),
        "--finding" => arguments.finding = Some(value),
        "--after" => arguments.after = Some(value),
        "--json" => arguments.json = true,
        "--no-events" => arguments.no_events = true,
        "--whole" => arguments.whole = true,
        "--by-order" => arguments.by_order = true,
        _ => arguments.key = true,
    }
    Ok(())
}

/// A wrong use, with where to look.
pub fn wrong(message: &str, command: Option<Command>) -> Failure {
    let (usage, help) = match command {
        Some(command) => {
            (format!("usage: policybook {}\n", command.usage()), format!("policybook {} --help", command.word()))
        }
        None => (String::new(), "policybook --help".to_string()),
    };
    Failure::of_use(format!("policybook: {message}\n{usage}see `{help}`"))
}
