//! The tool `policybook`: reads the command line, runs a command, delivers its
//! answer and ends with its status.

use std::io::Write;
use std::process::ExitCode;

use policybook::arguments::{self, Arguments, Call};
use policybook::commands::{Answer, Command};
use policybook::input::Failure;
use policybook::{help, output};

fn main() -> ExitCode {
    let words = std::env::args_os().skip(1).map(|word| word.into_string());
    let call = words.collect::<Result<Vec<String>, _>>();
    let status = match call {
        Err(word) => fail(&format!("policybook: an argument is not in UTF-8: {}", word.to_string_lossy())),
        Ok(words) => match arguments::read(words) {
            Err(failure) => fail(&failure.message),
            Ok(Call::Help(None)) => say(&help::tool()),
            Ok(Call::Help(Some(command))) => say(&help::command(command)),
            Ok(Call::Version) => say(concat!("policybook ", env!("CARGO_PKG_VERSION"), "\n")),
            Ok(Call::Run(command, arguments)) => run(command, &arguments),
        },
    };
    ExitCode::from(status)
}

fn run(command: Command, arguments: &Arguments) -> u8 {
    match command.run(arguments) {
        Err(failure) => refuse(&failure, arguments),
        Ok(answer) => deliver(answer, command, arguments),
    }
}

/// A failure goes to standard error, and for machines to standard output too.
fn refuse(failure: &Failure, arguments: &Arguments) -> u8 {
    if arguments.json {
        let _ = say(&format!("{}\n", failure.json));
    }
    fail(&failure.message)
}

fn deliver(answer: Answer, command: Command, arguments: &Arguments) -> u8 {
    let file = arguments.output.as_deref();
    if answer.binary && output::goes_to_terminal(file) {
        return fail(&format!(
            "policybook: the bytes are not for a terminal; name a file: policybook {} -o FILE ..",
            command.word()
        ));
    }
    // where there is nothing to say, a named file stays as it was
    let delivered = match file.is_some() && answer.output.is_empty() {
        true => Ok(()),
        false => output::deliver(&answer.output, file),
    };
    if delivered.is_ok() || answer.status == 2 {
        answer.notes.iter().for_each(|note| tell(note));
    }
    match delivered {
        Ok(()) => answer.status,
        Err(message) => fail(&format!("policybook: {message}")),
    }
}

fn say(text: &str) -> u8 {
    match output::deliver(text.as_bytes(), None) {
        Ok(()) => 0,
        Err(message) => fail(&format!("policybook: {message}")),
    }
}

fn fail(message: &str) -> u8 {
    tell(message);
    2
}

/// Writes to standard error; where that fails too, the exit status remains.
fn tell(message: &str) {
    let _ = writeln!(std::io::stderr(), "{message}");
}
