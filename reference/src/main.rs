//! The command line of the reference implementation.

use std::fs;
use std::io::{self, Read};
use std::process::ExitCode;
use std::str::FromStr;

use reference::book::{self, Book};
use reference::compare::{self, Comparison};
use reference::findings::findings;
use reference::refusal::Refusal;
use reference::words::Names;
use reference::{dot, generate, hex, host, inventory, page, play, programs, shelf, way};

const HELP: &str = "\
reference book FILE                  print the book of a policy in hexadecimal
reference shelf FILE                 print what the program shelf prints for a policy
reference play FILE                  print what the program play prints for a book and steps
reference compare FILE FILE          compare two books
reference verdict FILE               print the findings about a book
reference page FILE                  print the page of the book of a policy, or of a book
reference way FILE REQUEST OUTCOME   print the earliest history to an outcome of a request, for a policy or a book
reference inventory FILE ...         print which of many files are byte for byte equal
reference build FILE OUT             write the book of a policy into the file OUT
reference generate KIND SEED OUT     write a generated input into the file OUT
reference host FILE FILE             print what the sample host prints for two policies
reference dot FILE [NAME ...]        print the book of a policy, or a book, for Graphviz
reference programs FOLDER            write what the programs are run on and must write, into FOLDER/NAME
reference help                       print this text

A FILE of - is standard input. An input that is turned down gives the line
'refused N'; its meaning is written to standard error. The NAMEs of dot are
those of the events, then of the requests. An OUTCOME is 0 none, 1 accept,
2 reject or 3 both.
Kinds:";

fn main() -> ExitCode {
    let arguments: Vec<String> = std::env::args().skip(1).collect();
    let arguments: Vec<&str> = arguments.iter().map(String::as_str).collect();
    match run(&arguments) {
        Ok(output) => {
            print!("{output}");
            ExitCode::SUCCESS
        }
        Err(message) => {
            eprintln!("{message}");
            ExitCode::from(2)
        }
    }
}

/// The text for standard output, or what is wrong with the usage.
fn run(arguments: &[&str]) -> Result<String, String> {
    match arguments {
        ["book", file] => Ok(answer(book::build(&read(file)?), |book| {
            hex::book_lines(&book)
        })),
        ["shelf", file] => print_shelf(&read(file)?),
        ["play", file] => Ok(play::play(&read(file)?)),
        ["compare", "-", "-"] => Err("only one of the two books can be standard input".into()),
        ["compare", first, second] => Ok(answer(
            compare::compare(&read(first)?, &read(second)?),
            comparison_line,
        )),
        ["verdict", file] => Ok(answer(book::read(&read(file)?), |book: Book| {
            shelf::finding_lines(&findings(&book))
        })),
        ["page", file] => Ok(answer(policy_or_book(&read(file)?), |book| {
            page::page(&book)
        })),
        ["way", file, request, outcome] => print_way(file, request, outcome),
        ["inventory", names @ ..] if !names.is_empty() => print_inventory(names),
        ["build", file, out] => write_book(file, out),
        ["generate", kind, seed, out] => write_generated(kind, seed, out),
        ["host", first, second] => Ok(host::host(file(first), file(second))),
        ["dot", file, names @ ..] => print_dot(&read(file)?, names),
        ["programs", folder] => write_runs(folder),
        ["help"] => Ok(format!("{HELP} {}\n", generate::KINDS.join(" "))),
        _ => Err(format!(
            "not a command\n\n{HELP} {}",
            generate::KINDS.join(" ")
        )),
    }
}

/// The text of an answer, or the line of a refusal with its meaning on standard
/// error.
fn answer<T>(result: Result<T, Refusal>, text: impl FnOnce(T) -> String) -> String {
    match result {
        Ok(value) => text(value),
        Err(refusal) => {
            explain(refusal);
            shelf::refusal_line(refusal)
        }
    }
}

fn explain(refusal: Refusal) {
    eprintln!(
        "refused by number {}: {}",
        refusal.number(),
        refusal.meaning()
    );
}

fn print_shelf(policy: &[u8]) -> Result<String, String> {
    if let Err(refusal) = book::build(&policy[..policy.len().min(shelf::MOST_BYTES)]) {
        explain(refusal);
    }
    Ok(shelf::shelf(policy))
}

fn comparison_line(comparison: Comparison) -> String {
    match comparison {
        Comparison::Same => "same\n".to_string(),
        Comparison::Differ(history) => format!("differ{}\n", shelf::history_part(&history)),
    }
}

fn print_way(file: &str, request: &str, outcome: &str) -> Result<String, String> {
    let (request, outcome) = (number("request", request)?, number("outcome", outcome)?);
    let found = policy_or_book(&read(file)?).and_then(|book| way::way(&book, request, outcome));
    Ok(answer(found, |history| {
        format!("way{}\n", shelf::history_or_none(&history))
    }))
}

/// Nothing is printed of the others where one of the files cannot be read.
fn print_inventory(names: &[&str]) -> Result<String, String> {
    if names.iter().filter(|&&name| name == "-").count() > 1 {
        return Err("only one of the files can be standard input".into());
    }
    let mut files = Vec::new();
    for &name in names {
        let bytes = read(name)?;
        files.push(inventory::File { name, bytes });
    }
    Ok(inventory::inventory(&files))
}

fn write_book(file: &str, out: &str) -> Result<String, String> {
    match book::build(&read(file)?) {
        Ok(book) => write(out, &book.to_bytes()).map(|()| String::new()),
        Err(refusal) => Ok(answer(Err(refusal), |()| String::new())),
    }
}

fn write_generated(kind: &str, seed: &str, out: &str) -> Result<String, String> {
    let bytes = generate::one(kind, number("seed", seed)?)
        .ok_or_else(|| format!("no such kind: {kind}; kinds: {}", generate::KINDS.join(" ")))?;
    write(out, &bytes).map(|()| String::new())
}

/// The book of a policy, or a book; the two are told apart by their marks.
fn policy_or_book(bytes: &[u8]) -> Result<Book, Refusal> {
    match bytes.starts_with(b"BOK") {
        true => book::read(bytes),
        false => book::build(bytes),
    }
}

fn print_dot(bytes: &[u8], names: &[&str]) -> Result<String, String> {
    let book = match policy_or_book(bytes) {
        Ok(book) => book,
        Err(refusal) => return Ok(answer(Err(refusal), |()| String::new())),
    };
    let names = match names {
        [] => Names::plain(&book.frame),
        _ => Names::given(&book.frame, names)
            .ok_or("as many names are needed as there are events and requests")?,
    };
    Ok(dot::dot(&book, &names))
}

fn file(name: &str) -> host::File<'_> {
    host::File {
        name,
        content: fs::read(name),
    }
}

fn write_runs(folder: &str) -> Result<String, String> {
    for run in programs::runs() {
        let program = format!("{folder}/{}", run.program);
        write(&format!("{program}/stdin"), &run.stdin)?;
        write(&format!("{program}/stdout"), run.stdout.as_bytes())?;
    }
    Ok(String::new())
}

/// A number of 64 bits from its digits.
fn number<T: FromStr>(what: &str, digits: &str) -> Result<T, String> {
    digits
        .parse()
        .map_err(|_| format!("the {what} is not a number of 64 bits: {digits}"))
}

fn read(file: &str) -> Result<Vec<u8>, String> {
    let mut bytes = Vec::new();
    let result = if file == "-" {
        io::stdin().read_to_end(&mut bytes).map(|_| bytes)
    } else {
        fs::read(file)
    };
    result.map_err(|error| format!("cannot read {file}: {error}"))
}

fn write(file: &str, bytes: &[u8]) -> Result<(), String> {
    fs::write(file, bytes).map_err(|error| format!("cannot write {file}: {error}"))
}
