//! Reading texts, policy files and books, which are told apart by what they
//! contain, and having the library judge them.

use std::fs::File;
use std::io::{self, Read};

use crate::book::Book;
use crate::frame::Frame;
use crate::json::Json;
use crate::library::{self, Findings};
use crate::names::Names;
use crate::notation::{self, Text};
use crate::output::reason;
use crate::policy::Policy;
use crate::refusal::{self, judge_book, judge_policy};

/// No text, policy file or book is longer.
const MOST_BYTES: u64 = 1 << 20;

/// What a file is.
#[derive(Clone, Copy, Debug, PartialEq, Eq)]
pub enum Kind {
    Text,
    Policy,
    Book,
}

impl Kind {
    pub fn word(self) -> &'static str {
        match self {
            Kind::Text => "text",
            Kind::Policy => "policy",
            Kind::Book => "book",
        }
    }
}

/// Why nothing can be said: a message, and the same for machines.
#[derive(Clone, Debug)]
pub struct Failure {
    pub message: String,
    pub json: Json,
}

impl Failure {
    /// A failure that concerns a file and has no number.
    fn of_file(name: &str, message: String) -> Failure {
        Failure {
            json: Json::Object(vec![
                ("file", name.into()),
                ("error", Json::Object(vec![("message", message.clone().into())])),
            ]),
            message: format!("{name}: {message}"),
        }
    }

    /// A refusal by a number, with the place.
    pub fn refused(files: &[&str], number: u8, place: String) -> Failure {
        let meaning = refusal::meaning(number);
        let of = match files {
            [file] => ("file", Json::from(*file)),
            _ => ("files", files.iter().copied().collect()),
        };
        let numbers =
            vec![("number", usize::from(number).into()), ("meaning", meaning.into()), ("place", place.clone().into())];
        Failure {
            message: format!("{}: refused by number {number}: {meaning}\n    {place}", files.join(", ")),
            json: Json::Object(vec![of, ("refused", Json::Object(numbers))]),
        }
    }

    /// A failure of the way the tool is called.
    pub fn of_use(message: String) -> Failure {
        Failure {
            json: Json::Object(vec![("error", Json::Object(vec![("message", message.clone().into())]))]),
            message,
        }
    }
}

/// A file that has been read.
#[derive(Debug)]
pub struct Document {
    pub name: String,
    pub kind: Kind,
    /// The bytes of the policy file or book; a text's are those of its policy.
    pub bytes: Vec<u8>,
    pub text: Option<Text>,
}

/// A policy, or nothing but a book, with the book and the names.
#[derive(Debug)]
pub struct Subject {
    pub document: Document,
    pub policy: Option<Policy>,
    pub book: Book,
    pub names: Names,
    /// Whether the names come from a text.
    pub named: bool,
}

/// Reads a file; `-` is standard input.
pub fn read(name: &str) -> Result<Document, Failure> {
    let bytes =
        read_bytes(name).map_err(|error| Failure::of_file(name, format!("cannot be read: {}", reason(&error))))?;
    if bytes.len() as u64 > MOST_BYTES {
        return Err(Failure::of_file(
            name,
            format!("has over {MOST_BYTES} bytes; no text, policy file or book is that long"),
        ));
    }
    let document = |kind, bytes, text| Document { name: name.to_string(), kind, bytes, text };
    if bytes.starts_with(b"BOK") {
        return Ok(document(Kind::Book, bytes, None));
    }
    if bytes.starts_with(b"POL") {
        return Ok(document(Kind::Policy, bytes, None));
    }
    let text = decode_text(name, &bytes)?;
    match notation::parse(text) {
        Ok(parsed) => Ok(document(Kind::Text, parsed.policy.encode(), Some(parsed))),
        Err(mistake) => Err(Failure {
            message: mistake.report(name, text).trim_end().to_string(),
            json: Json::Object(vec![
                ("file", name.into()),
                (
                    "error",
                    Json::Object(vec![
                        ("line", mistake.line.into()),
                        ("column", mistake.column.into()),
                        ("message", mistake.message.into()),
                    ]),
                ),
            ]),
        }),
    }
}

fn read_bytes(name: &str) -> io::Result<Vec<u8>> {
    let mut bytes = Vec::new();
    match name {
        "-" => io::stdin().lock().take(MOST_BYTES + 1).read_to_end(&mut bytes)?,
        _ => File::open(name)?.take(MOST_BYTES + 1).read_to_end(&mut bytes)?,
    };
    Ok(bytes)
}

/// The text without the mark that some editors put before it. Bytes that are no
/// text and have no mark of a policy file or book are neither of the three.
fn decode_text<'a>(name: &str, bytes: &'a [u8]) -> Result<&'a str, Failure> {
    let neither = |at: usize| {
        let line = bytes[..at].iter().filter(|&&byte| byte == b'\n').count() + 1;
        let number = |refused: Option<u8>| refused.map_or("none".to_string(), |number| number.to_string());
        let (policy, book) = (number(library::build(bytes).err()), number(library::verdict(bytes).err()));
        let message = format!(
            "is neither a policy file, which begins with POL, nor a book, which begins with BOK, nor a text in UTF-8\n    \
             byte {at}, on line {line}, is {:02X}; as a policy file it is refused by number {policy}, as a book by number {book}",
            bytes[at]
        );
        Failure::of_file(name, message)
    };
    if let Some(at) = bytes.iter().position(|&byte| byte == 0) {
        return Err(neither(at));
    }
    match std::str::from_utf8(bytes) {
        Ok(text) => Ok(text.strip_prefix('\u{FEFF}').unwrap_or(text)),
        Err(error) => Err(neither(error.valid_up_to())),
    }
}

/// The failure for a number that the library gives, with the tool's own finding
/// of the place, which must have the same number.
fn refused(document: &Document, number: u8, names: &Names) -> Failure {
    let found = match document.kind {
        Kind::Book => judge_book(&document.bytes),
        _ => judge_policy(&document.bytes),
    };
    let (own, mut place) = found.map_or((11, String::new()), |refusal| (refusal.number, refusal.place));
    if own != number {
        return tool_error(&document.name, number, own);
    }
    if number == 10 || number == 11 {
        if let Ok(policy) = Policy::decode(&document.bytes) {
            place = refusal::counting_place(number, &policy, names, document.rule_lines());
        }
    }
    Failure::refused(&[&document.name], number, place)
}

/// The library and the tool come to different numbers: the tool is wrong.
fn tool_error(name: &str, number: u8, own: u8) -> Failure {
    Failure::of_file(
        name,
        format!("an error of this tool: the library's number is {number}, and the tool's {own}; please report it with the file"),
    )
}

impl Document {
    /// The line of the text on which each rule begins.
    pub fn rule_lines(&self) -> Option<&[usize]> {
        self.text.as_ref().map(|text| &text.rule_lines[..])
    }

    /// The policy as data. What the library refuses by another number than 10 or
    /// 11, which are not about the file's form, is refused.
    pub fn policy(&self) -> Result<Policy, Failure> {
        match library::build(&self.bytes) {
            Ok(_) | Err(10 | 11) => {
                Policy::decode(&self.bytes).map_err(|refusal| tool_error(&self.name, 0, refusal.number))
            }
            Err(number) => Err(refused(self, number, &Names::default())),
        }
    }

    /// The refusal of the policy by 10 or 11, if there is one.
    pub fn no_book(&self, names: &Names) -> Option<Failure> {
        library::build(&self.bytes).err().map(|number| refused(self, number, names))
    }

    /// The names of the text, or those given, or made-up ones.
    fn names(&self, given: Option<&Given>, policy: &Policy) -> Result<(Names, bool), Failure> {
        match (&self.text, given) {
            (Some(text), _) => Ok((text.names.clone(), true)),
            (None, Some(given)) => given.for_policy(self, policy).map(|names| (names, true)),
            (None, None) => Ok((Names::made_up(&policy.frame, policy.starts.len()), false)),
        }
    }

    /// The policy and its names.
    pub fn policy_and_names(&self, given: Option<&Given>) -> Result<(Policy, Names), Failure> {
        let policy = self.policy()?;
        let (names, _) = self.names(given, &policy)?;
        Ok((policy, names))
    }

    /// The book, with everything that belongs to it.
    pub fn subject(self, given: Option<&Given>) -> Result<Subject, Failure> {
        if self.kind == Kind::Book {
            if let Err(number) = library::verdict(&self.bytes) {
                return Err(refused(&self, number, &Names::default()));
            }
            let book = Book::new(self.bytes.clone());
            let names = match given {
                Some(given) => given.for_frame(&self, book.frame())?,
                None => Names::made_up(book.frame(), 0),
            };
            return Ok(Subject { document: self, policy: None, book, names, named: given.is_some() });
        }
        let policy = self.policy()?;
        let (names, named) = self.names(given, &policy)?;
        match library::build(&self.bytes) {
            Ok(bytes) => Ok(Subject { document: self, policy: Some(policy), book: Book::new(bytes), names, named }),
            Err(number) => Err(refused(&self, number, &names)),
        }
    }
}

impl Subject {
    /// The findings on the book.
    pub fn findings(&self) -> Result<Findings, Failure> {
        library::verdict(self.book.bytes()).map_err(|number| self.refused_again(number))
    }

    /// The failure that a book is refused which the library has let pass.
    pub fn refused_again(&self, number: u8) -> Failure {
        tool_error(&self.document.name, number, 0)
    }
}

/// The names that `--names` gives.
pub struct Given {
    file: String,
    names: Names,
}

impl Given {
    /// Reads the text that has the names.
    pub fn read(file: &str) -> Result<Given, Failure> {
        match read(file)?.text {
            Some(text) => Ok(Given { file: file.to_string(), names: text.names }),
            None => Err(Failure::of_file(file, "is no text, so it has no names".to_string())),
        }
    }

    fn for_frame(&self, document: &Document, needed: &Frame) -> Result<Names, Failure> {
        let given = self.names.frame();
        if given == *needed {
            return Ok(self.names.clone());
        }
        let message = format!("names {}, and {} has {}", given.words(), document.name, needed.words());
        Err(Failure::of_file(&self.file, message))
    }

    fn for_policy(&self, document: &Document, policy: &Policy) -> Result<Names, Failure> {
        let (given, needed) = (self.names.variables.len(), policy.starts.len());
        let names = self.for_frame(document, &policy.frame)?;
        match given == needed {
            true => Ok(names),
            false => Err(Failure::of_file(
                &self.file,
                format!("names {given} variables, and {} has {needed}", document.name),
            )),
        }
    }
}
