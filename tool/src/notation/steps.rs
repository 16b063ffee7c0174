//! Steps and requests on the command line, by names or by numbers.

use super::hints::{did_you_mean, of_other_field};
use super::token::{list, quoted, tokens, Kind, Token};
use crate::frame::Step;
use crate::names::Names;

/// The most steps that are taken; every state of a book is reached by fewer.
const MOST_STEPS: usize = 10_000;

/// The codes of the steps that these words say: an event's name; a request's
/// values and what was decided; or `code` and its number; each may be followed by
/// `twice` or `3 times`. Commas between steps, and between values, may be there.
pub fn parse_steps(names: &Names, words: &[String]) -> Result<Vec<u8>, String> {
    let mut reader = Reader::new(names, words)?;
    let mut codes = Vec::new();
    while !reader.at_end() {
        let code = reader.step()? as u8;
        let times = reader.times()?;
        codes.extend(std::iter::repeat_n(code, times));
        if codes.len() > MOST_STEPS {
            return Err(format!("at most {MOST_STEPS} steps are taken"));
        }
        reader.skip_comma();
    }
    Ok(codes)
}

/// The request that these words say, by its values or its number, and the words
/// after it.
pub fn parse_request(names: &Names, words: &[String]) -> Result<(usize, Vec<String>), String> {
    let mut reader = Reader::new(names, words)?;
    let request = match reader.peek().kind {
        Kind::Number(number) if !names.has(&reader.peek().text) => {
            reader.at += 1;
            number as usize
        }
        _ => reader.request(false)?,
    };
    let rest = reader.tokens[reader.at..].iter().filter(|token| token.kind != Kind::End);
    Ok((request, rest.map(|token| token.text.clone()).collect()))
}

struct Reader<'a> {
    names: &'a Names,
    tokens: Vec<Token>,
    at: usize,
}

impl Reader<'_> {
    /// Each argument is split by itself, so that a quote does not go beyond it. One
    /// that is a name as a whole needs no quotes.
    fn new<'a>(names: &'a Names, words: &[String]) -> Result<Reader<'a>, String> {
        let mut all = Vec::new();
        for word in words {
            if names.has(word) && !word.bytes().all(|byte| byte.is_ascii_digit()) {
                all.push(Token { kind: Kind::Name, text: word.clone(), line: 1, column: 1, length: 1 });
                continue;
            }
            let (mut part, comments) = tokens(word);
            if !comments.is_empty() {
                return Err(format!("in `{word}`: a name with `#` stands in quotes"));
            }
            let last = part.pop();
            if let Some(Token { kind: Kind::Bad(message), .. }) = last {
                return Err(format!("in `{word}`: {message}"));
            }
            all.extend(part);
        }
        all.push(Token { kind: Kind::End, text: String::new(), line: 1, column: 1, length: 1 });
        Ok(Reader { names, tokens: all, at: 0 })
    }

    fn peek(&self) -> &Token {
        &self.tokens[self.at]
    }

    fn at_end(&self) -> bool {
        self.peek().kind == Kind::End
    }

    fn skip_comma(&mut self) {
        self.at += usize::from(self.peek().is(","));
    }

    /// How many times a step is taken. A name is read as a name.
    fn times(&mut self) -> Result<usize, String> {
        let token = self.peek();
        if token.kind == Kind::Name && token.text == "twice" && !self.names.has("twice") {
            self.at += 1;
            return Ok(2);
        }
        match (&token.kind, self.tokens.get(self.at + 1)) {
            (Kind::Number(times), Some(next)) if next.kind == Kind::Name && next.text == "times" => {
                let times = *times as usize;
                self.at += 2;
                match times <= MOST_STEPS {
                    true => Ok(times),
                    false => Err(format!("at most {MOST_STEPS} steps are taken")),
                }
            }
            _ => Ok(1),
        }
    }

    fn expected(&self, what: &str) -> String {
        let found = match self.peek().kind {
            Kind::End => "nothing more is there".to_string(),
            _ => format!("found {}", self.peek().shown()),
        };
        format!("expected {what}; {found}")
    }

    fn step(&mut self) -> Result<usize, String> {
        let token = self.peek().clone();
        let frame = self.names.frame();
        if let (Kind::Number(number), false) = (&token.kind, self.names.has(&token.text)) {
            return Err(format!(
                "expected a step; found `{number}`: how often a step is taken is said as `{number} times` behind it, \
                 and a step by its code as `code {number}`"
            ));
        }
        if token.kind == Kind::Name && token.text == "code" && !self.names.has("code") {
            return self.code();
        }
        if token.kind != Kind::End {
            if let Some(event) = self.names.events.iter().position(|name| *name == token.text) {
                self.at += 1;
                return Ok(event);
            }
        }
        let request = self.request(true)?;
        self.skip_comma();
        let accepted = match self.peek().text.as_str() {
            "accept" | "accepted" => true,
            "reject" | "rejected" => false,
            _ => return Err(self.expected(&format!("`accepted` or `rejected` after {}", self.names.request(request)))),
        };
        self.at += 1;
        Ok(frame.code(Step::Decided { request, accepted }))
    }

    /// What may have been meant by a word that is no value of a field.
    fn why_not(&self, field: usize) -> String {
        let found = self.peek();
        let why = match found.kind {
            Kind::End => String::new(),
            _ if found.is("any") => "one request at a time is asked for".to_string(),
            _ if field == 0 && did_you_mean(&found.text, self.names.events.iter().map(String::as_str)).is_empty() => {
                of_other_field(self.names, field, &found.text)
            }
            _ if field == 0 => did_you_mean(&found.text, self.names.events.iter().map(String::as_str)),
            _ => of_other_field(self.names, field, &found.text),
        };
        match why.is_empty() {
            true => why,
            false => format!(": {why}"),
        }
    }

    /// A step by its code, a number behind the word `code`.
    fn code(&mut self) -> Result<usize, String> {
        self.at += 1;
        let most = self.names.frame().width() - 1;
        match self.peek().kind {
            Kind::Number(code) if code as usize <= most => {
                self.at += 1;
                Ok(code as usize)
            }
            _ => Err(self.expected(&format!("a code from 0 to {most}"))),
        }
    }

    /// A request by its values. Where a step may begin, an event is expected too.
    fn request(&mut self, or_event: bool) -> Result<usize, String> {
        let mut values = Vec::new();
        for (number, field) in self.names.fields.iter().enumerate() {
            let found = match self.peek().kind {
                Kind::End => None,
                _ => field.values.iter().position(|name| *name == self.peek().text),
            };
            let Some(value) = found else {
                let why = self.why_not(number);
                let mut what = format!("a value of the field {} ({})", quoted(&field.name), list(&field.values));
                if !or_event && number == 0 {
                    what = format!("a request, which begins with {what}");
                }
                if or_event && number == 0 && !self.names.events.is_empty() {
                    what = format!("an event ({}) or {what}", list(&self.names.events));
                }
                return Err(format!("{}{why}", self.expected(&what)));
            };
            values.push(value);
            self.at += 1;
            if number + 1 < self.names.fields.len() {
                self.skip_comma();
            }
        }
        Ok(self.names.frame().request(&values))
    }
}
