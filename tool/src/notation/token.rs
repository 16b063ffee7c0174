//! The words, numbers and signs of a text, with their places; and its comments.

use super::Mistake;

/// The words of the notation. As a name, such a word stands in quotes.
pub const RESERVED: [&str; 15] = [
    "accept",
    "and",
    "any",
    "events",
    "field",
    "from",
    "level",
    "on",
    "or",
    "reject",
    "rule",
    "to",
    "variables",
    "version",
    "when",
];

/// The most characters of a name.
const MOST_LETTERS: usize = 64;

#[derive(Clone, Debug, PartialEq, Eq)]
pub enum Kind {
    /// A word of the notation.
    Reserved,
    /// A name, in quotes or not.
    Name,
    /// Digits; a number too large to be any is u32::MAX.
    Number(u32),
    /// A sign, or a character that the notation has no use for.
    Sign,
    /// The end of the text.
    End,
    /// Something that is no word at all; why.
    Bad(String),
}

/// A word, number or sign, and where it stands.
#[derive(Clone, Debug)]
pub struct Token {
    pub kind: Kind,
    /// A name without its quotes; everything else as it stands.
    pub text: String,
    pub line: usize,
    pub column: usize,
    /// How many characters it takes.
    pub length: usize,
}

/// A comment, from its `#` to the end of the line.
#[derive(Clone, Debug)]
pub struct Comment {
    pub line: usize,
    pub text: String,
    /// Whether the line before is blank.
    pub blank_before: bool,
    /// Whether the next line is blank.
    pub blank_after: bool,
}

impl Token {
    /// A mistake at this token.
    pub fn mistake(&self, message: String) -> Mistake {
        Mistake { line: self.line, column: self.column, length: self.length.max(1), message }
    }

    /// The token as a message names it.
    pub fn shown(&self) -> String {
        match self.kind {
            Kind::End => "the end of the text".to_string(),
            _ => format!("`{}`", self.text),
        }
    }

    pub fn is(&self, text: &str) -> bool {
        matches!(self.kind, Kind::Reserved | Kind::Sign) && self.text == text
    }
}

/// A name as it is written in a text: in quotes unless it is a plain word.
pub fn quoted(name: &str) -> String {
    let plain = name.starts_with(begins_word)
        && name.chars().all(in_word)
        && !name.bytes().all(|byte| byte.is_ascii_digit())
        && !RESERVED.contains(&name);
    match plain {
        true => name.to_string(),
        false => format!("\"{name}\""),
    }
}

/// Names, separated by commas.
pub fn list(names: &[String]) -> String {
    let names: Vec<String> = names.iter().map(|name| quoted(name)).collect();
    names.join(", ")
}

fn begins_word(letter: char) -> bool {
    letter.is_alphanumeric() || letter == '_'
}

fn in_word(letter: char) -> bool {
    begins_word(letter) || letter == '-'
}

/// Characters that change how others are shown, so that a line would not say what
/// it seems to say.
pub fn is_deceptive(letter: char) -> bool {
    matches!(u32::from(letter), 0x061C | 0x200E | 0x200F | 0x202A..=0x202E | 0x2066..=0x2069 | 0xFEFF)
}

/// Whether a character may stand nowhere in a text, not even in a comment.
fn has_no_place(letter: char) -> bool {
    is_deceptive(letter) || letter.is_control() && !letter.is_whitespace()
}

/// Splits a text. The last token is the end, or one that is no word.
pub fn tokens(text: &str) -> (Vec<Token>, Vec<Comment>) {
    let (mut tokens, mut comments) = (Vec::new(), Vec::new());
    let lines: Vec<&str> = text.split('\n').collect();
    for (number, line) in (1..).zip(&lines) {
        let is_blank = |line: Option<&&str>| line.is_some_and(|line| line.trim().is_empty());
        let blank_before = number > 1 && is_blank(lines.get(number - 2));
        let blank_after = is_blank(lines.get(number));
        let letters: Vec<char> = line.chars().collect();
        if split_line(&letters, number, &mut tokens) {
            return (tokens, comments);
        }
        if let Some(at) = comment_at(&letters) {
            let text: String = letters[at + 1..].iter().collect();
            comments.push(Comment { line: number, text: text.trim().to_string(), blank_before, blank_after });
        }
    }
    let (line, column) = end_place(&lines);
    tokens.push(Token { kind: Kind::End, text: String::new(), line, column, length: 1 });
    (tokens, comments)
}

/// Behind the last line that is not blank.
fn end_place(lines: &[&str]) -> (usize, usize) {
    let last = lines.iter().rposition(|line| !line.trim().is_empty()).unwrap_or(0);
    (last + 1, lines[last].trim_end().chars().count() + 1)
}

/// Where a line's comment begins, if it has one.
fn comment_at(letters: &[char]) -> Option<usize> {
    let mut within_quotes = false;
    (0..letters.len()).find(|&at| {
        within_quotes ^= letters[at] == '"';
        letters[at] == '#' && !within_quotes
    })
}

/// Adds the tokens of a line; whether the last one is no word.
fn split_line(letters: &[char], line: usize, tokens: &mut Vec<Token>) -> bool {
    let mut at = 0;
    while at < letters.len() {
        if has_no_place(letters[at]) {
            let code = u32::from(letters[at]);
            tokens.push(bad(
                line,
                at,
                1,
                format!("the character U+{code:04X}, which is not shown, has no place in a text"),
            ));
            return true;
        }
        if letters[at] == '#' {
            match letters[at..].iter().position(|&letter| has_no_place(letter)) {
                None => return false,
                Some(after) => at += after,
            }
            continue;
        }
        if letters[at].is_whitespace() {
            at += 1;
            continue;
        }
        let token = one_token(letters, at, line);
        at += token.length;
        let is_bad = matches!(token.kind, Kind::Bad(_));
        tokens.push(token);
        if is_bad {
            return true;
        }
    }
    false
}

fn bad(line: usize, at: usize, length: usize, message: String) -> Token {
    Token { kind: Kind::Bad(message), text: String::new(), line, column: at + 1, length }
}

fn one_token(letters: &[char], at: usize, line: usize) -> Token {
    if letters[at] == '"' {
        return quoted_name(letters, at, line);
    }
    if !begins_word(letters[at]) {
        let length = sign_length(&letters[at..]);
        let text = letters[at..at + length].iter().collect();
        return Token { kind: Kind::Sign, text, line, column: at + 1, length };
    }
    let length = letters[at..].iter().take_while(|&&letter| in_word(letter)).count();
    let text: String = letters[at..at + length].iter().collect();
    if length > MOST_LETTERS {
        return bad(
            line,
            at,
            length,
            format!("a name or number has at most {MOST_LETTERS} characters; this one has {length}"),
        );
    }
    let kind = if text.bytes().all(|byte| byte.is_ascii_digit()) {
        Kind::Number(text.parse().unwrap_or(u32::MAX))
    } else if RESERVED.contains(&text.as_str()) {
        Kind::Reserved
    } else {
        Kind::Name
    };
    Token { kind, text, line, column: at + 1, length }
}

/// Two for signs of comparison that are written with two characters.
fn sign_length(letters: &[char]) -> usize {
    match letters {
        ['<' | '>' | '=' | '!', '=', ..] => 2,
        _ => 1,
    }
}

fn quoted_name(letters: &[char], at: usize, line: usize) -> Token {
    let Some(inner) = letters[at + 1..].iter().position(|&letter| letter == '"') else {
        return bad(line, at, 1, "expected a `\"` at the end of this name, on the same line".to_string());
    };
    let text: String = letters[at + 1..at + 1 + inner].iter().collect();
    let length = inner + 2;
    let wrong = |letter: char| is_deceptive(letter) || letter.is_control() || letter.is_whitespace() && letter != ' ';
    if text.is_empty() || text.trim() != text {
        return bad(line, at, length, "a name in quotes is not empty, and no blank begins or ends it".to_string());
    }
    if inner > MOST_LETTERS {
        return bad(line, at, length, format!("a name has at most {MOST_LETTERS} characters; this one has {inner}"));
    }
    if let Some(letter) = text.chars().find(|&letter| wrong(letter)) {
        return bad(line, at, length, format!("the character U+{:04X} has no place in a name", u32::from(letter)));
    }
    Token { kind: Kind::Name, text, line, column: at + 1, length }
}
