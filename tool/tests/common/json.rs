//! A reader of JSON that takes nothing else: what is not well-formed is a panic.

use std::iter::Peekable;
use std::str::Chars;

#[derive(Clone, Debug, PartialEq)]
pub enum Value {
    Null,
    Bool(bool),
    Number(usize),
    Text(String),
    List(Vec<Value>),
    Object(Vec<(String, Value)>),
}

/// Reads a text that is one value.
pub fn read(text: &str) -> Value {
    let mut reader = Reader { rest: text.chars().peekable() };
    let value = reader.value();
    reader.blanks();
    assert_eq!(reader.rest.next(), None, "something after the value of {text}");
    value
}

impl Value {
    /// A member of an object, which must be there.
    pub fn get(&self, name: &str) -> &Value {
        self.find(name).unwrap_or_else(|| panic!("no `{name}` in {self:?}"))
    }

    /// A member of an object, if it is there.
    pub fn find(&self, name: &str) -> Option<&Value> {
        let Value::Object(members) = self else {
            panic!("no object: {self:?}");
        };
        members.iter().find(|(other, _)| other == name).map(|(_, value)| value)
    }

    pub fn list(&self) -> &[Value] {
        match self {
            Value::List(values) => values,
            _ => panic!("no list: {self:?}"),
        }
    }

    pub fn number(&self) -> usize {
        match self {
            Value::Number(number) => *number,
            _ => panic!("no number: {self:?}"),
        }
    }

    pub fn text(&self) -> &str {
        match self {
            Value::Text(text) => text,
            _ => panic!("no text: {self:?}"),
        }
    }

    /// What a part gives that may be null.
    pub fn maybe<'a, T>(&'a self, part: impl Fn(&'a Value) -> T) -> Option<T> {
        (*self != Value::Null).then(|| part(self))
    }

    /// The members `name` of a list of objects.
    pub fn each(&self, name: &str) -> Vec<usize> {
        self.list().iter().map(|value| value.get(name).number()).collect()
    }
}

struct Reader<'a> {
    rest: Peekable<Chars<'a>>,
}

impl Reader<'_> {
    fn blanks(&mut self) {
        while self.rest.next_if(|letter| " \t\r\n".contains(*letter)).is_some() {}
    }

    fn take(&mut self, expected: &str) {
        for letter in expected.chars() {
            assert_eq!(self.rest.next(), Some(letter), "within `{expected}`");
        }
    }

    fn value(&mut self) -> Value {
        self.blanks();
        match self.rest.peek().expect("a value") {
            'n' => {
                self.take("null");
                Value::Null
            }
            't' => {
                self.take("true");
                Value::Bool(true)
            }
            'f' => {
                self.take("false");
                Value::Bool(false)
            }
            '"' => Value::Text(self.text()),
            '[' => Value::List(self.several(']', Reader::value)),
            '{' => Value::Object(self.several('}', Reader::member)),
            _ => self.number(),
        }
    }

    /// Parts between brackets, separated by commas.
    fn several<T>(&mut self, end: char, part: fn(&mut Self) -> T) -> Vec<T> {
        self.rest.next();
        let mut parts = Vec::new();
        self.blanks();
        if self.rest.next_if_eq(&end).is_some() {
            return parts;
        }
        loop {
            parts.push(part(self));
            self.blanks();
            match self.rest.next() {
                Some(',') => {}
                Some(letter) if letter == end => return parts,
                other => panic!("`,` or `{end}` expected, found {other:?}"),
            }
        }
    }

    fn member(&mut self) -> (String, Value) {
        self.blanks();
        let name = self.text();
        self.blanks();
        self.take(":");
        (name, self.value())
    }

    /// A number from 0 on, without zeros before it.
    fn number(&mut self) -> Value {
        let mut digits = String::new();
        while let Some(digit) = self.rest.next_if(char::is_ascii_digit) {
            digits.push(digit);
        }
        assert!(digits == "0" || !digits.starts_with('0'), "{digits}");
        Value::Number(digits.parse().expect("a number"))
    }

    fn text(&mut self) -> String {
        self.take("\"");
        let mut text = String::new();
        loop {
            match self.rest.next().expect("the end of a text") {
                '"' => return text,
                '\\' => text.push(self.escaped()),
                letter => {
                    assert!(letter >= ' ', "a control character in a text");
                    text.push(letter);
                }
            }
        }
    }

    fn escaped(&mut self) -> char {
        match self.rest.next().expect("a character after `\\`") {
            letter @ ('"' | '\\' | '/') => letter,
            'n' => '\n',
            't' => '\t',
            'r' => '\r',
            'b' => '\u{8}',
            'f' => '\u{c}',
            'u' => {
                let digits: String = (0..4).map(|_| self.rest.next().expect("a digit")).collect();
                let code = u32::from_str_radix(&digits, 16).expect("four digits");
                char::from_u32(code).expect("a character")
            }
            other => panic!("`\\{other}` is no character"),
        }
    }
}
