//! Reads a file of definitions: its tokens, and the parts of it that can be changed.

use std::collections::HashMap;
use std::ops::Range;

/// A word or a mark of the text, by its bytes.
#[derive(Clone, Debug)]
pub struct Token {
    pub text: String,
    pub at: Range<usize>,
}

/// A right side of an equation, or the statement of a record's field, with the variables that its left side binds.
pub struct Part {
    pub definition: String,
    /// The type that the definition declares, its tokens one blank apart; empty for a field.
    pub kind: String,
    pub tokens: Vec<Token>,
    /// The variables and, where the declaration tells them, their types.
    pub bound: Vec<(String, Option<String>)>,
    /// The patterns before the equals sign; nothing for a field.
    pub patterns: Option<Range<usize>>,
}

/// A file of definitions.
pub struct File {
    pub text: String,
    pub parts: Vec<Part>,
    /// What the file declares, in order: the place, the name, the type.
    pub declared: Vec<(usize, String, String)>,
    /// The text between the name of a definition and its equations: hidden parameters and the type.
    pub signatures: HashMap<String, String>,
    /// The names that other files give: the name here, the file's path in `crates/`, the name there.
    pub imported: Vec<(String, String, String)>,
    /// The files that are named as a whole: the name here, the file's path in `crates/`.
    pub modules: Vec<(String, String)>,
}

const MARKS: &str = "(){};,";

pub fn tokens(text: &str, from: usize, to: usize) -> Vec<Token> {
    let mut found = Vec::new();
    let mut word: Option<usize> = None;
    let mut at = from;
    while at < to {
        let rest = &text[at..to];
        let c = rest.chars().next().unwrap();
        let ends =
            c.is_whitespace() || MARKS.contains(c) || (word.is_none() && rest.starts_with("--"));
        if ends {
            if let Some(start) = word.take() {
                found.push(token(text, start..at));
            }
            if rest.starts_with("--") {
                at += rest.find('\n').unwrap_or(rest.len());
                continue;
            }
            if MARKS.contains(c) {
                found.push(token(text, at..at + 1));
            }
        } else if word.is_none() {
            word = Some(at);
        }
        at += c.len_utf8();
    }
    if let Some(start) = word {
        found.push(token(text, start..to));
    }
    found
}

fn token(text: &str, at: Range<usize>) -> Token {
    Token {
        text: text[at.clone()].to_string(),
        at,
    }
}

impl Part {
    /// Its bytes in the file.
    pub fn bytes(&self) -> Range<usize> {
        self.tokens[0].at.start..self.tokens[self.tokens.len() - 1].at.end
    }
}

/// The tokens, one blank apart.
pub fn joined(tokens: &[Token]) -> String {
    let words: Vec<&str> = tokens.iter().map(|t| t.text.as_str()).collect();
    words.join(" ")
}

/// The file of a module, as `Rattle.definitions.specs.Bytes`, below `crates/`.
fn path_of(module: &str) -> Option<String> {
    let (name, rest) = module.strip_prefix("Rattle.")?.split_once('.')?;
    let inner = rest.strip_prefix("specs.")?;
    Some(format!("{name}/specs/{}.antt", inner.replace('.', "/")))
}

impl File {
    /// The parts of one definition: its equations.
    pub fn equations<'a>(&'a self, definition: &'a str) -> impl Iterator<Item = &'a Part> {
        self.parts
            .iter()
            .filter(move |p| p.definition == definition)
    }

    pub fn read(text: String) -> File {
        let mut file = File {
            text,
            parts: Vec::new(),
            declared: Vec::new(),
            signatures: HashMap::new(),
            imported: Vec::new(),
            modules: Vec::new(),
        };
        let items = items(&file.text);
        let mut signature: Option<(String, String)> = None;
        for item in items {
            let words = tokens(&file.text, item.start, item.end);
            let Some(first) = words.first().map(|t| t.text.clone()) else {
                continue;
            };
            if first == "use" {
                file.import(&words);
                continue;
            }
            let words = file.with_fields(words);
            match first.as_str() {
                "unfolding" => {}
                "pub" if words.get(1).is_some_and(|t| t.text == "mod") => {}
                "pub" if words.get(1).is_some_and(|t| t.text == "data") => {}
                "pub" if words.get(1).is_some_and(|t| t.text == "record") => {
                    file.record(&words, item)
                }
                "abbrev" | "unfoldable" | "pub" => signature = file.signature(&words),
                _ => file.equation(&words, signature.as_ref()),
            }
        }
        file
    }

    /// The tokens with each field by itself: `m.next` is `m` and `.next`. A name of a module that is named as a whole, as `B.states`, stays one token.
    fn with_fields(&self, words: Vec<Token>) -> Vec<Token> {
        let mut found = Vec::new();
        for word in words {
            let head = word.text.split('.').next().unwrap_or_default();
            let names_module = self.modules.iter().any(|(name, _)| name == head);
            if head.is_empty() || word.text.ends_with('.') || names_module {
                found.push(word);
                continue;
            }
            let mut at = word.at.start;
            for (i, part) in word.text.split('.').enumerate() {
                let to = at + part.len() + usize::from(i > 0);
                found.push(token(&self.text, at..to));
                at = to;
            }
        }
        found
    }

    fn import(&mut self, words: &[Token]) {
        let Some(path) = words
            .get(1)
            .and_then(|t| path_of(t.text.trim_end_matches('.')))
        else {
            return;
        };
        if words.get(2).is_some_and(|t| t.text == "as") {
            self.modules.push((words[3].text.clone(), path));
            return;
        }
        let mut i = 3;
        while i < words.len() && words[i].text != "}" {
            let there = words[i].text.clone();
            let mut here = there.clone();
            if words.get(i + 1).is_some_and(|t| t.text == "as") {
                here = words[i + 2].text.clone();
                i += 2;
            }
            self.imported.push((here, path.clone(), there));
            i += 1;
            if words.get(i).is_some_and(|t| t.text == ",") {
                i += 1;
            }
        }
    }

    /// `abbrev pub NAME {..} : TYPE`
    fn signature(&mut self, words: &[Token]) -> Option<(String, String)> {
        let colon = words.iter().position(|t| t.text == ":")?;
        let named = words
            .iter()
            .find(|t| !matches!(t.text.as_str(), "abbrev" | "unfoldable" | "pub"))?;
        let name = named.text.clone();
        self.signatures.insert(
            name.clone(),
            self.text[named.at.end..words.last()?.at.end].to_string(),
        );
        let kind = joined(&words[colon + 1..]);
        self.declared
            .push((words[0].at.start, name.clone(), kind.clone()));
        Some((name, kind))
    }

    fn equation(&mut self, words: &[Token], signature: Option<&(String, String)>) {
        let Some((name, kind)) = signature else {
            return;
        };
        let Some(equals) = words.iter().position(|t| t.text == "=") else {
            return;
        };
        if words[0].text != *name {
            return;
        }
        let bound = pattern_variables(&words[1..equals], &arguments(kind));
        let patterns = Some(words[0].at.end..words[equals].at.start);
        self.parts.push(Part {
            definition: name.clone(),
            kind: kind.clone(),
            tokens: words[equals + 1..].to_vec(),
            bound,
            patterns,
        });
    }

    /// A record's fields, each a statement or a plain type.
    fn record(&mut self, words: &[Token], item: Range<usize>) {
        let Some(opened) = words.iter().position(|t| t.text == "where") else {
            return;
        };
        let name = words[2].text.clone();
        let mut params = Vec::new();
        binders(&words[3..opened], &mut params);
        let mut starts: Vec<usize> = Vec::new();
        for (i, t) in words.iter().enumerate().skip(opened) {
            let begins = self.text[..t.at.start].rfind('\n').map_or(0, |n| n + 1);
            if t.text == "pub" && t.at.start - begins == 2 && begins > item.start {
                starts.push(i);
            }
        }
        for (k, &from) in starts.iter().enumerate() {
            let to = starts.get(k + 1).copied().unwrap_or(words.len());
            let field = format!("{name}.{}", words[from + 1].text);
            let tokens = words[from + 3..to].to_vec();
            self.parts.push(Part {
                definition: field,
                kind: String::new(),
                tokens,
                bound: params.clone(),
                patterns: None,
            });
        }
    }
}

/// The declarations, equations and other items: each begins at the left edge and takes in the indented lines after it.
fn items(text: &str) -> Vec<Range<usize>> {
    let mut found: Vec<Range<usize>> = Vec::new();
    let mut at = 0;
    for line in text.split_inclusive('\n') {
        let indented =
            line.starts_with([' ', '\t']) || line.trim().is_empty() || line.starts_with('}');
        if indented {
            if let Some(last) = found.last_mut() {
                last.end = at + line.len();
            }
        } else if !line.starts_with("--") {
            found.push(at..at + line.len());
        }
        at += line.len();
    }
    found
}

/// The types of a function's arguments, the hidden ones left out.
fn arguments(kind: &str) -> Vec<String> {
    let words = tokens(kind, 0, kind.len());
    let mut depth = 0;
    let mut parts = vec![Vec::new()];
    for t in &words {
        match t.text.as_str() {
            "(" | "{" => depth += 1,
            ")" | "}" => depth -= 1,
            _ => {}
        }
        if t.text == "→" && depth == 0 {
            parts.push(Vec::new());
        } else {
            parts.last_mut().unwrap().push(t.clone());
        }
    }
    parts.pop();
    parts
        .iter()
        .filter(|p| p.first().is_some_and(|t| t.text != "{"))
        .map(|p| joined(p))
        .collect()
}

const CONSTRUCTORS: [&str; 14] = [
    "zero", "suc", "true", "false", "none", "some", "[]", "∷", "refused", "given", "accept",
    "reject", "both", "_",
];

/// The variables of the patterns on a left side.
fn pattern_variables(patterns: &[Token], types: &[String]) -> Vec<(String, Option<String>)> {
    let mut bound = Vec::new();
    let mut place = 0;
    let mut i = 0;
    while i < patterns.len() {
        let kind = types.get(place).cloned();
        if patterns[i].text == "(" {
            let end = closing(patterns, i);
            let inside = &patterns[i + 1..end];
            let listed = inside.iter().any(|t| t.text == "∷");
            let element = kind.as_deref().map(|k| {
                if k == "History" {
                    "List ℕ".to_string()
                } else {
                    k.to_string()
                }
            });
            let element = element.and_then(|k| {
                k.split_once(' ').map(|(_, e)| {
                    e.trim_start_matches("( ")
                        .trim_end_matches(" )")
                        .to_string()
                })
            });
            for (j, t) in inside.iter().enumerate() {
                if is_variable(&t.text) {
                    let kind = match () {
                        _ if inside[0].text == "suc" => Some("ℕ".to_string()),
                        _ if listed && j + 1 == inside.len() => kind.clone(),
                        _ if listed || inside[0].text == "some" => element.clone(),
                        _ => None,
                    };
                    bound.push((t.text.clone(), kind));
                }
            }
            i = end;
        } else if is_variable(&patterns[i].text) {
            bound.push((patterns[i].text.clone(), kind));
        }
        place += 1;
        i += 1;
    }
    bound
}

fn is_variable(word: &str) -> bool {
    !CONSTRUCTORS.contains(&word)
        && word
            .chars()
            .next()
            .is_some_and(|c| c.is_lowercase() || c.is_uppercase())
        && !word.contains('.')
}

/// The place of the bracket that closes the one at `open`; the end, if none does.
pub fn closing(words: &[Token], open: usize) -> usize {
    let mut depth = 0;
    for (i, t) in words.iter().enumerate().skip(open) {
        match t.text.as_str() {
            "(" | "{" => depth += 1,
            ")" | "}" => {
                depth -= 1;
                if depth == 0 {
                    return i;
                }
            }
            _ => {}
        }
    }
    words.len()
}

/// The variables that `(a b : T)` binds, wherever it stands.
pub fn binders(words: &[Token], bound: &mut Vec<(String, Option<String>)>) {
    for open in 0..words.len() {
        if words[open].text != "(" {
            continue;
        }
        let end = closing(words, open);
        if end == words.len() {
            continue;
        }
        let inside = &words[open + 1..end];
        let Some(colon) = inside.iter().position(|t| t.text == ":") else {
            continue;
        };
        if inside[..colon].iter().all(|t| is_variable(&t.text)) {
            let kind = joined(&inside[colon + 1..]);
            bound.extend(
                inside[..colon]
                    .iter()
                    .map(|t| (t.text.clone(), Some(kind.clone()))),
            );
        }
    }
}
