//! What is wrong with a text, and where: the one message that its writer gets.

use super::token::is_deceptive;

/// The most columns of a line that are shown.
const MOST_SHOWN: usize = 120;

/// A mistake in a text.
#[derive(Clone, Debug, PartialEq, Eq)]
pub struct Mistake {
    /// From 1.
    pub line: usize,
    /// From 1, in characters.
    pub column: usize,
    /// How many characters the mark covers, at least 1.
    pub length: usize,
    /// What was expected, and what stands there.
    pub message: String,
}

impl Mistake {
    /// File, line, column and message; then the line itself, with a mark under
    /// the place.
    pub fn report(&self, file: &str, text: &str) -> String {
        let line: Vec<char> = text.lines().nth(self.line - 1).unwrap_or("").chars().collect();
        let at = (self.column - 1).min(line.len());
        let first = if at < MOST_SHOWN { 0 } else { at - MOST_SHOWN / 2 };
        let shown = &line[first..line.len().min(first + MOST_SHOWN)];
        let before = &line[first..at];
        let marked = line[at..].iter().take(self.length.min(first + MOST_SHOWN - at));
        let cut = if first > 0 { "… " } else { "" };
        let width: usize = marked.map(|&letter| columns(letter)).sum();
        format!(
            "{file}:{}:{}: {}\n    {cut}{}\n    {}{}{}\n",
            self.line,
            self.column,
            self.message,
            shown.iter().map(|&letter| visible(letter)).collect::<String>().trim_end(),
            " ".repeat(cut.chars().count()),
            before.iter().map(blank_like).collect::<String>(),
            "^".repeat(width.max(1)),
        )
    }
}

/// A character that acts on a terminal, or changes how others are shown, is shown
/// as the sign for one that cannot be.
fn visible(letter: char) -> char {
    match letter != '\t' && (letter.is_control() || is_deceptive(letter)) {
        true => char::REPLACEMENT_CHARACTER,
        false => letter,
    }
}

/// As many blanks as a character takes columns; a tab stays one.
fn blank_like(letter: &char) -> String {
    match letter {
        '\t' => "\t".to_string(),
        _ => " ".repeat(columns(*letter)),
    }
}

/// How many columns of a terminal a character takes: two for wide ones of East
/// Asia, none for accents that stand on the letter before.
fn columns(letter: char) -> usize {
    match u32::from(letter) {
        0x0300..=0x036F | 0x200B..=0x200D | 0xFE00..=0xFE0F => 0,
        0x1100..=0x115F | 0x2E80..=0xA4CF | 0xAC00..=0xD7A3 | 0xF900..=0xFAFF => 2,
        0xFE30..=0xFE6F | 0xFF00..=0xFF60 | 0xFFE0..=0xFFE6 | 0x1F300..=0x1FAFF => 2,
        0x20000..=0x3FFFD => 2,
        _ => 1,
    }
}
