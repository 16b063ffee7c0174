//! Bytes as hexadecimal text, and back.

use crate::book::Book;

/// Two digits for each byte, one blank apart.
pub fn line(bytes: &[u8]) -> String {
    let parts: Vec<String> = bytes.iter().map(|byte| format!("{byte:02X}")).collect();
    parts.join(" ")
}

/// A book as text: a line for the header, then a line for each row.
pub fn book_lines(book: &Book) -> String {
    let mut text = line(&book.header());
    for row in &book.rows {
        text.push('\n');
        text.push_str(&line(row));
    }
    text.push('\n');
    text
}

/// Reads hexadecimal text; blanks and `|` between bytes are passed over.
/// Anything else gives nothing.
pub fn parse(text: &str) -> Option<Vec<u8>> {
    text.split(|letter: char| letter.is_whitespace() || letter == '|')
        .filter(|part| !part.is_empty())
        .map(|part| u8::from_str_radix(part, 16).ok())
        .collect()
}
