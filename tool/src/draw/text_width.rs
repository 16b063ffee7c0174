//! Approximate widths of text in a sans-serif font, on the generous side, and text
//! broken into lines that fit a width.

/// The widths of the ASCII characters from the blank on, in hundredths of the size:
/// those of DejaVu Sans, rounded up.
const ASCII: [u8; 95] = [
    32, 41, 46, 84, 64, 96, 78, 28, 40, 40, 50, 84, 32, 37, 32, 34, 64, 64, 64, 64, 64, 64, 64, 64, 64, 64, 34, 34, 84,
    84, 84, 54, 100, 69, 69, 70, 77, 64, 58, 78, 76, 30, 30, 66, 56, 87, 75, 79, 61, 79, 70, 64, 62, 74, 69, 99, 69,
    62, 69, 40, 34, 40, 84, 50, 50, 62, 64, 55, 64, 62, 36, 64, 64, 28, 28, 58, 28, 98, 64, 62, 64, 64, 42, 53, 40, 64,
    60, 82, 60, 60, 53, 64, 34, 64, 84,
];

/// The width of any other character, in hundredths of the size.
const OTHER: u8 = 100;

/// How much wider bold text is, at most.
pub const BOLD: f64 = 1.27;

/// The width of a text in letters of a size.
pub fn width(text: &str, size: f64) -> f64 {
    let hundredths: f64 = text.chars().map(|letter| f64::from(hundredths(letter))).sum();
    hundredths * size / 100.0
}

/// The width of a text in bold letters of a size.
pub fn bold_width(text: &str, size: f64) -> f64 {
    width(text, size) * BOLD
}

fn hundredths(letter: char) -> u8 {
    let place = (letter as usize).checked_sub(32);
    place.and_then(|place| ASCII.get(place)).copied().unwrap_or(OTHER)
}

/// The text in lines no wider than a width, broken at blanks, and within a word only
/// where the word alone is wider.
pub fn wrap(text: &str, size: f64, most: f64) -> Vec<String> {
    let mut lines = Vec::new();
    let mut line = String::new();
    for word in text.split(' ').flat_map(|word| pieces(word, size, most)) {
        let longer = if line.is_empty() { word.clone() } else { format!("{line} {word}") };
        if width(&longer, size) <= most || line.is_empty() {
            line = longer;
        } else {
            lines.push(std::mem::replace(&mut line, word));
        }
    }
    lines.push(line);
    lines
}

/// A word cut into pieces no wider than a width.
fn pieces(word: &str, size: f64, most: f64) -> Vec<String> {
    let mut pieces = Vec::new();
    let mut piece = String::new();
    for letter in word.chars() {
        piece.push(letter);
        if width(&piece, size) > most && piece.chars().count() > 1 {
            piece.pop();
            pieces.push(std::mem::replace(&mut piece, letter.to_string()));
        }
    }
    pieces.push(piece);
    pieces
}

#[cfg(test)]
mod tests {
    use super::*;

    #[test]
    fn lines_fit_and_lose_nothing() {
        let text = "restoration assistant or conservator, open or lend or Überschriftenverzeichnis";
        for most in [20.0, 60.0, 100.0, 1000.0] {
            let lines = wrap(text, 13.0, most);
            assert!(lines.iter().all(|line| width(line, 13.0) <= most));
            let without_blanks = |text: &str| text.replace(' ', "");
            assert_eq!(without_blanks(&lines.concat()), without_blanks(text));
        }
    }
}
