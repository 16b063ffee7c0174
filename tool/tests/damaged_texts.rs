//! Texts with something wrong in them: reading one ends soon, without a panic,
//! with a policy or with one message whose place exists.

mod common;

use std::time::{Duration, Instant};

use common::layout::odd_text;
use common::named::{draw_names, QUOTED, RESERVED};
use common::run::{run, Folder};
use common::{policy_file, Met, Random};
use policybook::notation::{parse, print, Mistake, Text};
use policybook::policy::Policy;

/// How many texts are damaged, from how many good ones.
const DAMAGED: u64 = 100_000;
const GOOD: u64 = 600;

/// No text of some kilobytes takes longer to read.
const LONGEST: Duration = Duration::from_millis(50);

/// What is put where it does not belong.
const TROUBLE: [&str; 30] = [
    "\"",
    "\"\"",
    "#",
    "\0",
    "\u{1b}",
    "\u{7f}",
    "\u{85}",
    "\u{feff}",
    "\u{202e}",
    "\u{2066}",
    "\u{2028}",
    "\u{200b}",
    "\u{301}",
    "\u{a0}",
    "館",
    "🗝",
    "\r",
    "\n",
    "\r\n",
    "\t",
    ",",
    "=",
    ">",
    "<=",
    "≥",
    "!",
    "-",
    "\\",
    "4294967296",
    "99999999999999999999",
];

/// Texts that are read without a mistake.
fn good_texts() -> Vec<String> {
    let sample = concat!(env!("CARGO_MANIFEST_DIR"), "/../samples/meaning.txt");
    let mut texts = vec![std::fs::read_to_string(sample).expect("a sample")];
    for number in 2_000_000..2_000_000 + GOOD {
        let (bytes, _) = policy_file(number);
        let mut random = Random::new(number, "good text");
        let (Ok(policy), Ok(read)) = (Policy::decode(&bytes), reference::policy::read(&bytes)) else {
            continue;
        };
        let names = draw_names(&policy.frame, read.variables, &mut random);
        texts.push(match random.chance(2, 3) {
            true => print(&policy, &names, &[]),
            false => odd_text(&read, &names, &mut random).text,
        });
    }
    texts
}

/// A piece of the text, of a few characters.
fn piece(letters: &[char], random: &mut Random) -> std::ops::Range<usize> {
    let first = random.below(letters.len());
    first..letters.len().min(first + *random.pick(&[1, 1, 2, 3, 10]))
}

fn trouble(random: &mut Random) -> Vec<char> {
    match random.below(16) {
        0 => vec!['a'; *random.pick(&[64, 65, 5_000])],
        1 => vec!['9'; *random.pick(&[3, 10, 11, 200])],
        2 => format!("\"{}\"", "é".repeat(*random.pick(&[0, 64, 65]))).chars().collect(),
        3 => format!(" {} ", random.pick(&RESERVED)).chars().collect(),
        4 => format!("\"{}\"", random.pick(&QUOTED)).chars().collect(),
        _ => random.pick(&TROUBLE).chars().collect(),
    }
}

/// Changes some characters.
fn damage_letters(letters: &mut Vec<char>, random: &mut Random) {
    let here = piece(letters, random);
    match random.below(6) {
        0 => drop(letters.drain(here)),
        1 => {
            let twice: Vec<char> = letters[here.clone()].to_vec();
            letters.splice(here.start..here.start, twice);
        }
        2 => letters.swap(here.start, random.below(here.end)),
        3 => letters.truncate(here.start),
        4 => drop(letters.splice(here.start..here.start, trouble(random))),
        _ => drop(letters.splice(here, trouble(random))),
    }
}

/// Puts lines elsewhere, or leaves one out, or has one twice.
fn damage_lines(text: &str, random: &mut Random) -> String {
    let mut lines: Vec<&str> = text.split('\n').collect();
    let line = random.below(lines.len());
    match random.below(4) {
        0 => random.shuffle(&mut lines),
        1 => drop(lines.remove(line)),
        2 => lines.insert(line, lines[random.below(lines.len())]),
        _ => lines.swap(line, random.below(line + 1)),
    }
    lines.join("\n")
}

/// Puts a word of the text, or of the notation, in place of another.
fn damage_words(text: &str, random: &mut Random) -> String {
    let words: Vec<&str> = text.split_inclusive([' ', '\n', ',']).collect();
    let place = random.below(words.len());
    let other = match random.chance(1, 2) {
        true => words[random.below(words.len())].to_string(),
        false => format!("{} ", random.pick(&RESERVED)),
    };
    let part = |(number, word): (usize, &&str)| match number == place {
        true => other.clone(),
        false => word.to_string(),
    };
    words.iter().enumerate().map(part).collect()
}

fn damaged(good: &str, random: &mut Random) -> String {
    let mut text = good.to_string();
    for _ in 0..*random.pick(&[1, 1, 1, 2, 4]) {
        if text.is_empty() {
            break;
        }
        text = match random.below(8) {
            0 => damage_lines(&text, random),
            1 => damage_words(&text, random),
            _ => {
                let mut letters: Vec<char> = text.chars().collect();
                damage_letters(&mut letters, random);
                letters.into_iter().collect()
            }
        };
    }
    text
}

/// Reads a text, a second and third time if the first took long: another program
/// may have had its turn.
fn parse_soon(text: &str) -> Result<Text, Mistake> {
    let mut times = Vec::new();
    loop {
        let begin = Instant::now();
        let read = parse(text);
        times.push(begin.elapsed());
        if times[times.len() - 1] < LONGEST {
            return read;
        }
        assert!(times.len() < 5, "{times:?} for\n{text}");
    }
}

/// Whether a terminal shows the character and does nothing else.
fn is_harmless(letter: char) -> bool {
    let reorders = ['\u{feff}', '\u{202e}', '\u{2066}'].contains(&letter);
    letter == '\t' || letter == '\n' || !letter.is_control() && !reorders
}

fn check_mistake(mistake: &Mistake, text: &str) {
    let lines: Vec<&str> = text.split('\n').collect();
    let line = lines.get(mistake.line - 1).unwrap_or_else(|| panic!("{mistake:?} in\n{text}"));
    let letters = line.chars().count();
    let (column, length) = (mistake.column, mistake.length);
    assert!(column >= 1 && length >= 1 && column + length <= letters + 2, "{mistake:?} in\n{text}");
    let report = mistake.report("a file", text);
    let parts: Vec<&str> = report.split('\n').collect();
    let [head, shown, mark, ""] = parts[..] else {
        panic!("{report}");
    };
    let place = format!("a file:{}:{column}: ", mistake.line);
    assert!(head.starts_with(&place) && head.len() > place.len() + 10, "{report}");
    let marks = mark.trim_start();
    assert!(marks.starts_with('^') && marks.chars().all(|letter| letter == '^'), "{report}");
    assert!(report.chars().all(is_harmless), "{report:?}");
    if line.chars().all(|letter| letter == ' ' || letter.is_ascii_graphic()) {
        check_mark(mistake, line, shown, mark);
    }
}

/// Of a plain line: the mark is under the character that is meant, and a line of
/// up to 119 characters is shown whole.
fn check_mark(mistake: &Mistake, line: &str, shown: &str, mark: &str) {
    let (column, letters) = (mistake.column, line.len());
    let at = |line: &str, place: usize| line.chars().nth(place).unwrap_or(' ');
    let first = mark.find('^').expect("a mark");
    assert_eq!(at(shown, first), at(line, column - 1), "{shown}\n{mark}");
    if letters < 120 {
        let marks = mistake.length.min((letters + 1 - column).max(1));
        assert_eq!(shown, format!("    {}", line.trim_end()));
        assert_eq!(mark.len() - first, marks, "{shown}\n{mark}");
        assert_eq!(first, 3 + column, "{shown}\n{mark}");
    }
    assert!(shown.chars().count() < 130 && mark.len() < 130, "{shown}\n{mark}");
}

/// A text that is read can be written, and says the same then.
fn check_text(text: &Text, input: &str) {
    let standard = print(&text.policy, &text.names, &text.notes);
    let again = parse(&standard).unwrap_or_else(|mistake| panic!("{mistake:?} in\n{standard}\nof\n{input}"));
    assert_eq!(again.policy, text.policy, "{input}");
    assert_eq!(again.names, text.names, "{input}");
    let harmless = |letter: char| is_harmless(letter) || letter.is_whitespace();
    assert!(standard.chars().all(harmless), "{standard:?}");
}

#[test]
fn damaged_texts_are_read_or_have_one_mistake_with_its_place() {
    let good = good_texts();
    let mut met = Met::default();
    for number in 0..DAMAGED {
        let mut random = Random::new(number, "damage");
        let text = damaged(&good[random.below(good.len())], &mut random);
        let read = parse_soon(&text);
        met.note("read all the same", read.is_ok());
        match read {
            Ok(read) => check_text(&read, &text),
            Err(mistake) => {
                met.note("something else expected", mistake.message.contains("expected"));
                met.note("no word at all", !mistake.message.contains("expected"));
                check_mistake(&mistake, &text);
            }
        }
    }
    met.each_at_least(2_000);
}

#[test]
fn texts_of_nothing_but_trouble_have_a_mistake() {
    for number in 0..5_000 {
        let mut random = Random::new(number, "trouble");
        let text: String = (0..random.below(20)).flat_map(|_| trouble(&mut random)).collect();
        check_mistake(&parse_soon(&text).expect_err("no field is declared"), &text);
    }
}

/// Runs `check` on a file that is no text; its one message.
fn message_on(bytes: &[u8], folder: &Folder) -> String {
    let name = folder.file("input", bytes);
    let begin = Instant::now();
    let ran = run(&["check", &name], &[]);
    assert!(begin.elapsed() < Duration::from_secs(10), "{:?}", begin.elapsed());
    assert_eq!((ran.status, ran.text()), (2, ""));
    assert!(ran.errors.starts_with(&format!("{name}:")), "{}", ran.errors);
    assert!(ran.errors.len() < 2_000, "{}", ran.errors);
    ran.errors
}

#[test]
fn files_that_are_no_text_are_refused() {
    let folder = Folder::new("no-text");
    for bytes in [&b"field a = \xFF, b"[..], b"\xC3", b"\xED\xA0\x80", b"field\0a = b, c"] {
        let message = message_on(bytes, &folder);
        assert!(message.contains("UTF-8"), "{message}");
    }
    let message = message_on(b"field a = x,\n y\xE9", &folder);
    assert!(message.contains("byte 15, on line 2, is E9"), "{message}");
}

#[test]
fn huge_files_are_refused_soon() {
    let folder = Folder::new("huge");
    let long = "field a = b, c\n".repeat(200_000);
    assert!(message_on(long.as_bytes(), &folder).contains("1048576 bytes"));
    for word in ["rule ", "rule\n", "#\n", "\"", ",", "a", "9", "(", "館 ", "\n", "events e\n"] {
        let text = word.repeat((1 << 20) / word.len());
        let message = message_on(text.as_bytes(), &folder);
        assert!(message.contains('^'), "{message}");
    }
    let digits = "events ".to_string() + &"9".repeat(1_000_000);
    message_on(digits.as_bytes(), &folder);
    let comments = "field a = b, c\n".to_string() + &"# note\n\n".repeat(100_000);
    let name = folder.file("comments", comments);
    let begin = Instant::now();
    assert_eq!(run(&["print", &name], &[]).status, 0);
    assert!(begin.elapsed() < Duration::from_secs(10), "{:?}", begin.elapsed());
}
