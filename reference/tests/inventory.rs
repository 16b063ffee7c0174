//! The inventory of many files: its lines to the letter, and on generated files
//! against the plain test of equal bytes, asked of every pair.

use reference::compare::equal_bytes;
use reference::generate::{self, Random};
use reference::inventory::{inventory, File};

/// The inventory of files with these names and contents.
fn of(files: &[(&str, &[u8])]) -> String {
    let file = |&(name, bytes)| File {
        name,
        bytes: Vec::from(bytes),
    };
    let files: Vec<File> = files.iter().map(file).collect();
    inventory(&files)
}

#[test]
fn equal_files_come_first_then_those_alone() {
    assert_eq!(
        of(&[
            ("x", b"alone"),
            ("b", b"BOK"),
            ("a", b"policy"),
            ("y", b"BOX"),
            ("c", b"policy"),
            ("d", b"BOK"),
            ("e", b"BOK"),
        ]),
        "3 equal files of 3 bytes:\n  b\n  d\n  e\n2 equal files of 6 bytes:\n  a\n  c\n\
         unlike every other file:\n  x\n  y\n7 files, 4 different\n"
    );
}

/// Neither the names nor the contents decide the order, but where a group's
/// first file is named.
#[test]
fn groups_come_in_the_order_in_which_they_are_named() {
    assert_eq!(
        of(&[
            ("z", b"later"),
            ("y", b"early"),
            ("b", b"early"),
            ("a", b"later")
        ]),
        "2 equal files of 5 bytes:\n  z\n  a\n2 equal files of 5 bytes:\n  y\n  b\n\
         4 files, 2 different\n"
    );
}

#[test]
fn files_of_no_byte_and_of_one() {
    assert_eq!(
        of(&[("a", b""), ("b", b"0"), ("c", b""), ("d", b"0")]),
        "2 equal files of 0 bytes:\n  a\n  c\n2 equal files of 1 byte:\n  b\n  d\n\
         4 files, 2 different\n"
    );
    assert_eq!(
        of(&[("a", b""), ("b", b"\0")]),
        "unlike every other file:\n  a\n  b\n2 files, 2 different\n"
    );
}

#[test]
fn a_file_alone_and_a_file_named_twice() {
    assert_eq!(
        of(&[("a", b"BOK")]),
        "unlike every other file:\n  a\n1 file, 1 different\n"
    );
    assert_eq!(
        of(&[("a", b"BOK"), ("a", b"BOK")]),
        "2 equal files of 3 bytes:\n  a\n  a\n2 files, 1 different\n"
    );
}

/// A file that differs in its last byte, or is shorter by it, is another.
#[test]
fn files_of_the_greatest_length() {
    let mut books = (0..).map(|seed| generate::equal_strings(seed).0);
    let book = books.find(|book| book.len() == 17_284).expect("a book");
    let mut changed = book.clone();
    *changed.last_mut().expect("a byte") ^= 1;
    let shorter = &book[..book.len() - 1];
    assert_eq!(
        of(&[
            ("a", &book),
            ("b", &changed),
            ("c", shorter),
            ("d", &book.clone())
        ]),
        "2 equal files of 17284 bytes:\n  a\n  d\nunlike every other file:\n  b\n  c\n\
         4 files, 3 different\n"
    );
}

/// Some files, of which many are equal and many differ in little.
fn some_contents(seed: u64) -> Vec<Vec<u8>> {
    let mut random = Random::new(seed, "inventory");
    let kinds = random.between(1, 4);
    let mut contents = Vec::new();
    for pair in (0..kinds).map(|_| random.number()) {
        let (first, second) = match pair % 4 {
            0 => generate::equal_strings(pair),
            1 => generate::one_bit_strings(pair),
            2 => generate::cancelling_strings(pair),
            _ => generate::prefix_strings(pair),
        };
        contents.extend([first, second]);
    }
    (0..random.between(1, 12))
        .map(|_| random.pick(&contents).clone())
        .collect()
}

/// The same lines by the test of equal bytes, each file with each.
fn by_pairs(contents: &[Vec<u8>]) -> String {
    let mut text = String::new();
    let mut alone = String::new();
    let mut different = 0;
    for (place, bytes) in contents.iter().enumerate() {
        let equal: Vec<usize> = (0..contents.len())
            .filter(|&other| equal_bytes(&contents[other], bytes))
            .collect();
        if equal[0] < place {
            continue;
        }
        different += 1;
        if equal.len() == 1 {
            alone += &format!("  {place}\n");
            continue;
        }
        let plural = if bytes.len() == 1 { "" } else { "s" };
        text += &format!(
            "{} equal files of {} byte{plural}:\n",
            equal.len(),
            bytes.len()
        );
        text.extend(equal.iter().map(|other| format!("  {other}\n")));
    }
    if !alone.is_empty() {
        text += &format!("unlike every other file:\n{alone}");
    }
    let plural = if contents.len() == 1 { "" } else { "s" };
    format!(
        "{text}{} file{plural}, {different} different\n",
        contents.len()
    )
}

#[test]
fn generated_files_are_grouped_as_pairs_say() {
    let mut met = [0; 3];
    for contents in (0..1_000).map(some_contents) {
        let names: Vec<String> = (0..contents.len()).map(|place| place.to_string()).collect();
        let files = names.iter().zip(&contents);
        let files: Vec<(&str, &[u8])> =
            files.map(|(name, bytes)| (&name[..], &bytes[..])).collect();
        let lines = of(&files);
        assert_eq!(lines, by_pairs(&contents));
        met[0] += usize::from(lines.matches("equal files").count() > 1);
        met[1] += usize::from(lines.contains("unlike"));
        met[2] += usize::from(!lines.contains("unlike"));
    }
    assert!(met.iter().all(|&count| count > 100), "{met:?}");
}
