//! The yearly inventory: which of many files are byte for byte equal. No two
//! files are compared with each other; they are put in order by their bytes.

use std::collections::BTreeMap;

/// A file, book or not.
pub struct File<'a> {
    /// The name as it was given.
    pub name: &'a str,
    /// What it holds.
    pub bytes: Vec<u8>,
}

/// The groups of equal files in the order in which their first files are named,
/// then the files equal to no other, then how many files and contents there are.
pub fn inventory(files: &[File]) -> String {
    let groups = groups(files);
    let (alone, equal): (Vec<_>, Vec<_>) = groups.iter().partition(|group| group.len() == 1);
    let mut text = String::new();
    for group in equal {
        let length = counted(files[group[0]].bytes.len(), "byte");
        text += &format!("{} equal files of {length}:\n", group.len());
        text += &name_lines(files, group);
    }
    if !alone.is_empty() {
        text += "unlike every other file:\n";
        text += &alone
            .into_iter()
            .map(|group| name_lines(files, group))
            .collect::<String>();
    }
    let all = counted(files.len(), "file");
    format!("{text}{all}, {} different\n", groups.len())
}

/// For each content the places in the list of the files that have it.
fn groups(files: &[File]) -> Vec<Vec<usize>> {
    let mut places: BTreeMap<&[u8], Vec<usize>> = BTreeMap::new();
    for (place, file) in files.iter().enumerate() {
        places.entry(&file.bytes).or_default().push(place);
    }
    let mut groups: Vec<Vec<usize>> = places.into_values().collect();
    groups.sort();
    groups
}

fn name_lines(files: &[File], group: &[usize]) -> String {
    let line = |&place: &usize| format!("  {}\n", files[place].name);
    group.iter().map(line).collect()
}

fn counted(number: usize, thing: &str) -> String {
    match number {
        1 => format!("1 {thing}"),
        _ => format!("{number} {thing}s"),
    }
}
